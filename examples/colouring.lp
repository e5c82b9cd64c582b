% A map colouring: the states of Australia's mainland, no two neighbours of one colour. Two colours are given, so that
% there is one answer.
state(wa;nt;sa;q;nsw;v).
colour(red;green;blue).
border(wa,nt). border(wa,sa). border(nt,sa). border(nt,q). border(sa,q).
border(sa,nsw). border(sa,v). border(q,nsw). border(nsw,v).

{ col(S,C) : colour(C) } = 1 :- state(S).
:- border(S,R), col(S,C), col(R,C).
:- not col(wa,red).
:- not col(nt,green).

#show col/2.
