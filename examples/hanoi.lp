% The towers of Hanoi, with a horizon: three discs, of which 3 is the largest, go from peg a to peg c in seven moves.
% There is one plan of that length.
#const horizon = 7.
disc(1..3). peg(a;b;c).
time(1..horizon).

on(D,a,0) :- disc(D).

% One move a time; a disc that is not moved stays.
{ move(D,P,T) : disc(D), peg(P) } = 1 :- time(T).
moved(D,T) :- move(D,P,T).
on(D,P,T) :- move(D,P,T).
on(D,P,T) :- on(D,P,T-1), not moved(D,T), time(T).

% A disc is moved from under no smaller one, and onto no smaller one.
:- move(D,P,T), on(D,Q,T-1), on(E,Q,T-1), E < D.
:- move(D,P,T), on(E,P,T-1), E < D.
:- move(D,P,T), on(D,P,T-1).

:- disc(D), not on(D,c,horizon).

#show move/3.
