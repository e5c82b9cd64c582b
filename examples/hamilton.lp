% A Hamiltonian cycle: a way along the arcs of a directed graph that comes through each node once and back to the first.
% This graph has one. That each node is reached is positive recursion.
node(1..6).
arc(1,2). arc(1,3). arc(1,4).
arc(2,4). arc(2,5). arc(2,6).
arc(3,1). arc(3,4). arc(3,5).
arc(4,2).
arc(5,3). arc(5,4).
arc(6,2). arc(6,3). arc(6,5).

{ next(X,Y) : arc(X,Y) } = 1 :- node(X).
{ next(X,Y) : arc(X,Y) } = 1 :- node(Y).

reached(Y) :- next(1,Y).
reached(Y) :- reached(X), next(X,Y).
:- node(X), not reached(X).

#show next/2.
