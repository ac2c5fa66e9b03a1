% The number of ways to cross a grid, moving right or down, by fields that are closed. Each field's number is counted
% once, and kept as a fact: without the facts the budget would not suffice.

:- dynamic(ways/3).

closed(2, 3).
closed(3, 2).
closed(7, 8).

paths(X, Y, N) :- ways(X, Y, N), !.
paths(X, Y, N) :-
    count(X, Y, N),
    asserta(ways(X, Y, N)).

count(X, Y, 0) :- closed(X, Y), !.
count(_, 0, 1) :- !.
count(0, _, 1) :- !.
count(X, Y, N) :-
    Left is X - 1, Above is Y - 1,
    paths(Left, Y, A),
    paths(X, Above, B),
    N is A + B.

kept(Fields) :- findall(x, ways(_, _, _), Xs), length(Xs, Fields).

?- paths(12, 12, Ways).
?- kept(Fields).
