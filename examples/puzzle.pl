% Three neighbours in a row of houses, each of one colour, with one pet. Generate a row, and test what is known of it:
% the red house is just left of the one with the fish; the cat lives in the blue house; the green house is not the
% first; the dog does not live beside the cat.

member(X, [X|_]).
member(X, [_|Rest]) :- member(X, Rest).

select(X, [X|Rest], Rest).
select(X, [Y|Rest], [Y|Others]) :- select(X, Rest, Others).

order([], []).
order(Items, [X|Order]) :- select(X, Items, Others), order(Others, Order).

left_of(A, B, [A,B|_]).
left_of(A, B, [_|Rest]) :- left_of(A, B, Rest).

beside(A, B, Row) :- left_of(A, B, Row) ; left_of(B, A, Row).

row([house(A, X), house(B, Y), house(C, Z)]) :-
    order([red, green, blue], [A, B, C]),
    order([cat, dog, fish], [X, Y, Z]).

solution(Row) :-
    row(Row),
    left_of(house(red, _), house(_, fish), Row),
    member(house(blue, cat), Row),
    \+ Row = [house(green, _)|_],
    \+ beside(house(_, dog), house(_, cat), Row).

?- solution(Row).
