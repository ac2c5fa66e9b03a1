% SEND + MORE = MONEY: each letter is a digit of its own, and M and S are not 0. The columns are added from the right,
% and each letter is chosen where it is first needed.

select(X, [X|Rest], Rest).
select(X, [Y|Rest], [Y|Others]) :- select(X, Rest, Others).

% X + Y + Carry is Z with Next to carry; Z is one of the digits.
column(X, Y, Carry, Z, Next, Digits, Others) :-
    Sum is X + Y + Carry,
    Z is Sum mod 10,
    Next is Sum // 10,
    select(Z, Digits, Others).

digit_of(Z, X, Y, Carry, Next) :-
    Sum is X + Y + Carry,
    Z =:= Sum mod 10,
    Next is Sum // 10.

puzzle([S,E,N,D], [M,O,R,E], [M,O,N,E,Y]) :-
    M = 1,
    All = [0,2,3,4,5,6,7,8,9],
    select(D, All, A), select(E, A, B),
    column(D, E, 0, Y, C1, B, C),
    select(N, C, F),
    R is (E - N - C1 + 20) mod 10, select(R, F, G),
    digit_of(E, N, R, C1, C2),
    O is (N - E - C2 + 20) mod 10, select(O, G, H),
    digit_of(N, E, O, C2, C3),
    select(S, H, _),
    digit_of(O, S, M, C3, M).

?- puzzle(Send, More, Money).
