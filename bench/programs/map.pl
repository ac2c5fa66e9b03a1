% Maps of six regions coloured with four colours, all ways, two thousand times.
colour(red). colour(green). colour(blue). colour(yellow).
other(A, B) :- A \== B.
map([A,B,C,D,E,F]) :-
    colour(A), colour(B), other(A, B), colour(C), other(C, A), other(C, B), colour(D), other(D, B), other(D, C),
    colour(E), other(E, C), other(E, D), colour(F), other(F, D), other(F, E), other(F, A).
rounds(0) :- !.
rounds(N) :- count, M is N - 1, rounds(M).
count :- map(_), fail.
count.
?- rounds(2000).
