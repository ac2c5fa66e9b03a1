% Sums and products, simplified from the inside: nought and one go away, equal terms double, and powers are products.

simplify(A + B, S) :- !, simplify(A, C), simplify(B, D), sum(C, D, S).
simplify(A * B, P) :- !, simplify(A, C), simplify(B, D), product(C, D, P).
simplify(A - B, S) :- !, simplify(A, C), simplify(B, D), difference(C, D, S).
simplify(A ^ 2, P) :- !, simplify(A * A, P).
simplify(A, A).

sum(0, B, B) :- !.
sum(A, 0, A) :- !.
sum(A, A, 2 * A) :- !.
sum(A, B, A + B).

difference(A, 0, A) :- !.
difference(A, A, 0) :- !.
difference(A, B, A - B).

product(0, _, 0) :- !.
product(_, 0, 0) :- !.
product(1, B, B) :- !.
product(A, 1, A) :- !.
product(A, B, A * B).

?- simplify((x + 0) * 1 - 0 * y, S).
?- simplify((a * 1 + a) * (b - b + c ^ 2), S).
?- once(simplify(x - (y - y), S)), \+ S = 0.
