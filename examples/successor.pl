plus(zero, Y, Y).
plus(s(X), Y, s(Z)) :- plus(X, Y, Z).

times(zero, _, zero).
times(s(X), Y, Z) :- times(X, Y, P), plus(P, Y, Z).

?- plus(X, Y, s(s(s(zero)))), times(X, Y, Product).
