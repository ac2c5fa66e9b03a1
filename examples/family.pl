parent(ann, ben).
parent(ann, cleo).
parent(ben, dora).
parent(cleo, emil).
parent(dora, finn).

ancestor(X, Y) :- parent(X, Y).
ancestor(X, Y) :- parent(X, Z), ancestor(Z, Y).

?- ancestor(ann, Who), parent(Who, Child).
