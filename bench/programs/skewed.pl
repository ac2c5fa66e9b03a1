% A tree of alternatives in which each right branch ends soon.
tree(0) :- !.
tree(N) :- M is N - 1, branch(M).
branch(N) :- tree(N).
branch(N) :- N < 0.
?- tree(200000), fail.
