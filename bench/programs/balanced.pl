% A balanced tree of alternatives.
tree(0) :- !.
tree(N) :- M is N - 1, branch(M).
branch(N) :- tree(N).
branch(N) :- tree(N).
?- tree(20), fail.
