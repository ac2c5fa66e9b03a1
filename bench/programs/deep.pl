% A list of 1,000,000 items, made and counted by recursion that leaves a goal at each step.
made(0, []) :- !.
made(N, [N|T]) :- M is N - 1, made(M, T).
count([], 0).
count([_|T], N) :- count(T, M), N is M + 1.
?- made(1000000, L), count(L, 1000000).
