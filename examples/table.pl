% A table of squares and cubes, written while it is searched for: each row as it is found, then the sum of the cubes.

row(N, Square, Cube) :-
    between(1, 5, N),
    Square is N * N,
    Cube is N * Square.

% pad(N) writes N in three columns.
pad(N) :- N < 10, !, write('  '), write(N).
pad(N) :- N < 100, !, write(' '), write(N).
pad(N) :- write(N).

rows :-
    row(N, Square, Cube),
    pad(N), pad(Square), write(' '), pad(Cube), nl,
    fail.
rows.

sum([], 0).
sum([N|Ns], Sum) :- sum(Ns, Rest), Sum is N + Rest.

?- rows.
?- findall(Cube, row(_, _, Cube), Cubes), sum(Cubes, Sum).
