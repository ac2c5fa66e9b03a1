% Lists of lists of results.
digit(0). digit(1). digit(2). digit(3). digit(4). digit(5). digit(6). digit(7). digit(8). digit(9).
rows(L) :- findall(R, (digit(A), findall(A-B, digit(B), R)), L).
count([], 0).
count([_|T], N) :- count(T, M), N is M + 1.
rounds(0) :- !.
rounds(N) :- findall(L, (digit(_), rows(L)), Ls), count(Ls, 10), M is N - 1, rounds(M).
?- rounds(250).
