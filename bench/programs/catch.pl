% Balls thrown through ten calls, and goals that throw none.
deep(0, B) :- !, throw(B).
deep(N, B) :- M is N - 1, deep(M, B).
rounds(0) :- !.
rounds(N) :- catch(deep(10, ball(N)), ball(K), K =:= N), catch(true, _, true), M is N - 1, rounds(M).
?- rounds(100000).
