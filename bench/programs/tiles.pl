% Eight tiles on a square, slid into order by iterative deepening, ten times.
move(s(0,B,C,D,E,F,G,H,I), s(B,0,C,D,E,F,G,H,I)).
move(s(A,0,C,D,E,F,G,H,I), s(0,A,C,D,E,F,G,H,I)).
move(s(A,0,C,D,E,F,G,H,I), s(A,C,0,D,E,F,G,H,I)).
move(s(A,B,0,D,E,F,G,H,I), s(A,0,B,D,E,F,G,H,I)).
move(s(A,B,C,0,E,F,G,H,I), s(A,B,C,E,0,F,G,H,I)).
move(s(A,B,C,D,0,F,G,H,I), s(A,B,C,0,D,F,G,H,I)).
move(s(A,B,C,D,0,F,G,H,I), s(A,B,C,D,F,0,G,H,I)).
move(s(A,B,C,D,E,0,G,H,I), s(A,B,C,D,0,E,G,H,I)).
move(s(A,B,C,D,E,F,0,H,I), s(A,B,C,D,E,F,H,0,I)).
move(s(A,B,C,D,E,F,G,0,I), s(A,B,C,D,E,F,0,G,I)).
move(s(A,B,C,D,E,F,G,0,I), s(A,B,C,D,E,F,G,I,0)).
move(s(A,B,C,D,E,F,G,H,0), s(A,B,C,D,E,F,G,0,H)).
move(s(0,B,C,D,E,F,G,H,I), s(D,B,C,0,E,F,G,H,I)).
move(s(A,0,C,D,E,F,G,H,I), s(A,E,C,D,0,F,G,H,I)).
move(s(A,B,0,D,E,F,G,H,I), s(A,B,F,D,E,0,G,H,I)).
move(s(A,B,C,0,E,F,G,H,I), s(0,B,C,A,E,F,G,H,I)).
move(s(A,B,C,0,E,F,G,H,I), s(A,B,C,G,E,F,0,H,I)).
move(s(A,B,C,D,0,F,G,H,I), s(A,0,C,D,B,F,G,H,I)).
move(s(A,B,C,D,0,F,G,H,I), s(A,B,C,D,H,F,G,0,I)).
move(s(A,B,C,D,E,0,G,H,I), s(A,B,0,D,E,C,G,H,I)).
move(s(A,B,C,D,E,0,G,H,I), s(A,B,C,D,E,I,G,H,0)).
move(s(A,B,C,D,E,F,0,H,I), s(A,B,C,0,E,F,D,H,I)).
move(s(A,B,C,D,E,F,G,0,I), s(A,B,C,D,0,F,G,E,I)).
move(s(A,B,C,D,E,F,G,H,0), s(A,B,C,D,E,0,G,H,F)).
solved(S, S, 0).
solved(S, Goal, N) :- N > 0, M is N - 1, move(S, T), solved(T, Goal, M).
deepened(S, Goal, N) :- solved(S, Goal, N), !.
deepened(S, Goal, N) :- M is N + 1, deepened(S, Goal, M).
solve :- deepened(s(4,1,3,7,0,6,5,2,8), s(1,2,3,4,5,6,7,8,0), 0).
?- solve, solve, solve, solve, solve, solve, solve, solve, solve, solve.
