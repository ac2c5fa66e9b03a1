% The first solution of sixteen queens.
queens(N, Qs) :- range(1, N, Ns), placed(Ns, [], Qs).
placed([], Qs, Qs).
placed([U|Us], Safe, Qs) :- selected(Q, [U|Us], Rest), safe(Safe, Q, 1), placed(Rest, [Q|Safe], Qs).
safe([], _, _).
safe([P|Ps], Q, D) :- Q =\= P + D, Q =\= P - D, E is D + 1, safe(Ps, Q, E).
selected(X, [X|Xs], Xs).
selected(X, [Y|Ys], [Y|Zs]) :- selected(X, Ys, Zs).
range(N, N, [N]) :- !.
range(M, N, [M|Ns]) :- L is M + 1, range(L, N, Ns).
?- queens(16, _), !.
