% All ways to put brackets into a sum of twelve terms.
parsed([number], number).
parsed(F, sum(A, B)) :- joined(L, [plus|R], F), parsed(L, A), parsed(R, B).
joined([X], R, [X|R]).
joined([X|L], R, [X|S]) :- joined(L, R, S).
sentence([number,plus,number,plus,number,plus,number,plus,number,plus,number,plus,number,plus,number,plus,number,plus,number,plus,number,plus,number]).
?- sentence(S), parsed(S, _), fail.
