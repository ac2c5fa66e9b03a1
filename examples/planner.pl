% A farmer takes a wolf, a goat and a cabbage across a river, in a boat for two. The first plan that is found is
% thrown, so that the search ends there.

opposite(left, right).
opposite(right, left).

% Where farmer, wolf, goat and cabbage are, before and after each crossing.
crossing(goat, at(A, W, A, C), at(B, W, B, C)) :- opposite(A, B).
crossing(wolf, at(A, A, G, C), at(B, B, G, C)) :- opposite(A, B).
crossing(cabbage, at(A, W, G, A), at(B, W, G, B)) :- opposite(A, B).
crossing(alone, at(A, W, G, C), at(B, W, G, C)) :- opposite(A, B).

% The goat is alone with the wolf or the cabbage.
unsafe(at(A, B, B, _)) :- opposite(A, B).
unsafe(at(A, _, B, B)) :- opposite(A, B).

seen(State, [State|_]).
seen(State, [_|States]) :- seen(State, States).

search(at(right, right, right, right), _, []) :- !.
search(State, States, [Passenger|Plan]) :-
    crossing(Passenger, State, Next),
    \+ unsafe(Next),
    \+ seen(Next, States),
    search(Next, [Next|States], Plan).

plan(Plan) :-
    Start = at(left, left, left, left),
    catch((search(Start, [Start], Found), throw(plan(Found))), plan(Plan), true).

?- plan(Plan).
?- findall(Plan, search(at(left, left, left, left), [at(left, left, left, left)], Plan), Plans).
