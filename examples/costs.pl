% The cheapest of all ways through a net of roads: the ways are gathered with their costs, and the least is kept.

road(a, b, 7).
road(a, c, 3).
road(c, b, 1).
road(b, d, 2).
road(c, d, 8).
road(d, e, 4).
road(b, e, 9).

way(Place, Place, [Place], 0).
way(From, To, [From|Way], Cost) :-
    road(From, Next, Length),
    way(Next, To, Way, Others),
    Cost is Length + Others.

least([Plan], Plan).
least([Cost - Way|Plans], Least) :-
    least(Plans, C - W),
    ( Cost =< C -> Least = Cost - Way ; Least = C - W ).

cheapest(From, To, Cost, Way) :-
    findall(C - W, way(From, To, W, C), Plans),
    least(Plans, Cost - Way).

?- cheapest(a, e, Cost, Way).
?- way(a, d, Way, Cost), Cost < 10.
?- cheapest(e, a, Cost, Way).
