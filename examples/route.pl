road(bern, basel).
road(bern, zurich).
road(basel, zurich).
road(zurich, chur).
road(zurich, lugano).
road(chur, lugano).

route(Town, Town, there).
route(From, To, via(Next, Rest)) :- road(From, Next), route(Next, To, Rest).

?- route(bern, lugano, Route).
