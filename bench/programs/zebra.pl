% Who owns the zebra? Five houses and fifteen hints, a hundred times.
right_of(X, Y, [Y,X|_]).
right_of(X, Y, [_|T]) :- right_of(X, Y, T).
beside(X, Y, L) :- right_of(X, Y, L).
beside(X, Y, L) :- right_of(Y, X, L).
among(X, [X|_]).
among(X, [_|T]) :- among(X, T).
zebra(Owner) :-
    Hs = [h(norwegian,_,_,_,_),_,h(_,milk,_,_,_),_,_],
    among(h(english,_,red,_,_), Hs),
    among(h(_,coffee,green,_,_), Hs),
    among(h(spanish,_,_,dog,_), Hs),
    among(h(ukrainian,tea,_,_,_), Hs),
    right_of(h(_,_,green,_,_), h(_,_,ivory,_,_), Hs),
    among(h(_,_,_,snails,old_gold), Hs),
    among(h(_,_,yellow,_,kools), Hs),
    beside(h(_,_,_,_,chesterfield), h(_,_,_,fox,_), Hs),
    beside(h(_,_,_,_,kools), h(_,_,_,horse,_), Hs),
    among(h(_,orange,_,_,lucky_strike), Hs),
    among(h(japanese,_,_,_,parliament), Hs),
    beside(h(norwegian,_,_,_,_), h(_,_,blue,_,_), Hs),
    among(h(Owner,_,_,zebra,_), Hs),
    among(h(_,water,_,_,_), Hs).
rounds(0) :- !.
rounds(N) :- zebra(_), !, M is N - 1, rounds(M).
?- rounds(100).
