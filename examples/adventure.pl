% A small text game whose moves stand in the text. What changes while it is played are facts: where the player is, and
% where things are. The game ends the program: with 0 where it was won, and else with 1.

:- dynamic((here/1, at/2)).
:- op(200, fy, go).
:- op(200, fy, take).
:- op(200, fy, open).

here(hall).
at(lamp, hall).
at(key, cellar).

path(hall, down, cellar).
path(cellar, up, hall).
path(hall, north, porch).
path(porch, south, hall).

move(go Way) :-
    here(Room), path(Room, Way, Next),
    \+ (Next == cellar, \+ at(lamp, player)), !,
    retract(here(Room)), assertz(here(Next)),
    say(['You are in the ', Next, '.']),
    things(Next).
move(go down) :- here(hall), !, say(['It is dark down there.']).
move(take Thing) :-
    here(Room), retract(at(Thing, Room)), !,
    assertz(at(Thing, player)),
    say(['You have the ', Thing, '.']).
move(open door) :- here(porch), at(key, player), !, say(['The door opens. You are free.']), halt.
move(open door) :- here(porch), !, say(['It is locked.']).
move(Move) :- say(['You cannot do this: ', Move]).

things(Room) :- at(Thing, Room), say(['There is a ', Thing, '.']), fail.
things(_).

say([]) :- nl.
say([Word|Words]) :- write(Word), say(Words).

play([]) :- halt(1).
play([Move|Moves]) :- write('> '), write(Move), nl, move(Move), play(Moves).

?- play([go down, take lamp, go down, take key, take sword, go up, go north, open door]).
