% A stock of goods that orders change, and a report of it as a table, with columns under each other. Orders that ask for
% more than there is are refused and listed; a stock that falls below 10 is marked.

:- dynamic((stock/2, refused/2)).

stock(apples, 120).
stock(bread, 12).
stock(cheese, 40).
stock(milk, 9).

order(apples, 15).
order(bread, 4).
order(milk, 12).
order(cheese, 40).
order(apples, 100).
order(tea, 1).

serve(Item, Count) :-
    clause(stock(Item, Left), true),
    Left >= Count, !,
    retract(stock(Item, Left)),
    Rest is Left - Count,
    assertz(stock(Item, Rest)).
serve(Item, Count) :-
    assertz(refused(Item, Count)).

serve_all :- order(Item, Count), serve(Item, Count), fail.
serve_all.

% text(T, Width) writes T and fills up with spaces; number(N, Width) has the spaces in front.
text(T, Width) :- write(T), atom_length(T, L), Fill is Width - L, spaces(Fill).
number(N, Width) :- number_codes(N, Cs), length(Cs, L), Fill is Width - L, spaces(Fill), write(N).

spaces(N) :- N =< 0, !.
spaces(N) :- put_char(' '), M is N - 1, spaces(M).

line(Item, Count) :- text(Item, 10), number(Count, 6), mark(Count), nl.

mark(Count) :- Count < 10, !, write('  low').
mark(_).

report :-
    findall(Item-Count, stock(Item, Count), Rows),
    keysort(Rows, Sorted),
    member(Item-Count, Sorted),
    line(Item, Count),
    fail.
report :-
    refused(Item, Count),
    write('refused: '), writeq(order(Item, Count)), nl,
    fail.
report.

?- serve_all, report, !.
