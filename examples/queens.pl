% Eight queens on a board, none on a line with another: the first way to place them, as the row of each from the left.
% select/3 is of the library.

queens(Rows, Queens) :- place(Rows, [], Queens).

place([], _, []).
place(Rows, Placed, [Row|Queens]) :-
    select(Row, Rows, Left),
    safe(Row, 1, Placed),
    place(Left, [Row|Placed], Queens).

safe(_, _, []).
safe(Row, Distance, [Other|Placed]) :-
    Row =\= Other + Distance,
    Row =\= Other - Distance,
    Next is Distance + 1,
    safe(Row, Next, Placed).

?- queens([1,2,3,4,5,6,7,8], Queens), !.
