% An expression as a list of tokens is read to a term, whose value is computed. `*` and `//` bind before `+` and `-`,
% and all of them take their left operand first.

expression(Value, Tokens, Rest) :-
    term(First, Tokens, Behind),
    sums(First, Value, Behind, Rest).

sums(Left, Value, [Sign|Tokens], Rest) :-
    sign(Sign, Left, Right, Sum), !,
    term(Right, Tokens, Behind),
    sums(Sum, Value, Behind, Rest).
sums(Value, Value, Rest, Rest).

sign(+, X, Y, X + Y).
sign(-, X, Y, X - Y).

term(Value, Tokens, Rest) :-
    factor(First, Tokens, Behind),
    products(First, Value, Behind, Rest).

products(Left, Value, [Sign|Tokens], Rest) :-
    dot(Sign, Left, Right, Product), !,
    factor(Right, Tokens, Behind),
    products(Product, Value, Behind, Rest).
products(Value, Value, Rest, Rest).

dot(*, X, Y, X * Y).
dot(//, X, Y, X // Y).

factor(N, [N|Rest], Rest) :- integer(N), !.
factor(Value, ['('|Tokens], Rest) :- expression(Value, Tokens, [')'|Rest]).

value(Tokens, Expression, Value) :-
    expression(Expression, Tokens, []),
    catch(Value is Expression, error(Error, _), Value = Error).

?- value([2,+,3,*,'(',10,-,4,')',//,5], Expression, Value).
?- value([1,-,2,-,3], Expression, Value).
?- value([7,//,'(',2,-,2,')'], Expression, Value).
?- value([9223372036854775807,+,1], Expression, Value).
?- value([1,+], _, Value).
