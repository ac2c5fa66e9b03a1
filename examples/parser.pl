% Sentences of a small grammar: a sentence is a list of words, and its tree tells how it is built.
% Each rule takes the words in front of a list, and gives the words that are left.

sentence(s(Subject, Predicate), Words, Rest) :-
    noun_phrase(Subject, Number, Words, Behind),
    verb_phrase(Predicate, Number, Behind, Rest).

noun_phrase(np(Word, Noun), Number, [Word|Words], Rest) :-
    determiner(Word, Number),
    noun_group(Noun, Number, Words, Rest).

noun_group(n(Word), Number, [Word|Rest], Rest) :- noun(Word, Number).
noun_group(n(Word, Group), Number, [Word|Words], Rest) :-
    adjective(Word),
    noun_group(Group, Number, Words, Rest).

verb_phrase(vp(Word), Number, [Word|Rest], Rest) :- verb(Word, Number).
verb_phrase(vp(Word, Object), Number, [Word|Words], Rest) :-
    verb(Word, Number),
    noun_phrase(Object, _, Words, Rest).

determiner(the, _).
determiner(a, one).
determiner(all, many).

noun(cat, one).
noun(cats, many).
noun(dog, one).

adjective(old).
adjective(black).

verb(sees, one).
verb(see, many).

?- sentence(Tree, [the, old, black, cat, sees, a, dog], []).
?- sentence(Tree, [all, cats, see, the, dog], []).
?- \+ sentence(_, [a, cats, see], []).
