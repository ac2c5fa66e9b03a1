differ(red, green).
differ(red, blue).
differ(green, red).
differ(green, blue).
differ(blue, red).
differ(blue, green).

australia(West, North, South, Queensland, Wales, Victoria) :-
    differ(West, North),
    differ(West, South),
    differ(North, South),
    differ(North, Queensland),
    differ(South, Queensland),
    differ(South, Wales),
    differ(Queensland, Wales),
    differ(South, Victoria),
    differ(Wales, Victoria).

?- australia(red, North, South, Queensland, Wales, Victoria).
