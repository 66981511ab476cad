% Five houses in a row, each of another colour, and in each a person of another country, with a drink, an animal and an instrument of their own.
% A house is house(Colour, Country, Drink, Animal, Instrument).
street([_, _, _, _, _]).

solution(Hs) :-
    street(Hs),
    Hs = [house(_, norway, _, _, _), _, house(_, _, milk, _, _), _, _],
    member(house(red, england, _, _, _), Hs),
    member(house(_, spain, _, dog, _), Hs),
    member(house(green, _, coffee, _, _), Hs),
    member(house(_, ukraine, tea, _, _), Hs),
    right_of(house(green, _, _, _, _), house(ivory, _, _, _, _), Hs),
    member(house(_, _, _, snails, flute), Hs),
    member(house(yellow, _, _, _, violin), Hs),
    next_to(house(_, _, _, _, piano), house(_, _, _, fox, _), Hs),
    next_to(house(_, _, _, _, violin), house(_, _, _, horse, _), Hs),
    member(house(_, _, juice, _, drum), Hs),
    member(house(_, japan, _, _, harp), Hs),
    next_to(house(_, norway, _, _, _), house(blue, _, _, _, _), Hs),
    member(house(_, _, water, _, _), Hs),
    member(house(_, _, _, zebra, _), Hs).

% In the row, the first house stands directly to the right of the second.
right_of(R, L, [L,R|_]).
right_of(R, L, [_|Hs]) :- right_of(R, L, Hs).

next_to(A, B, Hs) :- right_of(A, B, Hs) ; right_of(B, A, Hs).

water(Country) :- solution(Hs), member(house(_, Country, water, _, _), Hs).
zebra(Country) :- solution(Hs), member(house(_, Country, _, zebra, _), Hs).

% The same row as a table, a house a line.
table :- solution(Hs), rows(Hs).

rows([]).
rows([house(C, P, D, A, I)|Hs]) :- cells([C, P, D, A, I]), rows(Hs).

cells([X]) :- !, write(X), nl.
cells([X|Xs]) :- write(X), atom_length(X, N), blanks(N), cells(Xs).

% As many blanks as take a word of N letters to ten.
blanks(N) :- N >= 10, ! .
blanks(N) :- put_char(' '), M is N + 1, blanks(M).

member(X, [X|_]).
member(X, [_|T]) :- member(X, T).
