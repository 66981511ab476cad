% Lesson 8: texts and output.
% An atom has characters, and each character has a code. "abc" is the list of the codes of a, b and c; 0'a is the code of a.
first_letter(A, C) :- sub_atom(A, 0, 1, _, C).

% An atom from behind.
backwards(A, B) :- atom_chars(A, L), reverse(L, [], R), atom_chars(B, R).

reverse([], R, R).
reverse([X|Xs], S, R) :- reverse(Xs, [X|S], R).

% A plural, by the end of the word: what atom_concat/3 can put together it can take apart.
plural(A, P) :- atom_concat(B, y, A), !, atom_concat(B, ies, P).
plural(A, P) :- atom_concat(A, s, P).

% Letters by one place on, as Caesar wrote: z becomes a, and what is no small letter stays.
secret(A, B) :- atom_codes(A, Cs), moved(Cs, Ds), atom_codes(B, Ds).

moved([], []).
moved([C|Cs], [D|Ds]) :- moved_one(C, D), moved(Cs, Ds).

moved_one(C, D) :- C >= 0'a, C =< 0'z, !, D is (C - 0'a + 1) mod 26 + 0'a.
moved_one(C, C).

% A number's digits, by its text.
digit_sum(N, S) :- number_codes(N, Cs), added(Cs, 0, S).

added([], S, S).
added([C|Cs], A, S) :- B is A + C - 0'0, added(Cs, B, S).

% write/1 writes a term, writeq/1 with the quotes that reading it again needs; nl ends the line.
% Failure takes back bindings, and nothing that was written.
table :- item(Name, Price), write(Name), write(': '), write(Price), nl, fail.
table.

item(bread, 4).
item(milk, 2).

% A triangle of stars.
stars(0) :- ! .
stars(N) :- line(N), nl, M is N - 1, stars(M).

line(0) :- ! .
line(N) :- put_char(*), M is N - 1, line(M).

% Exercises
% 1. Write same_ends(A): the atom A begins and ends with the same letter.
% 2. Write capital(A, B): B is A with a capital first letter. The code of A is 65, that of a is 97.
% 3. Write vowels(A, N): A has N vowels.
% 4. Write box(N): a square of N lines with N stars.
