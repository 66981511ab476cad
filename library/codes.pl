% Texts as lists of codes, and atoms. Needs lists.pl.
% A text between double quotes, as "a b", is a list of codes.

% code_blank(+C), code_digit(+C), code_lower(+C), code_upper(+C): C is the code of a blank, a digit, a small or a capital letter of ASCII.
code_blank(32).
code_blank(C) :- C >= 9, C =< 13.

code_digit(C) :- C >= 0'0, C =< 0'9.

code_lower(C) :- C >= 0'a, C =< 0'z.

code_upper(C) :- C >= 0'A, C =< 0'Z.

% codes_split(+Codes, +C, ?Parts): Parts is the texts between the codes C in Codes; one part more than there are such codes.
codes_split([], _, [[]]).
codes_split([D|Ds], C, Parts) :- codes_split(Ds, C, Ps), codes_split_before(D, C, Ps, Parts).

codes_split_before(C, C, Ps, Parts) :- !, Parts = [[]|Ps].
codes_split_before(D, _, [P|Ps], [[D|P]|Ps]).

% codes_join(+Parts, +Between, ?Codes): Codes is the texts of Parts with the text Between between each two.
codes_join([], _, []).
codes_join([P|Ps], B, Cs) :- codes_join_behind(Ps, P, B, Cs).

codes_join_behind([], P, _, P).
codes_join_behind([Q|Qs], P, B, Cs) :- append(P, Ds, Cs), append(B, Es, Ds), codes_join_behind(Qs, Q, B, Es).

% codes_trim(+Codes, ?Trimmed): Trimmed is Codes without the blanks at its ends.
codes_trim(Cs, Ts) :- codes_without_blanks(Cs, Ds), reverse(Ds, Es), codes_without_blanks(Es, Fs), reverse(Fs, Ts).

codes_without_blanks([C|Cs], Ds) :- code_blank(C), !, codes_without_blanks(Cs, Ds).
codes_without_blanks(Cs, Cs).

% codes_words(+Codes, ?Words): Words is the texts between blanks, without empty ones.
codes_words(Cs, Ws) :- codes_without_blanks(Cs, Ds), codes_words_from(Ds, Ws).

codes_words_from([], []) :- ! .
codes_words_from(Cs, [W|Ws]) :- codes_word(Cs, W, Ds), codes_words(Ds, Ws).

codes_word([C|Cs], [C|W], Ds) :- \+ code_blank(C), !, codes_word(Cs, W, Ds).
codes_word(Cs, [], Cs).

% codes_upper(+Codes, ?Upper): Upper is Codes with capital letters in place of small ones (ASCII).
codes_upper([], []).
codes_upper([C|Cs], [U|Us]) :- ( code_lower(C) -> U is C - 32 ; U = C ), codes_upper(Cs, Us).

% codes_lower(+Codes, ?Lower): Lower is Codes with small letters in place of capital ones (ASCII).
codes_lower([], []).
codes_lower([C|Cs], [L|Ls]) :- ( code_upper(C) -> L is C + 32 ; L = C ), codes_lower(Cs, Ls).

% codes_number(+Codes, ?N): N is the integer that Codes write; it fails where they write none.
codes_number(Cs, N) :- catch(number_codes(M, Cs), error(syntax_error(_), _), fail), N = M.

% atom_number(?Atom, ?N): N is the integer that the text of Atom writes; where Atom is unbound, it is the text of N.
atom_number(A, N) :- atom(A), !, atom_codes(A, Cs), codes_number(Cs, N).
atom_number(A, N) :- number_codes(N, Cs), atom_codes(A, Cs).

% atomic_codes(+X, ?Codes): Codes is the text of the atom or integer X.
atomic_codes(X, Cs) :- integer(X), !, number_codes(X, Cs).
atomic_codes(X, Cs) :- atom_codes(X, Cs).

% upcase_atom(+Atom, ?Upper), downcase_atom(+Atom, ?Lower): the atom with capital letters, or small ones, alone (ASCII).
upcase_atom(A, U) :- atomic_codes(A, Cs), codes_upper(Cs, Us), atom_codes(U, Us).

downcase_atom(A, L) :- atomic_codes(A, Cs), codes_lower(Cs, Ls), atom_codes(L, Ls).

% atomic_list_concat(+Parts, ?Atom): Atom is the texts of Parts, which are atoms and integers, one after another.
atomic_list_concat(Ps, A) :- atomic_list_concat(Ps, '', A).

% concat_atom(+Parts, ?Atom), concat_atom(+Parts, +Between, ?Atom): older names of the same.
concat_atom(Ps, A) :- atomic_list_concat(Ps, '', A).

concat_atom(Ps, B, A) :- atomic_list_concat(Ps, B, A).

% atomic_list_concat(+Parts, +Between, ?Atom): the same, with the atom Between between each two of Parts.
% atomic_list_concat(?Parts, +Between, +Atom): where Parts is not all bound, Parts is the atoms between the texts Between in Atom.
atomic_list_concat(Ps, B, A) :- ground(Ps), !, atomic_texts(Ps, Ts), atom_codes(B, Bs), codes_join(Ts, Bs, Cs), atom_codes(A, Cs).
atomic_list_concat(Ps, B, A) :- B \== '', atom_parts(A, B, Ps).

atomic_texts([], []).
atomic_texts([P|Ps], [T|Ts]) :- atomic_codes(P, T), atomic_texts(Ps, Ts).

atom_parts(A, B, Ps) :- sub_atom(A, N, _, M, B), !, sub_atom(A, 0, N, _, P), sub_atom(A, _, M, 0, Q), Ps = [P|Qs], atom_parts(Q, B, Qs).
atom_parts(A, _, [A]).

% write_codes(+Codes): writes the text.
write_codes(Cs) :- atom_codes(A, Cs), write(A).
