% Solutions of lesson 8.
% 1.
same_ends(A) :- sub_atom(A, 0, 1, _, C), sub_atom(A, _, 1, 0, C).
% 2.
capital(A, B) :- atom_codes(A, [C|Cs]), D is C - 32, atom_codes(B, [D|Cs]).
% 3.
vowels(A, N) :- atom_chars(A, L), counted(L, 0, N).

counted([], N, N).
counted([C|L], M, N) :- ( vowel(C) -> K is M + 1 ; K = M ), counted(L, K, N).

vowel(a).
vowel(e).
vowel(i).
vowel(o).
vowel(u).
% 4.
box(N) :- lines(N, N).

lines(0, _) :- ! .
lines(K, N) :- line(N), nl, M is K - 1, lines(M, N).
