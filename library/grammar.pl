% Grammars, which are interpreted. Needs no other file.
% A rule is a clause Head ==> Body of the text behind this file; terms with --> are skipped in texts, so the operator is another one.
%
%   Head              an atom or a compound: what the rule derives
%   A, B              A, and then B
%   A ; B             A or B
%   C -> T ; E        T behind the first derivation of C, and E where C has none; C -> T alone fails then
%   \+ A              A can't be derived here; nothing is taken
%   {G}               the goal G; nothing is taken
%   [X, Y], "ab", []  these elements, the codes of a text, nothing
%   call(G), call(G, A)  call(G, S, R), or call(G, A, S, R), where R is what is left of S
%   anything else     one of the rules for it
%
% There is no cut: where one derivation is enough, write ( A -> [] ). A rule that begins with its own head doesn't end.
:- op(1200, xfx, ==>).

% phrase(+Body, ?List): Body derives the whole List.
phrase(B, S) :- phrase(B, S, []).

% phrase(+Body, ?List, ?Rest): Body derives the front of List, before Rest.
phrase(B, S, R) :- nonvar(B), !, phrase_of(B, S, R).
phrase(_, _, _) :- throw(error(instantiation_error, phrase/3)).

phrase_of(B, S, R) :- var(B), !, phrase(B, S, R).
phrase_of(( A, B ), S, R) :- !, phrase_of(A, S, T), phrase_of(B, T, R).
phrase_of(( C -> T ; E ), S, R) :- !, ( phrase_of(C, S, U) -> phrase_of(T, U, R) ; phrase_of(E, S, R) ).
phrase_of(( A ; B ), S, R) :- !, ( phrase_of(A, S, R) ; phrase_of(B, S, R) ).
phrase_of(( C -> T ), S, R) :- !, ( phrase_of(C, S, U) -> phrase_of(T, U, R) ).
phrase_of(\+ A, S, R) :- !, \+ phrase_of(A, S, _), R = S.
phrase_of({G}, S, R) :- !, call(G), R = S.
phrase_of([], S, R) :- !, R = S.
phrase_of([X|Xs], S, R) :- !, S = [X|T], phrase_of(Xs, T, R).
phrase_of(call(G), S, R) :- !, call(G, S, R).
phrase_of(call(G, A), S, R) :- !, call(G, A, S, R).
phrase_of(H, S, R) :- ( H ==> B ), phrase_of(B, S, R).
