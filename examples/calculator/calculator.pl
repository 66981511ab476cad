% A calculator: texts are read as tokens and then as terms, which have values, and are written as texts again.

% tokens(Text, Tokens): the tokens of the atom Text: number(N), name(A) and sign(A).
tokens(Text, Ts) :- atom_codes(Text, Cs), tokens_of(Cs, Ts).

tokens_of([], []).
tokens_of([C|Cs], Ts) :- ( blank(C) -> tokens_of(Cs, Ts) ; token(C, Cs, T, Rest), Ts = [T|Us], tokens_of(Rest, Us) ).

token(C, Cs, number(N), Rest) :- digit(C), !, taken(digit, Cs, Ds, Rest), number_codes(N, [C|Ds]).
token(C, Cs, name(A), Rest) :- letter(C), !, taken(letter_or_digit, Cs, Ls, Rest), atom_codes(A, [C|Ls]).
token(C, Cs, sign(A), Cs) :- char_code(A, C), ( member(C, "+-*/^()=;") -> true ; throw(no_token(A)) ).

% The codes at the front for which a goal holds, and the rest.
taken(G, [C|Cs], [C|Ds], Rest) :- call(G, C), !, taken(G, Cs, Ds, Rest).
taken(_, Rest, [], Rest).

blank(C) :- C =< 0' .
digit(C) :- C >= 0'0, C =< 0'9.
letter(C) :- C >= 0'a, C =< 0'z.
letter_or_digit(C) :- ( letter(C) -> true ; digit(C) ).

% program(Text, Statements): what stands between semicolons: set(Name, E) for Name = E, and show(E).
program(Text, Ss) :- tokens(Text, Ts), statements(Ss, Ts).

statements([S|Ss], Ts) :- statement(S, Ts, Us), more_statements(Ss, Us).

more_statements([], []) :- ! .
more_statements(Ss, [sign(;)|Ts]) :- !, statements(Ss, Ts).
more_statements(_, [T|_]) :- throw(unexpected(T)).

statement(set(A, E), [name(A), sign(=)|Ts], Us) :- !, sum(E, Ts, Us).
statement(show(E), Ts, Us) :- sum(E, Ts, Us).

% Sums and products lean to the left, powers to the right; a sign before a power belongs to the whole of it.
sum(E, Ts, Vs) :- product(A, Ts, Us), more_sum(A, E, Us, Vs).

more_sum(A, E, [sign(+)|Ts], Vs) :- !, product(B, Ts, Us), more_sum(A + B, E, Us, Vs).
more_sum(A, E, [sign(-)|Ts], Vs) :- !, product(B, Ts, Us), more_sum(A - B, E, Us, Vs).
more_sum(E, E, Ts, Ts).

product(E, Ts, Vs) :- factor(A, Ts, Us), more_product(A, E, Us, Vs).

more_product(A, E, [sign(*)|Ts], Vs) :- !, factor(B, Ts, Us), more_product(A * B, E, Us, Vs).
more_product(A, E, [sign(/)|Ts], Vs) :- !, factor(B, Ts, Us), more_product(A / B, E, Us, Vs).
more_product(E, E, Ts, Ts).

factor(E, [sign(-)|Ts], Us) :- !, factor(A, Ts, Us), ( integer(A) -> E is - A ; E = - A ).
factor(E, Ts, Vs) :- simple(A, Ts, Us), ( Us = [sign(^)|Ws] -> factor(B, Ws, Vs), E = A ^ B ; E = A, Vs = Us ).

simple(E, [T|Ts], Us) :- !, simple_of(T, E, Ts, Us).
simple(_, [], _) :- throw(unexpected(end)).

simple_of(number(N), N, Ts, Ts) :- ! .
simple_of(name(A), A, Ts, Ts) :- ! .
simple_of(sign('('), E, Ts, Us) :- !, sum(E, Ts, Vs), ( Vs = [sign(')')|Us] -> true ; throw(not_closed) ).
simple_of(T, _, _, _) :- throw(unexpected(T)).

% value(E, Names, V): the value of E, where Names has A = N for each name A that has a value.
value(E, _, V) :- integer(E), !, V = E.
value(E, Names, V) :- atom(E), !, ( member(E = N, Names) -> V = N ; throw(no_value(E)) ).
value(- A, Names, V) :- !, value(A, Names, N), V is - N.
value(E, Names, V) :- E =.. [O, A, B], value(A, Names, M), value(B, Names, N), F =.. [O, M, N], V is F.

% text(E, Text): E as a text, with the brackets that it needs and no others.
text(E, Text) :- shown(E, 1, Cs, []), atom_codes(Text, Cs).

% shown(E, L, Cs, Rest): E where an operand of the level L may stand; in brackets, where its own level is lower.
shown(E, L, Cs, Rest) :- form(E, M, Ps), ( M < L -> Cs = [0'(|Ds], parts(Ps, Ds, [0')|Rest]) ; parts(Ps, Cs, Rest) ).

form(A + B, 1, [operand(A, 1), " + ", operand(B, 2)]).
form(A - B, 1, [operand(A, 1), " - ", operand(B, 2)]).
form(A * B, 2, [operand(A, 2), " * ", operand(B, 3)]).
form(A / B, 2, [operand(A, 2), " / ", operand(B, 3)]).
form(- A, 3, ["-", operand(A, 3)]).
form(A ^ B, 4, [operand(A, 5), "^", operand(B, 3)]).
form(A, 5, [Cs]) :- atom(A), atom_codes(A, Cs).
form(N, L, [Cs]) :- integer(N), number_codes(N, Cs), ( N < 0 -> L = 3 ; L = 5 ).

parts([], Rest, Rest).
parts([P|Ps], Cs, Rest) :- ( P = operand(E, L) -> shown(E, L, Cs, Ds) ; append(P, Ds, Cs) ), parts(Ps, Ds, Rest).

% simpler(E, F): F has the value of E wherever E has one, and is simpler where one of the laws applies.
simpler(- A, F) :- !, simpler(A, B), law(- B, F).
simpler(E, F) :- E =.. [O, A, B], !, simpler(A, C), simpler(B, D), G =.. [O, C, D], law(G, F).
simpler(E, E).

law(E, V) :- E =.. [_|As], \+ ( member(A, As), \+ integer(A) ), catch(V is E, _, fail), ! .
law(0 + A, A) :- ! .
law(A + 0, A) :- ! .
law(A - 0, A) :- ! .
law(A - B, 0) :- A == B, ! .
law(0 * _, 0) :- ! .
law(_ * 0, 0) :- ! .
law(1 * A, A) :- ! .
law(A * 1, A) :- ! .
law(A / 1, A) :- ! .
law(A ^ 1, A) :- ! .
law(- - A, A) :- ! .
law(E, E).

% run(Text): writes each statement of Text, and what it comes to.
run(Text) :- program(Text, Ss), run_all(Ss, []).

run_all([], _).
run_all([S|Ss], Names) :- run_one(S, Names, New), run_all(Ss, New).

run_one(show(E), Names, Names) :- outcome(E, Names, V), text(E, T), tell([T, ' -> ', V]).
run_one(set(A, E), Names, New) :- outcome(E, Names, V), text(E, T), tell([A, ' = ', T, ' -> ', V]), ( integer(V) -> New = [A = V|Names] ; New = Names ).

outcome(E, Names, V) :- catch(value(E, Names, V), Ball, reason(Ball, V)).

reason(error(evaluation_error(W), _), W).
reason(no_value(A), no_value(A)).

tell([]) :- nl.
tell([X|Xs]) :- write(X), tell(Xs).

append([], L, L).
append([X|Xs], Ys, [X|Zs]) :- append(Xs, Ys, Zs).

member(X, [X|_]).
member(X, [_|T]) :- member(X, T).
