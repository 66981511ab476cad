% Atoms turned round, joined and searched for their parts, as often as the size says.
% query: bench(30000, X).
% output: answer 1: X = 35-lanemonehp

bench(Size, _) :- times(Size), work(_), fail.
bench(_, X) :- work(X).

times(N) :- N > 0.
times(N) :- N > 1, M is N - 1, times(M).

work(Length-Turned) :-
    turned(phenomenal, Turned),
    findall(Part, sub_atom(phenomenal, _, 3, _, Part), Parts),
    joined(Parts, '', All),
    findall(Before, sub_atom(All, Before, _, _, en), Places), Places = [_|_],
    findall(Front, atom_concat(Front, _, phenomenal), Fronts),
    counted(Fronts, 0, Count),
    atom_length(All, Long), Length is Long + Count.

turned(Atom, Turned) :- atom_codes(Atom, Codes), reversed(Codes, [], Back), atom_codes(Turned, Back).

reversed([], Xs, Xs).
reversed([X|Xs], Ys, Zs) :- reversed(Xs, [X|Ys], Zs).

joined([], Atom, Atom).
joined([Part|Parts], Before, Atom) :- atom_concat(Before, Part, Now), joined(Parts, Now, Atom).

counted([], N, N).
counted([_|Xs], N, M) :- N1 is N + 1, counted(Xs, N1, M).
