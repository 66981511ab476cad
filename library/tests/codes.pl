% library: lists.pl codes.pl
% A line of a table: its fields are atoms, without the blanks around them.
fields(Line, Fields) :- codes_split(Line, 0';, Parts), atoms_of(Parts, Fields).

atoms_of([], []).
atoms_of([P|Ps], [F|Fs]) :- codes_trim(P, T), atom_codes(F, T), atoms_of(Ps, Fs).
