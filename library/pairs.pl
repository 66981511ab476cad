% Pairs, which are terms Key-Value. Needs no other file.

% pairs_keys_values(?Pairs, ?Keys, ?Values): Pairs has the keys Keys and the values Values; one of the three is to be a list with an end.
pairs_keys_values([], [], []).
pairs_keys_values([K-V|Ps], [K|Ks], [V|Vs]) :- pairs_keys_values(Ps, Ks, Vs).

% pairs_keys(?Pairs, ?Keys): Pairs has the keys Keys.
pairs_keys([], []).
pairs_keys([K-_|Ps], [K|Ks]) :- pairs_keys(Ps, Ks).

% pairs_values(?Pairs, ?Values): Pairs has the values Values.
pairs_values([], []).
pairs_values([_-V|Ps], [V|Vs]) :- pairs_values(Ps, Vs).

% transpose_pairs(+Pairs, ?Turned): Turned has V-K for each K-V of Pairs, sorted by V; those of one V stay as they came.
transpose_pairs(Ps, Ts) :- transposed_pairs(Ps, Us), keysort(Us, Ts).

transposed_pairs([], []).
transposed_pairs([K-V|Ps], [V-K|Ts]) :- transposed_pairs(Ps, Ts).

% map_list_to_pairs(+Goal, +List, ?Pairs): Pairs has K-X for each X of List, where call(Goal, X, K) gives the key.
map_list_to_pairs(_, [], []).
map_list_to_pairs(G, [X|Xs], [K-X|Ps]) :- call(G, X, K), map_list_to_pairs(G, Xs, Ps).

% group_pairs_by_key(+Pairs, ?Groups): Groups has K-Values for each run of pairs with identical keys, so keysort Pairs first.
group_pairs_by_key([], []).
group_pairs_by_key([K-V|Ps], [K-[V|Vs]|Gs]) :- group_of_key(Ps, K, Vs, Rest), group_pairs_by_key(Rest, Gs).

group_of_key([L-V|Ps], K, Vs, Rest) :- K == L, !, Vs = [V|Ws], group_of_key(Ps, K, Ws, Rest).
group_of_key(Ps, _, [], Ps).
