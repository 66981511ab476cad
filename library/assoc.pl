% Association trees: keys, each with a value, in the standard order. Needs no other file.
% A tree is t, or t(Key, Value, Deeper, Left, Right): Left has the keys before Key, Right those behind it, and Deeper says which
% of them is deeper, by one level: left, right or, where neither is, even. So a tree of n keys is less than 1.45 log2(n + 2) deep.

% empty_assoc(?Tree): Tree has no key.
empty_assoc(t).

% get_assoc(+Key, +Tree, ?Value): Tree has Key, with Value.
get_assoc(K, t(L,V,_,A,B), W) :- compare(O, K, L), get_assoc_at(O, K, V, A, B, W).

get_assoc_at(<, K, _, A, _, W) :- get_assoc(K, A, W).
get_assoc_at(=, _, V, _, _, V).
get_assoc_at(>, K, _, _, B, W) :- get_assoc(K, B, W).

% put_assoc(+Key, +Tree, +Value, ?New): New is Tree with Value at Key, in place of the value that was there.
put_assoc(K, T, V, N) :- put_assoc_in(T, K, V, N, _).

% The last argument says whether the tree became deeper: grown or same.
put_assoc_in(t, K, V, t(K,V,even,t,t), grown).
put_assoc_in(t(L,W,D,A,B), K, V, N, G) :- compare(O, K, L), put_assoc_at(O, L, W, D, A, B, K, V, N, G).

put_assoc_at(=, L, _, D, A, B, _, V, t(L,V,D,A,B), same).
put_assoc_at(<, L, W, D, A, B, K, V, N, G) :- put_assoc_in(A, K, V, C, H), left_grown(H, D, L, W, C, B, N, G).
put_assoc_at(>, L, W, D, A, B, K, V, N, G) :- put_assoc_in(B, K, V, C, H), right_grown(H, D, L, W, A, C, N, G).

left_grown(same, D, L, W, A, B, t(L,W,D,A,B), same).
left_grown(grown, right, L, W, A, B, t(L,W,even,A,B), same).
left_grown(grown, even, L, W, A, B, t(L,W,left,A,B), grown).
left_grown(grown, left, L, W, A, B, N, same) :- lift_left(A, L, W, B, N).

right_grown(same, D, L, W, A, B, t(L,W,D,A,B), same).
right_grown(grown, left, L, W, A, B, t(L,W,even,A,B), same).
right_grown(grown, even, L, W, A, B, t(L,W,right,A,B), grown).
right_grown(grown, right, L, W, A, B, N, same) :- lift_right(B, L, W, A, N).

% The left part is two levels deeper: what is below comes up.
lift_left(t(K,V,left,A,B), L, W, C, t(K,V,even,A,t(L,W,even,B,C))).
lift_left(t(K,V,right,A,t(M,X,D,B,C)), L, W, E, t(M,X,even,t(K,V,F,A,B),t(L,W,G,C,E))) :- deeper_behind(D, F, G).

% The right part is.
lift_right(t(K,V,right,B,C), L, W, A, t(K,V,even,t(L,W,even,A,B),C)).
lift_right(t(K,V,left,t(M,X,D,B,C),E), L, W, A, t(M,X,even,t(L,W,F,A,B),t(K,V,G,C,E))) :- deeper_behind(D, F, G).

% What is deeper in the two new parts, by what was deeper in the tree that came up.
deeper_behind(left, even, right).
deeper_behind(even, even, even).
deeper_behind(right, left, even).

% list_to_assoc(+Pairs, ?Tree): Tree has the pairs Key-Value of the list; of pairs with one key the last counts.
list_to_assoc(Ps, T) :- put_assoc_pairs(Ps, t, T).

put_assoc_pairs([], T, T).
put_assoc_pairs([K-V|Ps], S, T) :- put_assoc(K, S, V, U), put_assoc_pairs(Ps, U, T).

% assoc_to_list(+Tree, ?Pairs): Pairs is the pairs Key-Value of Tree, by their keys.
assoc_to_list(T, Ps) :- assoc_pairs_before(T, [], Ps).

assoc_pairs_before(t, Ps, Ps).
assoc_pairs_before(t(K,V,_,A,B), Rest, Ps) :- assoc_pairs_before(B, Rest, Qs), assoc_pairs_before(A, [K-V|Qs], Ps).

% assoc_to_keys(+Tree, ?Keys): Keys is the keys of Tree, in their order.
assoc_to_keys(T, Ks) :- assoc_keys_before(T, [], Ks).

assoc_keys_before(t, Ks, Ks).
assoc_keys_before(t(K,_,_,A,B), Rest, Ks) :- assoc_keys_before(B, Rest, Ls), assoc_keys_before(A, [K|Ls], Ks).

% assoc_to_values(+Tree, ?Values): Values is the values of Tree, by their keys.
assoc_to_values(T, Vs) :- assoc_values_before(T, [], Vs).

assoc_values_before(t, Vs, Vs).
assoc_values_before(t(_,V,_,A,B), Rest, Vs) :- assoc_values_before(B, Rest, Ws), assoc_values_before(A, [V|Ws], Vs).

% min_assoc(+Tree, ?Key, ?Value), max_assoc(+Tree, ?Key, ?Value): the first, or the last, key of Tree and its value.
min_assoc(t(K,V,_,A,_), L, W) :- ( A = t -> L = K, W = V ; min_assoc(A, L, W) ).

max_assoc(t(K,V,_,_,B), L, W) :- ( B = t -> L = K, W = V ; max_assoc(B, L, W) ).
