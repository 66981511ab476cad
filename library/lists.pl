% Lists. Needs no other file.
% In the modes, + is bound, - is unbound, ? is either; a list that is + is to have an end.

% append(?Front, ?Back, ?List): List is the elements of Front and then those of Back.
append([], L, L).
append([X|Xs], Ys, [X|Zs]) :- append(Xs, Ys, Zs).

% append(+Lists, ?List): List is the elements of all of Lists, one list after another.
append([], []).
append([L|Ls], As) :- append(L, Bs, As), append(Ls, Bs).

% member(?X, ?List): X is an element of List; a solution for each place.
member(X, [X|_]).
member(X, [_|T]) :- member(X, T).

% memberchk(?X, +List): X is an element of List; the first place alone.
memberchk(X, L) :- member(X, L), ! .

% length(?List, ?N): List has N elements.
length(L, N) :- var(N), !, length_from(L, 0, N).
length(L, N) :- N >= 0, length_is(N, L).

length_from([], N, N).
length_from([_|T], K, N) :- M is K + 1, length_from(T, M, N).

length_is(0, L) :- !, L = [].
length_is(N, [_|T]) :- M is N - 1, length_is(M, T).

% same_length(?A, ?B): the two lists have as many elements as each other.
same_length([], []).
same_length([_|A], [_|B]) :- same_length(A, B).

% nth0(?I, ?List, ?X): X is the element of List at the place I, counted from 0.
nth0(I, L, X) :- integer(I), !, I >= 0, nth_at(I, L, X).
nth0(I, L, X) :- var(I), nth_from(L, X, 0, I).

% nth1(?I, ?List, ?X): the same, counted from 1.
nth1(I, L, X) :- integer(I), !, I >= 1, J is I - 1, nth_at(J, L, X).
nth1(I, L, X) :- var(I), nth_from(L, X, 1, I).

nth_at(0, [Y|_], X) :- !, X = Y.
nth_at(I, [_|T], X) :- J is I - 1, nth_at(J, T, X).

nth_from([X|_], X, I, I).
nth_from([_|T], X, K, I) :- M is K + 1, nth_from(T, X, M, I).

% last(?List, ?X): X is the last element of List.
last([X], X).
last([_|T], X) :- last(T, X).

% nextto(?X, ?Y, ?List): Y stands directly behind X in List.
nextto(X, Y, [X,Y|_]).
nextto(X, Y, [_|T]) :- nextto(X, Y, T).

% reverse(+List, ?Back): Back has the elements of List from the last to the first.
reverse(L, R) :- reverse_onto(L, [], R).

reverse_onto([], R, R).
reverse_onto([X|Xs], S, R) :- reverse_onto(Xs, [X|S], R).

% flatten(+Nested, ?List): List is the elements of Nested and of the lists in it, at any depth; a variable stays as it is.
flatten(N, L) :- flatten_before(N, [], R), L = R.

flatten_before(V, T, [V|T]) :- var(V), ! .
flatten_before([], T, T) :- ! .
flatten_before([X|Xs], T, R) :- !, flatten_before(Xs, T, S), flatten_before(X, S, R).
flatten_before(X, T, [X|T]).

% select(?X, ?List, ?Rest): Rest is List without one X.
select(X, [X|T], T).
select(X, [Y|T], [Y|R]) :- select(X, T, R).

% selectchk(?X, +List, ?Rest): the same, for the first place alone.
selectchk(X, L, R) :- select(X, L, R), ! .

% permutation(+List, ?Other): Other has the elements of List in some order; a solution for each order.
permutation([], []).
permutation(L, [X|P]) :- select(X, L, R), permutation(R, P).

% delete(+List, ?X, ?Rest): Rest is List without the elements that unify with X; nothing is bound.
delete([], _, []).
delete([Y|T], X, R) :- ( Y \= X -> R = [Y|S] ; R = S ), delete(T, X, S).

% subtract(+A, +B, ?C): C is A without the elements that B has.
subtract([], _, []).
subtract([X|A], B, C) :- ( memberchk(X, B) -> C = D ; C = [X|D] ), subtract(A, B, D).

% intersection(+A, +B, ?C): C is the elements of A that B has too.
intersection([], _, []).
intersection([X|A], B, C) :- ( memberchk(X, B) -> C = [X|D] ; C = D ), intersection(A, B, D).

% union(+A, +B, ?C): C is the elements of A that B doesn't have, and then B.
union([], B, B).
union([X|A], B, C) :- ( memberchk(X, B) -> C = D ; C = [X|D] ), union(A, B, D).

% subset(+A, +B): B has every element of A.
subset([], _).
subset([X|A], B) :- memberchk(X, B), subset(A, B).

% list_to_set(+List, ?Set): Set is List without the elements that are identical to an earlier one.
list_to_set(L, S) :- set_behind(L, [], S).

set_behind([], _, []).
set_behind([X|Xs], Seen, S) :- ( identical_in(X, Seen) -> S = T ; S = [X|T] ), set_behind(Xs, [X|Seen], T).

identical_in(X, [Y|Ys]) :- ( X == Y -> true ; identical_in(X, Ys) ).

% msort(+List, ?Sorted): Sorted is List in the standard order, with identical elements as often as they were there.
msort(L, S) :- each_as_key(L, P), keysort(P, Q), each_of_key(Q, S).

each_as_key([], []).
each_as_key([X|Xs], [X-X|Ps]) :- each_as_key(Xs, Ps).

each_of_key([], []).
each_of_key([X-_|Ps], [X|Xs]) :- each_of_key(Ps, Xs).

% max_member(?X, +List): X is the last element of List in the standard order.
max_member(X, [Y|Ys]) :- max_member_of(Ys, Y, X).

max_member_of([], X, X).
max_member_of([Y|Ys], M, X) :- ( Y @> M -> max_member_of(Ys, Y, X) ; max_member_of(Ys, M, X) ).

% min_member(?X, +List): X is the first element of List in the standard order.
min_member(X, [Y|Ys]) :- min_member_of(Ys, Y, X).

min_member_of([], X, X).
min_member_of([Y|Ys], M, X) :- ( Y @< M -> min_member_of(Ys, Y, X) ; min_member_of(Ys, M, X) ).

% sum_list(+Numbers, ?Sum): Sum is the sum of Numbers, 0 for none.
sum_list(L, S) :- sum_with(L, 0, S).

sum_with([], S, S).
sum_with([X|Xs], A, S) :- B is A + X, sum_with(Xs, B, S).

% max_list(+Numbers, ?Max): Max is the greatest of Numbers; it fails for none.
max_list([X|Xs], M) :- max_with(Xs, X, M).

max_with([], M, M).
max_with([X|Xs], A, M) :- B is max(A, X), max_with(Xs, B, M).

% min_list(+Numbers, ?Min): Min is the least of Numbers; it fails for none.
min_list([X|Xs], M) :- min_with(Xs, X, M).

min_with([], M, M).
min_with([X|Xs], A, M) :- B is min(A, X), min_with(Xs, B, M).

% numlist(+Low, +High, ?List): List is the integers from Low to High; it fails where High is below Low.
numlist(L, H, Ns) :- L =< H, numlist_from(L, H, Ns).

numlist_from(H, H, Ns) :- !, Ns = [H].
numlist_from(L, H, [L|Ns]) :- M is L + 1, numlist_from(M, H, Ns).
