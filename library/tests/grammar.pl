% library: grammar.pl
% Sentences.
sentence ==> subject(N), verb(N).
subject(one) ==> [the, cat].
subject(many) ==> [the, cats] ; [cats].
verb(one) ==> [sleeps].
verb(many) ==> [sleep].

% Numbers as texts, with their values.
number(N) ==> digit(D), digits(D, N).
digits(M, N) ==> digit(D) -> {K is 10 * M + D}, digits(K, N) ; {N = M}.
digit(D) ==> [C], {C >= 0'0, C =< 0'9, D is C - 0'0}.

% Sums, from the left.
sum(S) ==> number(N), sum_behind(N, S).
sum_behind(A, S) ==> "+" -> number(N), {B is A + N}, sum_behind(B, S) ; "-" -> number(N), {B is A - N}, sum_behind(B, S) ; {S = A}.

% As many b as a, and all of the rest.
both(0) ==> [].
both(N) ==> [a], both(M), [b], {N is M + 1}.
rest(S) ==> call(rest_is(S)).
word ==> [X], {atom(X)}, \+ [stop].
two(B) ==> B, B.
rest_is(S, S, []).
all_of(S, []) :- S = [_|_].
some ==> call(all_of).
