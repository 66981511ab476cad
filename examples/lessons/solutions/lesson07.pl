% Solutions of lesson 7.
% 1.
subjects(S) :- findall(B, mark(_, B, _), L), sort(L, S).
% 2.
how_many(Subject, N) :- findall(P, mark(P, Subject, _), L), length(L, N).
% 3.
report(R) :- names(Ns), reported(Ns, R).

reported([], []).
reported([N|Ns], [N-L|R]) :- marks(N, L), reported(Ns, R).
% 4.
count(G, N) :- findall(x, G, L), length(L, N).
