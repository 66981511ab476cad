% Lesson 7: all solutions, and order.
mark(anna, physics, 2).
mark(anna, music, 1).
mark(bruno, physics, 4).
mark(bruno, music, 2).
mark(carla, physics, 1).

% findall(T, G, L): L is the list of T for all solutions of G, in their order; each solution is counted, also where it comes again.
marks(Name, L) :- findall(M, mark(Name, _, M), L).

% sort/2 puts a list in the standard order, and keeps identical elements once. So sort(findall) is a set.
names(S) :- findall(N, mark(N, _, _), L), sort(L, S).

% The standard order: variables, integers by value, atoms by their letters, compounds by arity, name and arguments.
% keysort/2 sorts pairs Key-Value by their keys alone, and keeps all.
by_mark(Subject, Names) :- findall(M-N, mark(N, Subject, M), Ps), keysort(Ps, Qs), values(Qs, Names).

values([], []).
values([_-V|Ps], [V|Vs]) :- values(Ps, Vs).

length([], 0).
length([_|T], N) :- length(T, M), N is M + 1.

sum([], 0).
sum([X|Xs], S) :- sum(Xs, T), S is X + T.

% The mean in tenths: there are integers alone.
mean_tenths(Name, T) :- marks(Name, L), length(L, N), N > 0, sum(L, S), T is 10 * S // N.

% The best of a subject: no other mark is lower.
best(Subject, Name) :- mark(Name, Subject, M), \+ ( mark(_, Subject, K), K < M ).

% A goal may be an argument: call(G, X) adds X to G and runs it.
map(_, [], []).
map(G, [X|Xs], [Y|Ys]) :- call(G, X, Y), map(G, Xs, Ys).

% Exercises
% 1. Write subjects(S), the sorted list of the subjects.
% 2. Write how_many(Subject, N): N pupils have a mark in it.
% 3. Write report(R): the list of Name-Marks for each name, by name.
% 4. Write count(G, N): the goal G has N solutions.
