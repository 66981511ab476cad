% Solutions of lesson 10. Clauses that are added here come behind those of the lesson.
% 1.
command(back(N), [back, N|Ws], Ws) :- integer(N).

does(back(N), S, T) :- M is - N, does(go(M), S, T).
% 2.
length_of([], 0).
length_of([C|P], N) :- length_of_one(C, A), length_of(P, B), N is A + B.

length_of_one(go(N), N).
length_of_one(back(N), N).
length_of_one(turn(_), 0).
length_of_one(repeat(N, P), M) :- length_of(P, L), M is N * L.
% 3.
:- op(750, xfy, and).
dora likes X if X likes music and X likes anna.
carla likes anna.

holds(A and B) :- holds(A), holds(B).
% 4.
mirrored([], []).
mirrored([C|P], [D|Q]) :- mirrored_one(C, D), mirrored(P, Q).

mirrored_one(turn(left), turn(right)).
mirrored_one(turn(right), turn(left)).
mirrored_one(go(N), go(N)).
mirrored_one(back(N), back(N)).
mirrored_one(repeat(N, P), repeat(N, Q)) :- mirrored(P, Q).
