% Lesson 10: a language of your own.
% An operator is a name that may stand between its arguments, or before its argument. a likes b is likes(a, b).
:- op(700, xfx, likes).
:- op(800, xfx, if).
anna likes X if X likes music.
bruno likes music.
carla likes music.

% Clauses of if/2 are facts like any other; holds/1 says what they mean. That is an interpreter.
holds(A likes B) :- A likes B.
holds(G) :- ( G if C ), holds(C).

% The second language draws: a turtle goes over squares. Its texts are lists of words.
% program(P, Ws, Rest): the words Ws begin with the program P, and Rest is what is left.
program([C|P], Ws, Rest) :- command(C, Ws, Vs), !, program(P, Vs, Rest).
program([], Ws, Ws).

command(go(N), [go, N|Ws], Ws) :- integer(N).
command(turn(left), [left|Ws], Ws).
command(turn(right), [right|Ws], Ws).
command(repeat(N, P), [repeat, N, '('|Ws], Vs) :- integer(N), program(P, Ws, [')'|Vs]).

% run(P, S, T): the program P leads from the state S to T. A state is at(X, Y, D), where D is the direction.
run([], S, S).
run([C|P], S, U) :- does(C, S, T), run(P, T, U).

does(go(N), at(X, Y, D), at(V, W, D)) :- step(D, A, B), V is X + N * A, W is Y + N * B.
does(turn(left), at(X, Y, D), at(X, Y, E)) :- turned(D, E).
does(turn(right), at(X, Y, D), at(X, Y, E)) :- turned(E, D).
does(repeat(0, _), S, S) :- ! .
does(repeat(N, P), S, U) :- run(P, S, T), M is N - 1, does(repeat(M, P), T, U).

step(north, 0, 1).
step(south, 0, -1).
step(east, 1, 0).
step(west, -1, 0).

% A turn to the left.
turned(north, west).
turned(west, south).
turned(south, east).
turned(east, north).

% A whole text, from the middle of the field, with the face to the north.
drawn(Ws, S) :- once(program(P, Ws, Rest)), ( Rest = [] -> run(P, at(0, 0, north), S) ; Rest = [W|_], throw(not_understood(W)) ).

% Exercises
% 1. Add a command back N, which goes N squares without turning.
% 2. Write length_of(P, N): with the program P the turtle goes N squares.
% 3. Make `and` an operator of priority 750, so that dora likes X if X likes music and X likes anna is a rule, and let holds/1 know it.
% 4. Write mirrored(P, Q): Q has left and right exchanged, everywhere in P.
