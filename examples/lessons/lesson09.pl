% Lesson 9: what changes, and what goes wrong.
% Facts that goals change are declared before their first clause. What is changed stays so: for later goals, and for later queries.
:- dynamic balance/2, known/2.
balance(anna, 50).
balance(bruno, 20).

% The old fact is taken away, and the new one added.
pay_in(Name, Sum) :- retract(balance(Name, Old)), ! , New is Old + Sum, assertz(balance(Name, New)).
pay_in(Name, _) :- throw(no_account(Name)).

% throw(B) ends what is running, up to the nearest catch that takes B. All is looked at before anything is changed,
% since neither failure nor a ball takes a change back.
transfer(From, To, Sum) :- checked(From, To, Sum), Minus is - Sum, pay_in(From, Minus), pay_in(To, Sum).

checked(From, To, Sum) :-
    ( balance(From, Has) -> true ; throw(no_account(From)) ),
    ( balance(To, _) -> true ; throw(no_account(To)) ),
    ( Has >= Sum -> true ; throw(too_little(From, Has)) ).

% What catch/3 gets: a goal, a pattern for the ball, and what to do then. R is done, or the ball.
attempt(G, R) :- catch(( G, R = done ), Ball, R = Ball), ! .

% Built-ins throw balls error(What, Where).
value(E, V) :- catch(V is E, error(W, _), V = no_value(W)).

% Fibonacci numbers, each of which is found once and kept.
fib(N, F) :- known(N, F), ! .
fib(N, N) :- N < 2, ! .
fib(N, F) :- A is N - 1, B is N - 2, fib(A, X), fib(B, Y), F is X + Y, asserta(known(N, F)).

% A goal that is to be run for what it changes, for each solution of another: failure goes back to the next one.
interest :- balance(Name, B), I is B // 10, pay_in(Name, I), fail.
interest.

% Exercises
% 1. Write open_account(Name), with a balance of 0; an account that is there already is a ball.
% 2. Write close_account(Name, Rest): Rest is paid out, and the account is gone.
% 3. Write ticket(N): each call gives the next number, from 1 on.
% 4. interest goes over each account once, though pay_in/2 adds a new fact behind the others. Why?
