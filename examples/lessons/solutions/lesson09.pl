% Solutions of lesson 9.
% 1.
open_account(Name) :- ( balance(Name, _) -> throw(has_account(Name)) ; assertz(balance(Name, 0)) ).
% 2.
close_account(Name, Rest) :- retract(balance(Name, Rest)), ! .
close_account(Name, _) :- throw(no_account(Name)).
% 3.
:- dynamic next_ticket/1.
next_ticket(1).

ticket(N) :- retract(next_ticket(N)), ! , M is N + 1, assertz(next_ticket(M)).
% 4. A goal has the clauses that its procedure had when it was called; those that are added later are for later calls.
