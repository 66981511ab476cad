% Balls that are thrown a hundred calls deep and caught, and errors of built-ins, as often as the size says.
% query: bench(5000, X).
% output: answer 1: X = bottom-[instantiation_error,type_error(evaluable,a/0)]

bench(Size, _) :- times(Size), work(_), fail.
bench(_, X) :- work(X).

times(N) :- N > 0.
times(N) :- N > 1, M is N - 1, times(M).

work(Ball-[E1, E2]) :-
    catch(down(100), found(Ball), true),
    catch(value(_, _), error(E1, _), true),
    catch(value(a, _), error(E2, _), true).

down(0) :- throw(found(bottom)).
down(N) :- N > 0, M is N - 1, catch(down(M), nothing(_), true), true.

value(X, Y) :- Y is X + 1.
