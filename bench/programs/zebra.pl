% Who keeps the zebra, and who drinks water, as often as the size says.
% query: bench(100, X).
% output: answer 1: X = japanese-norwegian

bench(Size, _) :- times(Size), work(_), fail.
bench(_, X) :- work(X).

times(N) :- N > 0.
times(N) :- N > 1, M is N - 1, times(M).

work(Keeper-Drinker) :-
    Houses = [house(norwegian, _, _, _, _), _, house(_, _, _, milk, _), _, _],
    one_of(house(english, red, _, _, _), Houses),
    one_of(house(spanish, _, dog, _, _), Houses),
    one_of(house(_, green, _, coffee, _), Houses),
    one_of(house(ukrainian, _, _, tea, _), Houses),
    right_of(house(_, green, _, _, _), house(_, ivory, _, _, _), Houses),
    one_of(house(_, _, snails, _, winston), Houses),
    one_of(house(_, yellow, _, _, kools), Houses),
    beside(house(_, _, _, _, chesterfield), house(_, _, fox, _, _), Houses),
    beside(house(_, _, _, _, kools), house(_, _, horse, _, _), Houses),
    one_of(house(_, _, _, juice, luckystrike), Houses),
    one_of(house(japanese, _, _, _, parliament), Houses),
    beside(house(norwegian, _, _, _, _), house(_, blue, _, _, _), Houses),
    one_of(house(Keeper, _, zebra, _, _), Houses),
    one_of(house(Drinker, _, _, water, _), Houses), !.

one_of(X, [X|_]).
one_of(X, [_|Ys]) :- one_of(X, Ys).

right_of(X, Y, [Y, X|_]).
right_of(X, Y, [_|Zs]) :- right_of(X, Y, Zs).

beside(X, Y, Zs) :- right_of(X, Y, Zs).
beside(X, Y, Zs) :- right_of(Y, X, Zs).
