is_a(X, tiger).
proof(is_a(pip, penguin), P).
how(is_a(tara, tiger)).
how(is_a(pip, penguin)).
how(is_a(rio, penguin)).
why(has(rex, milk), is_a(rex, tiger), Path).
missing(is_a(rio, tiger), Ms).
missing(is_a(rio, penguin), Ms).
assertz(has(rex, milk)), assertz(has(rex, stripes)), missing(is_a(rex, tiger), Ms).
assertz(eats(rex, meat)), how(is_a(rex, tiger)).
