d(x * x + num(3) * x, x, D).
?- d(-(x), x, D).
member(E, [x, - x, "no"]), E = - Y.
X = [0'a, 'don''t', {a, b}|T].
