parsed([p, or, not, '(', q, and, r, ')'], F).
parsed([p, or], F).
model([p, and, '(', q, or, not, p, ')'], V).
model([p, or, q], V).
each(always, [[p, or, not, p], [not, '(', p, and, not, p, ')']]).
always([p, or, q]) -> R = always ; model([p, or, q], _) -> R = sometimes ; R = never.
