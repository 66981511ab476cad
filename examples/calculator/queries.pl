tokens('x1 = 30*(y+2)', Ts).
program('1 - 2 - 3 * x ^ 2 ^ n', [show(E)]).
program('-x^2; (-2)^-y; - 7 * a', Ss).
run('a = 2; b = a * (3 + 4); b - 1; ((b)) - (a - (1))').
run('x = 7 / 2; x + 1; 7 / (3 - 3); 2^126 * 2').
text((1 - (2 - 3)) * - x, T), text(- (a + b) ^ 2, U), text((- a) ^ 2, V), text(a - -2, W).
E = (a - (b + c) / d) ^ (2 - n), text(E, T), program(T, [show(F)]), E == F.
program('x * (3 - 2) + 0 * y - (z - z) + 2 * 3 * 4', [show(E)]), simpler(E, F), text(F, T).
run('2 + ; 3').
run('2 +').
run('(2 + 3').
run('2 ? 3').
run('2 3').
