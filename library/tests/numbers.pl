% library: numbers.pl
% The right-angled triangles whose longest side is at most N.
triangle(N, A, B, C) :- between(1, N, C), between(1, C, B), between(1, B, A), A * A + B * B =:= C * C.
