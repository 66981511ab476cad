fibonacci(15, F).
factorial(33, F).
factorial(34, F).
divisor(1071, 462, D).
between(1, 3, X).
between(1, 30, N), prime(N), N mod 10 =:= 3.
\+ ( between(1, 9, X), divisor(X, 60, X), X > 6 ).
X is -7 // 2, Y is -7 rem 2, Z is -7 div 2, W is -7 mod 2.
X is 1 << 62, Y is \ X, Z is X \/ 1.
value(2 ^ 127 - 1, V).
value(1 // 0, V).
value(1 + length, V).
