add(s(s(zero)), s(zero), Z).
add(X, Y, s(s(zero))).
multiply(s(s(zero)), s(s(s(zero))), Z).
