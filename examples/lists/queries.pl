append(X, Y, c(1, c(2, nil))).
reverse(c(1, c(2, c(3, nil))), R).
append(X, c(3, nil), c(1, c(2, c(3, nil)))).
