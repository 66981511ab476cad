% Lists built from nil and c(Head, Tail).
append(nil, L, L).
append(c(H, T), L, c(H, R)) :- append(T, L, R).

reverse(nil, nil).
reverse(c(H, T), R) :- reverse(T, S), append(S, c(H, nil), R).
