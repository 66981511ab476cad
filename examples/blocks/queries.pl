start(three, S), move(S, M, T).
once(shortest(three, P)), shown(three, P).
counted(deep(three, P), N), length(P, L).
counted(shortest(three, P), N).
counted(shortest_once(three, 9, P), N).
counted(shortest(turned, P), N).
counted(shortest_once(turned, 9, P), N).
shortest_once(circle, 9, P).
findall(P, shortest_once(three, 4, P), Ps).
