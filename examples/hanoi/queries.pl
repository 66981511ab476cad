moves(10, K).
tower(12, Name), atom_length(Name, L).
hanoi(1, a, b, c).
