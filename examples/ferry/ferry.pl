% A farmer ferries a wolf, a goat and a cabbage over a river, one of them at a time. A state has the bank, west or east, of each.
opposite(west, east).
opposite(east, west).

% A crossing with this load, and the state behind it.
crosses(state(F, F, G, C), wolf, state(H, H, G, C)) :- opposite(F, H).
crosses(state(F, W, F, C), goat, state(H, W, H, C)) :- opposite(F, H).
crosses(state(F, W, G, F), cabbage, state(H, W, G, H)) :- opposite(F, H).
crosses(state(F, W, G, C), nothing, state(H, W, G, C)) :- opposite(F, H).

% Where the farmer is away, the goat is neither with the wolf nor with the cabbage.
safe(state(F, W, G, C)) :- ( F = G -> true ; G \= W, G \= C ).

member(X, [X|_]).
member(X, [_|T]) :- member(X, T).

% The loads that lead from a state to another. No state comes twice.
loads(S, S, _, []) :- ! .
loads(S, E, Seen, [L|Ls]) :- crosses(S, L, N), safe(N), \+ member(N, Seen), loads(N, E, [N|Seen], Ls).

plan(Ls) :- S = state(west, west, west, west), loads(S, state(east, east, east, east), [S], Ls).
