plan(Loads).
once(plan([goat, L|_])).
\+ ( plan([L|_]), L \= goat ).
safe(state(east, west, west, east)) ; safe(state(east, west, east, west)).
