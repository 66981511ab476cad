% Solutions of lesson 2.
% 1.
meets(A, B) :- bus(A, C), bus(B, C), A \= B.
% 2.
way(A, B, one) :- bus(A, B).
way(A, C, more(N)) :- bus(A, B), way(B, C, N).
% 3. market, station, school, lake; and market, station, hospital, lake.
% 4. The search goes round and round: it has answers without end, each place again and again, until the budget ends it.
