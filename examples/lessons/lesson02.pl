% Lesson 2: rules.
% bus(A, B): there is a bus from A to B.
bus(market, station).
bus(station, school).
bus(station, hospital).
bus(school, lake).
bus(hospital, lake).

% A rule says that its head holds where its body does. The comma is "and"; each use of a rule has variables of its own.
change(A, C) :- bus(A, B), bus(B, C).

% Two rules for one head: this, or that.
near(A, B) :- bus(A, B).
near(A, B) :- bus(B, A).

% A rule may use itself. One clause says where the way ends, the other takes one bus and goes on from there.
reaches(A, B) :- bus(A, B).
reaches(A, C) :- bus(A, B), reaches(B, C).

% The goals of a body are run from the left. Here the rule calls itself before it has taken a bus, with nothing new known,
% so behind its answers it goes on forever, until the budget of steps ends it.
loops(A, B) :- bus(A, B).
loops(A, C) :- loops(A, B), bus(B, C).

% Exercises
% 1. Write meets(A, B): from A and from B, which are two places, there is a bus to the same place.
% 2. Write way(A, B, N) for N buses, where N is written as one, more(one), more(more(one)) and so on.
% 3. Why has reaches(market, lake) two answers? Write the two ways down.
% 4. What happens to reaches(market, C) where there is a bus back, bus(lake, market)?
