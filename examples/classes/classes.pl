% Who takes which class, and what bagof/3 and setof/3 make of it.
takes(carla, music).
takes(anna, physics).
takes(bruno, music).
takes(carla, art).
takes(anna, music).
takes(carla, physics).

% The pupils of each class, in order.
class(Class, Pupils) :- setof(P, takes(P, Class), Pupils).

% All pupils: Class^ says that it doesn't matter which class they take.
pupils(Pupils) :- setof(P, Class^takes(P, Class), Pupils).

% The classes that two pupils take together.
together(P, Q, Classes) :- bagof(C, ( takes(P, C), takes(Q, C), P @< Q ), Classes).
