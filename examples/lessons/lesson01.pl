% Lesson 1: facts and questions.
% A fact says that something holds. Names of things begin with a small letter, and each fact ends with a full stop.
river(rhine).
river(danube).
river(elbe).

% flows(R, C): the river R flows through the country C.
flows(rhine, switzerland).
flows(rhine, germany).
flows(rhine, netherlands).
flows(danube, germany).
flows(danube, austria).
flows(danube, hungary).
flows(elbe, czechia).
flows(elbe, germany).

% A question is a goal, too. A word that begins with a capital letter is a variable: it stands for whatever makes the goal hold.
% The answers come in the order of the facts. A comma between two goals says that both are to hold; the same variable is the same thing.
% The variable _ is another one each time, and no answer shows it.

% Exercises
% 1. Ask which rivers flow through Austria.
% 2. Ask for the countries that have both the Rhine and the Danube.
% 3. Write facts length_of(R, Km): the Rhine has 1233 km, the Danube 2850 and the Elbe 1094. Ask how long the rivers in Hungary are.
% 4. Ask for pairs of a river and a country through which another river flows too. Why does a pair come more than once?
