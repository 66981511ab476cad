% Solutions of lesson 1; the queries beside this file are part of them.
% 3.
length_of(rhine, 1233).
length_of(danube, 2850).
length_of(elbe, 1094).
% 4. For each river through the country that is another one there is an answer: a pair with two such rivers comes twice.
