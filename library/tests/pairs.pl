% library: pairs.pl
ages([anna-34, bruno-7, carla-34, dora-9]).
