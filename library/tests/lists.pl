% library: lists.pl
colours([red, green, blue]).
