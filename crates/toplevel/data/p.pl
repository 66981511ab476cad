:- dynamic(q/1).
:- write(begun).
p(1). p(2).
