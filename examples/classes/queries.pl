class(Class, Pupils).
class(latin, Pupils).
pupils(Pupils).
together(P, Q, Classes).
together(P, Q, [_,_|_]).
