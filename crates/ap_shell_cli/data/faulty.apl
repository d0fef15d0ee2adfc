pred double(nat, nat).
double(X, Y) :- add(X, X).
