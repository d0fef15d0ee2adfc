% The calculus of 7_types.apl with one clause that is wrong, and a property. In lookup the known name stands left. The fault
% shows itself to `examine` at depth 5.

id : name_type.

ty : type.
o : ty.
arr : (ty, ty) -> ty.

exp : type.
var : id -> exp.
app : (exp, exp) -> exp.
lam : (ty, id\exp) -> exp.

pred lookup([(id, ty)], id, ty).
lookup([(X,T)|_], X, T).
lookup([(Y,_)|G], X, T) :- Y # X, lookup(G, X, T).

pred of([(id, ty)], exp, ty).
of(G, var(X), T) :- lookup(G, X, T).
of(G, app(M,N), U) :- of(G, M, arr(T,U)), of(G, N, T).
of(G, lam(T,x\M), arr(T,U)) :- x # G, of([(x,T)|G], M, U).

pred subst(exp, id, exp, exp).
subst(var(X), X, E, E).
subst(var(Y), X, _, var(Y)) :- X # Y.
subst(app(M,N), X, E, app(M2,N2)) :- subst(M, X, E, M2), subst(N, X, E, N2).
subst(lam(T,y\M), X, E, lam(T,y\M2)) :- y # (X, E), subst(M, X, E, M2).

pred value(exp).
value(lam(_,_)).

pred step(exp, exp).
step(app(lam(_,x\M),V), R) :- x # (V, R), value(V), subst(V, x, M, R).
step(app(M,N), app(M2,N)) :- step(M, M2).
step(app(V,N), app(V,N2)) :- value(V), step(N, N2).

% Preservation: after a step a closed term has the type that it had.
?- of([], M, T), step(M, N), of([], N, T).
