% The simply typed lambda calculus with two base types, call by name: `application.apl` with the rule of application as it is to be. It
% is applied to a term of the type that the function takes, and has the type that the function gives.
%
% The properties of `application.apl`, word for word. To depths 3 and 4 none has a counterexample.

id : name_type.
exp : type.
var : id -> exp.
app : (exp, exp) -> exp.
lam : id\exp -> exp.
true : exp.
zero : exp.

ty : type.
bool : ty.
nat : ty.
arr : (ty, ty) -> ty.

pred mem((id, ty), [(id, ty)]).
mem(P, [P|_]).
mem(P, [_|L]) :- mem(P, L).

pred tc([(id, ty)], exp, ty).
tc(_, true, bool).
tc(_, zero, nat).
tc(G, var(X), T) :- mem((X,T), G).
tc(G, app(M,N), U) :- tc(G, M, arr(T,U)), tc(G, N, T).
tc(G, lam(x\M), arr(T,U)) :- x # G, tc([(x,T)|G], M, U).

pred subst(exp, id, exp, exp).
subst(true, _, _, true).
subst(zero, _, _, zero).
subst(var(X), X, E, E).
subst(var(Y), X, _, var(Y)) :- X # Y.
subst(app(M,N), X, E, app(M2,N2)) :- subst(M, X, E, M2), subst(N, X, E, N2).
subst(lam(y\M), X, E, lam(y\M2)) :- y # X, y # E, subst(M, X, E, M2).

pred step(exp, exp).
step(app(lam(x\M),N), R) :- x # (N, R), subst(M, x, N, R).
step(app(M,N), app(M2,N)) :- step(M, M2).

pred value(exp).
value(true).
value(zero).
value(lam(_)).

% Progress and preservation.
?- tc([], M, _), (value(M) ; exists N (step(M, N))).
?- tc([], M, T), step(M, N), tc([], N, T).
