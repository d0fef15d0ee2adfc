% The simply typed lambda calculus with two base types, call by name. It has one fault, which is also in the
% benchmarks of Klein and others (Run your research, 2012) and of Cheney and Momigliano (alphaCheck, 2017): in the
% rule of application the argument and the result of the function's type are exchanged. `application_mended.apl` is mended.
%
% To depth 2 no property has a counterexample; depth 3 is the least that shows it.

id : name_type.
exp : type.
var : id -> exp.
app : (exp, exp) -> exp.
lam : id\exp -> exp.
true : exp.
zero : exp.

ty : type.
bool : ty.
nat : ty.
arr : (ty, ty) -> ty.

pred mem((id, ty), [(id, ty)]).
mem(P, [P|_]).
mem(P, [_|L]) :- mem(P, L).

pred tc([(id, ty)], exp, ty).
tc(_, true, bool).
tc(_, zero, nat).
tc(G, var(X), T) :- mem((X,T), G).
tc(G, app(M,N), U) :- tc(G, M, arr(U,T)), tc(G, N, T).      % arr(T,U) is right
tc(G, lam(x\M), arr(T,U)) :- x # G, tc([(x,T)|G], M, U).

pred subst(exp, id, exp, exp).
subst(true, _, _, true).
subst(zero, _, _, zero).
subst(var(X), X, E, E).
subst(var(Y), X, _, var(Y)) :- X # Y.
subst(app(M,N), X, E, app(M2,N2)) :- subst(M, X, E, M2), subst(N, X, E, N2).
subst(lam(y\M), X, E, lam(y\M2)) :- y # X, y # E, subst(M, X, E, M2).

pred step(exp, exp).
step(app(lam(x\M),N), R) :- x # (N, R), subst(M, x, N, R).
step(app(M,N), app(M2,N)) :- step(M, M2).

pred value(exp).
value(true).
value(zero).
value(lam(_)).

% Progress: a closed term that has a type is a value or takes a step. No counterexample: the fault leaves what has an arrow's
% type a function.
?- tc([], M, _), (value(M) ; exists N (step(M, N))).

% Preservation: what a step gives has the type. The counterexample is (\x. zero) zero, which has the type bool with the fault, as any
% type: the rule takes nat, which the function gives, for what it is applied to. The hypothesis leaves the type open; bool is put for it,
% the first constructor of `ty` without arguments. Were there one base type alone, it would be put, and depth 3 would show nothing.
?- tc([], M, T), step(M, N), tc([], N, T).
