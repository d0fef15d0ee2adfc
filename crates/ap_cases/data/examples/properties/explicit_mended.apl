% The lambda calculus with explicit substitutions (Bloo and Rose, 1995): `explicit.apl` without the clause that must not be there. The
% step under the binder of another abstraction has both of its conditions: y is not x, as two names of a clause are two
% names, and not free in N.
%
% The property of `explicit.apl`, word for word. To depths 3 and 4 it has no counterexample.

id : name_type.
exp : type.
var : id -> exp.
app : (exp, exp) -> exp.
lam : id\exp -> exp.
sub : (exp, id\exp) -> exp.

pred step(exp, exp).
step(sub(N, x\var(x)), N) :- x # N.
step(sub(N, x\M), M) :- x # (N, M).
step(sub(N, x\app(M,P)), app(sub(N, x\M), sub(N, x\P))) :- x # N.
step(sub(N, x\lam(y\M)), lam(y\sub(N, x\M))) :- x # N, y # N.

pred subst(exp, id, exp, exp).
subst(var(X), X, E, E).
subst(var(Y), X, _, var(Y)) :- X # Y.
subst(app(M,N), X, E, app(M2,N2)) :- subst(M, X, E, M2), subst(N, X, E, N2).
subst(lam(y\M), X, E, lam(y\M2)) :- y # X, y # E, subst(M, X, E, M2).

% The term without its explicit substitutions, each of them carried out.
pred pure(exp, exp).
pure(var(X), var(X)).
pure(app(M,N), app(P,Q)) :- pure(M, P), pure(N, Q).
pure(lam(x\M), lam(x\P)) :- pure(M, P).
pure(sub(N, x\M), R) :- x # (N, R), pure(N, Q), pure(M, P), subst(P, x, Q, R).

pred mem(id, [id]).
mem(X, [X|_]).
mem(X, [_|L]) :- mem(X, L).

% The free names of the term are among those of the list.
pred over([id], exp).
over(L, var(X)) :- mem(X, L).
over(L, app(M,N)) :- over(L, M), over(L, N).
over(L, lam(x\M)) :- x # L, over([x|L], M).
over(L, sub(N, x\M)) :- x # (L, N), over(L, N), over([x|L], M).

% A step of M<x:=a> keeps what the term is without its substitutions.
?- over([a,x], M), step(sub(var(a), x\M), N), pure(sub(var(a), x\M), P), pure(N, P).
