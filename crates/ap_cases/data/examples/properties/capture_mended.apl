% Substitution in the lambda calculus, with a binder: `capture.apl` with lam : id\exp in place of lam : (id, exp). The clause on lam
% has both conditions, which the language asks for: y is new for the name X and for the term E, so nothing of E is
% caught; and the clause of `capture.apl` on lam(X,M) is left out, as no bound name is the name X.
%
% The properties of `capture.apl`, word for word. To depths 3 and 4 none has a counterexample. At depth 4 (\y. a)[b/a] is among what
% is looked at, at depth 3 only (\y. y)[b/a].

id : name_type.
exp : type.
var : id -> exp.
app : (exp, exp) -> exp.
lam : id\exp -> exp.

pred subst(exp, id, exp, exp).
subst(var(X), X, E, E).
subst(var(Y), X, _, var(Y)) :- X # Y.
subst(app(M,N), X, E, app(M2,N2)) :- subst(M, X, E, M2), subst(N, X, E, N2).
subst(lam(y\M), X, E, lam(y\M2)) :- y # X, y # E, subst(M, X, E, M2).

% The name is free in the term.
pred free(id, exp).
free(X, var(X)).
free(X, app(M,_)) :- free(X, M).
free(X, app(_,N)) :- free(X, N).
free(X, lam(y\M)) :- y # X, free(X, M).

pred mem(id, [id]).
mem(X, [X|_]).
mem(X, [_|L]) :- mem(X, L).

% The free names of the term are among those of the list.
pred over([id], exp).
over(L, var(X)) :- mem(X, L).
over(L, app(M,N)) :- over(L, M), over(L, N).
over(L, lam(y\M)) :- y # L, over([y|L], M).

?- over([a,b], M), subst(M, a, var(a), R), M = R.
?- over([a,b], M), free(a, M), subst(M, a, var(b), R), free(b, R).
