% Substitution in the lambda calculus as it is written without binders: the variable of lam(Y,M) is a name beside the
% term, as in Church (The calculi of lambda-conversion, 1941) before the condition on free variables is asked. With that
% condition left out, the last clause of `subst` lets a free name of E be caught by Y. `capture_mended.apl` is mended.
%
% In this language the fault can't be made with a binder: where lam : id\exp, the clause
%     subst(lam(y\M), X, E, lam(y\M2)) :- y # X, subst(M, X, E, M2).
% is refused with status 4, as the name y is to be fresh for all of the head, so for E. The restriction on names
% speaks of binders alone. Here none is written, so it has nothing to refuse.
%
% To depth 2 no property has a counterexample; depth 3 is the least that shows it.

id : name_type.
exp : type.
var : id -> exp.
app : (exp, exp) -> exp.
lam : (id, exp) -> exp.             % binds nothing

pred subst(exp, id, exp, exp).
subst(var(X), X, E, E).
subst(var(Y), X, _, var(Y)) :- X # Y.
subst(app(M,N), X, E, app(M2,N2)) :- subst(M, X, E, M2), subst(N, X, E, N2).
subst(lam(X,M), X, _, lam(X,M)).
subst(lam(Y,M), X, E, lam(Y,M2)) :- X # Y, subst(M, X, E, M2).

% The name is free in the term.
pred free(id, exp).
free(X, var(X)).
free(X, app(M,_)) :- free(X, M).
free(X, app(_,N)) :- free(X, N).
free(X, lam(Y,M)) :- X # Y, free(X, M).

pred mem(id, [id]).
mem(X, [X|_]).
mem(X, [_|L]) :- mem(X, L).

% The names of the term, of those that are bound too, are among those of the list. A property's search puts new names for what
% its hypothesis leaves open; so which names are the same has to come from the hypothesis, as here.
pred over([id], exp).
over(L, var(X)) :- mem(X, L).
over(L, app(M,N)) :- over(L, M), over(L, N).
over(L, lam(Y,M)) :- mem(Y, L), over(L, M).

% A name put in for itself changes nothing: no counterexample, with the fault too, since what is caught is the same name.
?- over([a,b], M), subst(M, a, var(a), R), M = R.

% Where a is free and b is put in for it, b is free: the counterexample is (\b. a)[b/a] = \b. b.
?- over([a,b], M), free(a, M), subst(M, a, var(b), R), free(b, R).
