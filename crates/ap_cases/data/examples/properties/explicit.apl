% The lambda calculus with explicit substitutions (Bloo and Rose, Preservation of strong normalisation in named lambda calculi with
% explicit substitution and garbage collection, 1995): sub(N, x\M) is M<x:=N>, a term, which steps move into M. The step under the
% binder of another abstraction, (\y. M)<x:=N> -> \y. M<x:=N>, asks that y is not x and not free in N. The fault: the first of the
% two is left out, so that y may be x. Then a variable that the abstraction binds is caught by the substitution that
% comes to stand inside. `explicit_mended.apl` is mended.
%
% In a clause two names are two names, so the fault has a clause of its own, in which both binders are x. The restriction on names
% takes it: M stands under x in both places, and the goal x # N is there. Without that goal it would be refused (status 4).
%
% To depth 2 there is no counterexample; depth 3 is the least that shows it.

id : name_type.
exp : type.
var : id -> exp.
app : (exp, exp) -> exp.
lam : id\exp -> exp.
sub : (exp, id\exp) -> exp.

pred step(exp, exp).
step(sub(N, x\var(x)), N) :- x # N.
step(sub(N, x\M), M) :- x # (N, M).
step(sub(N, x\app(M,P)), app(sub(N, x\M), sub(N, x\P))) :- x # N.
step(sub(N, x\lam(y\M)), lam(y\sub(N, x\M))) :- x # N, y # N.
step(sub(N, x\lam(x\M)), lam(x\sub(N, x\M))) :- x # N.      % must not be there

pred subst(exp, id, exp, exp).
subst(var(X), X, E, E).
subst(var(Y), X, _, var(Y)) :- X # Y.
subst(app(M,N), X, E, app(M2,N2)) :- subst(M, X, E, M2), subst(N, X, E, N2).
subst(lam(y\M), X, E, lam(y\M2)) :- y # X, y # E, subst(M, X, E, M2).

% The term without its explicit substitutions, each of them carried out.
pred pure(exp, exp).
pure(var(X), var(X)).
pure(app(M,N), app(P,Q)) :- pure(M, P), pure(N, Q).
pure(lam(x\M), lam(x\P)) :- pure(M, P).
pure(sub(N, x\M), R) :- x # (N, R), pure(N, Q), pure(M, P), subst(P, x, Q, R).

pred mem(id, [id]).
mem(X, [X|_]).
mem(X, [_|L]) :- mem(X, L).

% The free names of the term are among those of the list.
pred over([id], exp).
over(L, var(X)) :- mem(X, L).
over(L, app(M,N)) :- over(L, M), over(L, N).
over(L, lam(x\M)) :- x # L, over([x|L], M).
over(L, sub(N, x\M)) :- x # (L, N), over(L, N), over([x|L], M).

% A step of M<x:=a> keeps what the term is without its substitutions. The counterexample is (\x. x)<x:=a>: it is \x. x, and steps
% to \x. x<x:=a>, which is \x. a.
?- over([a,x], M), step(sub(var(a), x\M), N), pure(sub(var(a), x\M), P), pure(N, P).
