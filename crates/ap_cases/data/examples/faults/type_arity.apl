% The constructor s has one argument.
nat : type.
z : nat.
s : nat -> nat.
?- X = s(z, z).

% The report, and what is said on standard error:
% % type fault: item 4, line 5, kind 3 Arity
% error: `s` has 1 argument and is given 2
%   line 5, column 8
% 5 | ?- X = s(z, z).
%   |        ^
%   = `s` is declared in line 4: `s : nat -> nat`
%   = one argument that is a tuple is written in parentheses of its own: `f((t, u))`
