% The first two places of swap are names, and X is a variable.
id : name_type.
exp : type.
var : id -> exp.
?- swap(X,b,var(b)) = var(X).

% The report, and what is said on standard error:
% % name fault: item 4, line 5, kind 2 VariableSwap, name X
% error: the first two parts of `swap` are names, and `X` is a variable
%   line 5, column 9
% 5 | ?- swap(X,b,var(b)) = var(X).
%   |         ^
%   = a name is spelled with a small letter: `swap(a, b, t)`
