% What stands left of \ in a term is a name, and X is a variable.
id : name_type.
exp : type.
var : id -> exp.
lam : id\exp -> exp.
pred identity(exp).
identity(lam(X\var(X))).

% The report, and what is said on standard error:
% % name fault: item 6, line 7, kind 1 VariableBinder, name X
% error: left of `\` stands a name, and `X` is a variable
%   line 7, column 14
% 7 | identity(lam(X\var(X))).
%   |              ^
%   = a name is spelled with a small letter: `x\t`; each name of a clause stands for any name that is different from its other names
%   = how it stands to `X` is said by goals: `x # X`, or `x = X`
