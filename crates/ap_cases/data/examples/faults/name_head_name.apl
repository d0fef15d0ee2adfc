% The name x of the clause could be free in M. With the body x # M the rule is eta-conversion.
id : name_type.
exp : type.
var : id -> exp.
app : (exp, exp) -> exp.
lam : id\exp -> exp.
pred eta(exp, exp).
eta(lam(x\app(M,var(x))), M).

% The report, and what is said on standard error:
% % name fault: item 7, line 8, kind 3 HeadName, name x
% error: the name `x` may stand free in the head, through `M`
%   line 8, column 27
% 8 | eta(lam(x\app(M,var(x))), M).
%   |                           ^
%   = add the goal `x # M` to the body, under `,` alone
%   = this is no formality: where the name is free in what the variable stands for, the clause would hold for one choice of the name and not for another, and the goal makes it fail there
