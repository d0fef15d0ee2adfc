% A number is no expression.
id : name_type.
nat : type.
z : nat.
exp : type.
var : id -> exp.
pred p(exp).
?- p(z).

% The report, and what is said on standard error:
% % type fault: item 7, line 8, kind 4 Clash
% error: a term of the type `exp` is wanted here, and `z` is of the type `nat`
%   line 8, column 6
% 8 | ?- p(z).
%   |      ^
%   = this is argument 1; `p` is declared in line 7: `pred p(exp)`
%   = `z` is declared in line 4: `z : nat`
