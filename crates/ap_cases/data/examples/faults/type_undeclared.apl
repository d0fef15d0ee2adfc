% An item sees what the items before it declare: exp comes too late.
id : name_type.
var : id -> exp.
exp : type.

% The report, and what is said on standard error:
% % type fault: item 2, line 3, kind 1 Undeclared
% error: no type `exp` is declared
%   line 3, column 13
% 3 | var : id -> exp.
%   |             ^^^
%   = it is declared later, in line 4; an item sees what the items before it declare
