% A clause's head is an atom, and not a goal of two.
pred p.
pred q.
p, q.

% The report, and what is said on standard error:
% % syntax fault: item 3, line 4, kind 3 Grammar
% error: the item can't go on with `,`
%   line 4, column 2
% 4 | p, q.
%   |  ^ `:-` or `.` is wanted here
%   = a clause has one head; its goals stand behind `:-`
