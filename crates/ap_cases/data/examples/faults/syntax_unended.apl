% The last item has no full stop.
nat : type.
z : nat.
s : nat -> nat

% The report, and what is said on standard error:
% % syntax fault: item 3, line 4, kind 5 Unended
% error: the text ends before the item's `.`
%   line 4, column 15
% 4 | s : nat -> nat
%   |               ^ a `.` is missing here
%   = the item begins in line 4
