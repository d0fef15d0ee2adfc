% Nothing says of which type X is.
nat : type.
z : nat.
?- X = Y.

% The report, and what is said on standard error:
% % type fault: item 3, line 4, kind 5 Ambiguous
% error: nothing fixes the type of the variable `X`
%   line 4, column 4
% 4 | ?- X = Y.
%   |    ^ nothing is known of its type
%   = types are found from the item alone: a predicate or constructor that it is an argument of fixes its type
