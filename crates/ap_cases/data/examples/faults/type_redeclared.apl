% The word id is a name type already.
id : name_type.
exp : type.
id : type.

% The report, and what is said on standard error:
% % type fault: item 3, line 4, kind 2 Redeclared
% error: the type `id` is declared twice
%   line 4, column 1
% 4 | id : type.
%   | ^^ declared again here
%   = `id` is declared in line 2: `id : name_type`
