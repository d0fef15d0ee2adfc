% No term has the type tree, since each needs another one.
tree : type.
node : (tree, tree) -> tree.
pred p(tree).
p(X).

% The report, and what is said on standard error:
% % type fault: item 4, line 5, kind 6 Empty
% error: no term has the type of the variable `X`
%   line 5, column 3
% 5 | p(X).
%   |   ^ its type is `tree`
%   = each constructor needs a term of a type without terms: `node` is declared in line 3: `node : (tree, tree) -> tree`
%   = declare a constructor that needs no such term, in an item before
