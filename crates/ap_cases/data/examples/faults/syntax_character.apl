% There are no numbers: 1 begins no token.
nat : type.
z : nat.
pred p(nat).
p(z).
p(1).

% The report, and what is said on standard error:
% % syntax fault: item 5, line 6, kind 2 Character
% error: no token begins with the character `1` (U+0031)
%   line 6, column 3
% 6 | p(1).
%   |   ^
%   = there are no numbers: declare `nat : type.`, `z : nat.`, `s : nat -> nat.` and write `s(z)`
