% A recursion that is 512 deep: 64 is taken eight times, and then counted down to zero. The answer is yes, at
% depth 513 or more.

nat : type.
z : nat.
s : nat -> nat.

pred eight_times(nat, nat).
eight_times(z, z).
eight_times(s(N), s(s(s(s(s(s(s(s(M))))))))) :- eight_times(N, M).

pred down(nat).
down(z).
down(s(N)) :- down(N).

?- exists A (
eight_times(s(s(s(s(s(s(s(s(s(s(s(s(s(s(s(s(s(s(s(s(s(s(s(s(s(s(s(s(s(s(s(s(s(s(s(s(s(s(s(s(s(s(s(s(s(s(s(s(s(s(s(s(s(s(s(
s(s(s(s(s(s(s(s(s(z)))))))))))))))))))))))))))))))))))))))))))))))))))))))))))))))), A),
down(A)).
