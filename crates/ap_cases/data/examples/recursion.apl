% A recursion that is 100,352 deep: 196 is taken eight times, three times over, and then counted down to zero.
% The answer is yes, at depth 100,353 or more.

nat : type.
z : nat.
s : nat -> nat.

pred eight_times(nat, nat).
eight_times(z, z).
eight_times(s(N), s(s(s(s(s(s(s(s(M))))))))) :- eight_times(N, M).

pred down(nat).
down(z).
down(s(N)) :- down(N).

?- exists A (exists B (exists C (
eight_times(s(s(s(s(s(s(s(s(s(s(s(s(s(s(s(s(s(s(s(s(s(s(s(s(s(s(s(s(s(s(s(s(s(s(s(s(s(s(s(s(s(s(
s(s(s(s(s(s(s(s(s(s(s(s(s(s(s(s(s(s(s(s(s(s(s(s(s(s(s(s(s(s(s(s(s(s(s(s(s(s(s(s(s(s(s(s(s(s(s(s(
s(s(s(s(s(s(s(s(s(s(s(s(s(s(s(s(s(s(s(s(s(s(s(s(s(s(s(s(s(s(s(s(s(s(s(s(s(s(s(s(s(s(s(s(s(s(s(s(
s(s(s(s(s(s(s(s(s(s(s(s(s(s(s(s(s(s(s(s(s(s(s(s(s(s(s(s(s(s(s(s(s(s(s(s(s(s(s(s(s(s(s(s(s(s(s(s(
s(s(s(s(s(s(s(s(s(s(z)))))))))))))))))))))))))))))))))))))))))))))))))))))))))))))))))))))))))))
))))))))))))))))))))))))))))))))))))))))))))))))))))))))))))))))))))))))))))))))))))))))))))))))
))))))))))))))))))))))))), A),
eight_times(A, B), eight_times(B, C), down(C)))).
