#!/bin/sh
# Makes a derivation of 1,000,000 nodes in one chain from its path, and then writes it as a bundle, reads that again and
# verifies it, and prints what each took, the greatest memory too: each does what the ones before it do first. The last is
# done once more on a stack of 256 KiB.
. "$(dirname -- "$(readlink -f -- "$0")")/prepare.sh"

build_parts
for stage in derived written read verified; do
    printf '%-10s' "$stage"
    measure /dev/null "$parts" "$stage"
done
ulimit -s 256
printf '%-10s' "verified"
measure /dev/null "$parts" verified
