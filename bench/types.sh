#!/bin/sh
# Solves 20 type equations, each with the answer before it twice, and prints what that took.
. "$(dirname -- "$(readlink -f -- "$0")")/prepare.sh"

build_parts
measure /dev/null "$parts" types
