#!/bin/sh
# Takes 1,000,000 turns of a shared book that nobody else wants, and makes 1,000 deques, and prints
# what each took.
. "$(dirname -- "$(readlink -f -- "$0")")/prepare.sh"

build_parts
measure /dev/null "$parts" lock
measure /dev/null "$parts" tasks
