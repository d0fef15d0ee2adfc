#!/bin/sh
# Fills a book with 131,071 entries, closes and merges it, and prints what that took.
. "$(dirname -- "$(readlink -f -- "$0")")/prepare.sh"

build_parts
measure /dev/null "$parts" book
