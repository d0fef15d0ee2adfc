#!/bin/sh
# Tests what is said of statuses that have no place in the text, and runs the examples and the texts with faults while
# standard error is closed, full or slow, where standard output and the status must be those of a run whose standard
# error is read. usage: bench/standard_error.sh PROGRAM
program=$1
top=$(dirname -- "$(readlink -f -- "$0")")/..
work=$(mktemp -d)
trap 'rm -rf "$work"' EXIT
failures=0

# Compares what a run wrote and its status with those of the first run of its text.
compare() {
    if ! cmp -s "$work/out" "$work/wanted" || [ "$1" != "$wanted" ]; then
        echo "$text: standard error $2: status $1 in place of $wanted"
        failures=$((failures + 1))
    fi
}

# Compares a run's status, its output and how its standard error begins with what is wanted.
said() {
    if [ "$1" != "$2" ] || [ "$(cat "$work/out")" != "$3" ] || [ "$(head -n 1 "$work/said")" != "$4" ]; then
        echo "status $1 in place of $2: $(cat "$work/out") / $(head -n 1 "$work/said")"
        failures=$((failures + 1))
    fi
}

usage='usage: alphaprolog run --depth D [--workers W] < FILE'
for words in '' help --help --version run 'run --depth' 'run --depth x' 'run --depth 1 --workers 65' 'walk --depth 1'; do
    # shellcheck disable=SC2086
    "$program" $words < /dev/null > "$work/out" 2> "$work/said"
    said $? 1 '% usage fault' "$usage"
    [ "$(wc -l < "$work/said")" -ge 9 ] || { echo "the usage text is cut"; failures=$((failures + 1)); }
done
"$program" run --depth 1 < / > "$work/out" 2> "$work/said"
said $? 5 '% read fault' 'error: standard input could not be read'
"$program" run --depth 9 < "$top/examples/first.apl" > /dev/full 2> "$work/said"
status=$?
: > "$work/out"
said $status 6 '' 'error: the report could not be written whole to standard output'
head -c 16777217 /dev/zero | "$program" run --depth 1 > "$work/out" 2> "$work/said"
said $? 9 '% text too large' 'error: the input has more than 16777216 bytes'
"$program" prove --depth 10 < "$top/examples/first.apl" > "$work/bundle" 2> "$work/said"
status=$?
: > "$work/out"
said $status 0 '' ''
"$program" check < "$work/bundle" > "$work/out" 2> "$work/said"
said $? 0 '% 2 derivations checked' ''
bundles=$top/crates/ap_cases/data/bundles
"$program" check < "$bundles/forged_count" > "$work/out" 2> "$work/said"
said $? 8 '% derivation 1: node 10, rule 3 Count' 'error: a derivation of the bundle does not check'
"$program" check < "$bundles/unended" > "$work/out" 2> "$work/said"
said $? 2 '% bundle fault: line 12, kind 4 Unended' 'error: the input has a fault; the report tells where'
"$program" check < "$bundles/faulty_text" > "$work/out" 2> "$work/said"
said $? 2 '% syntax fault: item 2, line 2, kind 5 Unended' 'error: the input has a fault; the report tells where'

for text in "$top"/examples/faults/*.apl "$top"/examples/first.apl "$top"/examples/substitution.apl; do
    "$program" run --depth 4 < "$text" > "$work/wanted" 2> "$work/said"
    wanted=$?
    "$program" run --depth 4 < "$text" > "$work/out" 2>&-
    compare $? closed
    "$program" run --depth 4 < "$text" > "$work/out" 2> /dev/full
    compare $? full
    { "$program" run --depth 4 < "$text" 2>&1 > "$work/out"; echo $? > "$work/status"; } | { sleep 1; cat > /dev/null; }
    compare "$(cat "$work/status")" slow
    { "$program" run --depth 4 < "$text" 2>&1 > "$work/out"; echo $? > "$work/status"; } | true
    compare "$(cat "$work/status")" "without a reader"
done
echo "$failures failures"
[ "$failures" = 0 ]
