# What each script here begins with: `. prepare.sh` sets bench (this folder) and work (a folder that is
# removed at the end), and gives the two programs. They are built first, so that no build is measured.
set -eu

bench=$(dirname -- "$(readlink -f -- "$0")")
. "$bench/../tools/memory.sh"
work=$(mktemp -d)
trap 'rm -rf "$work"' EXIT

# Builds the program that measures parts of the interpreter by themselves, and sets parts to its path.
build_parts() {
    (cd "$bench/../crates/ap_cases" && rt run -- types > /dev/null 2>&1)
    parts=$bench/../crates/ap_cases/out/ap_cases
}

# Builds the interpreter, and sets program to its path.
build_program() {
    "$bench/../alphaprolog" work --seed 1 --size 1 > /dev/null
    program=$bench/../crates/ap_cli/out/ap_cli
}

# Measures a command on the standard input that a file has.
measure() {
    python3 "$bench/measure.py" "$@"
}

# Measures the interpreter on the file text of the folder, up to the end of a stage. Behind a fault of the grammar only
# tokens are read, and behind one of types only the grammar: so one stands before the text. Behind the text stands one of
# types where that stage is measured, so that names aren't looked at.
measure_to() {
    before='' behind=''
    case $1 in
        lex) before='?- .' ;;
        parse) before='a_word : not_declared.' ;;
        typed) behind='a_word : not_declared.' ;;
    esac
    { printf '%s\n' "$before"; cat "$work/text"; printf '\n%s' "$behind"; } > "$work/faulty"
    printf '%-9s' "$1"
    measure "$work/faulty" "$program" run --depth 1
}
