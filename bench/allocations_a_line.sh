#!/bin/sh
# What a request line costs the built program, by kind of line: allocations as valgrind's memcheck counts them, where
# room that grows counts anew, and instructions as its callgrind does. N lines are answered, and 2N (N is 1000 by
# default); the difference, divided by N, leaves out the document and what a session keeps. Beside them stand those of
# `comparison`, the same sessions by serde_json and structs, where cargo finds the crates of Debian's packages
# librust-serde-json-dev and librust-serde-derive-dev. Ends with status 1 where a line was not handled, and where a
# line of a point takes more than 48 allocations, or more than 3 times the instructions of the comparison. Without
# valgrind it says so alone.
# usage: bench/allocations_a_line.sh [N]
here=$(cd "$(dirname "$0")/.." && pwd) || exit 1
lines=${1:-1000}
most=48
times=3
program=$here/crates/contract_tool_cli/out/contract_tool_cli
comparison=$here/bench/comparison/out/release/comparison
work=$(mktemp -d) || exit 1
trap 'rm -rf "$work"' EXIT

if ! command -v valgrind >/dev/null; then
    echo "costs of a line: not measured, since there is no valgrind"
    exit 0
fi

# What a tool of valgrind counts, behind these words of its log, for so many lines of a kind.
count() {
    words=$1 tool=$2 kind=$3 lines_now=$4
    shift 4
    "$here/bench/lines.sh" "$kind" "$lines_now" >"$work/input"
    valgrind --log-file="$work/log" --tool="$tool" $(options "$tool") "$@" <"$work/input" >"$work/output" || return 1
    if [ "$(grep -c '^{"outcome":"handled"' "$work/output")" -ne "$lines_now" ]; then
        echo "not every line was handled" >&2
        return 1
    fi
    sed -n "s/.*$words *\([0-9][0-9,]*\).*/\1/p" "$work/log" | tr -d ,
}

options() {
    case $1 in
    memcheck) echo --leak-check=no ;;
    callgrind) echo --callgrind-out-file=/dev/null ;;
    esac
}

# The same for one line, in tenths.
tenths() {
    kind=$1 words=$2 tool=$3
    shift 3
    once=$(count "$words" "$tool" "$kind" "$lines" "$@") || return 1
    twice=$(count "$words" "$tool" "$kind" $((lines * 2)) "$@") || return 1
    echo $(((twice - once) * 10 / lines))
}

allocations() {
    tenths "$1" 'total heap usage:' memcheck $2
}

instructions() {
    tenths "$1" 'I *refs:' callgrind $2
}

told() {
    printf '%s: %d.%d allocations, %d instructions\n' "$1" $(($2 / 10)) $(($2 % 10)) $(($3 / 10))
}

"$here/contract-tool" session 1.0.0 </dev/null >/dev/null || exit 1
if ! (cd "$here/bench/comparison" && cargo build --release --offline --target-dir out) 2>"$work/cargo"; then
    echo "comparison: not built, since cargo does not find its crates; instructions are not compared"
    comparison=
fi
status=0
for kind in points probes bodies folders; do
    taken=$(allocations "$kind" "$program session 1.0.0") || exit 1
    ran=$(instructions "$kind" "$program session 1.0.0") || exit 1
    told "$kind" "$taken" "$ran"
    if [ -n "$comparison" ]; then
        other=$(allocations "$kind" "$comparison") || exit 1
        least=$(instructions "$kind" "$comparison") || exit 1
        told "$kind, comparison" "$other" "$least"
        awk -v kind="$kind" -v ran="$ran" -v least="$least" 'BEGIN { printf "%s: %.2f times\n", kind, ran / least }'
    fi
    [ "$kind" = points ] || continue
    if [ "$taken" -gt $((most * 10)) ]; then
        echo "more than $most allocations a line"
        status=1
    fi
    if [ -n "$comparison" ] && [ "$ran" -gt $((least * times)) ]; then
        echo "more than $times times the instructions of the comparison"
        status=1
    fi
done
exit $status
