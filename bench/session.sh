#!/bin/sh
# Processor times of a session over N lines (100000 by default), of which points, probes, raw bodies in three frames
# and folders take turns, and over 2N; and of N lines and 2N of each of these kinds alone. A time is the least of
# three runs. With GNU time also the most memory that was in use. Ends with status 1 where 2N lines in turns cost more
# than 2.2 times N, or where a line was not handled. With kinds behind N, of these alone; `session` is lines in turns.
# usage: bench/session.sh [N [KIND..]]
here=$(cd "$(dirname "$0")/.." && pwd) || exit 1
lines=${1:-100000}
[ $# -lt 2 ] && set -- "$lines" session points probes bodies folders
shift
program=$here/crates/contract_tool_cli/out/contract_tool_cli
work=$(mktemp -d) || exit 1
trap 'rm -rf "$work"' EXIT

# The hundredths of a second that the programs between two calls of `times` took, with the system's.
spent() {
    awk 'FNR == 2 { gsub("[ms]", " "); all = ($1 + $3) * 60 + $2 + $4 - all }
        END { printf "%d\n", all * 100 + 0.5 }' "$@"
}

# The least time of three sessions over so many lines of a kind, each of which must be handled.
least_time() {
    least=
    "$here/bench/lines.sh" "$1" "$2" >"$work/input"
    for run in 1 2 3; do
        times >"$work/before"
        "$program" session 1.0.0 <"$work/input" >"$work/output" || return 1
        times >"$work/after"
        if [ "$(grep -c '^{"outcome":"handled"' "$work/output")" -ne "$2" ]; then
            echo "session.sh: not every line was handled" >&2
            return 1
        fi
        time=$(spent "$work/before" "$work/after")
        if [ -z "$least" ] || [ "$time" -lt "$least" ]; then
            least=$time
        fi
    done
    echo "$least"
}

# Prints the times of a kind, and how many times the second is the first.
measure() {
    once=$(least_time "$1" "$lines") || return 1
    twice=$(least_time "$1" $((lines * 2))) || return 1
    awk -v kind="$1" -v lines="$lines" -v once="$once" -v twice="$twice" 'BEGIN {
        printf "%s, %d lines: %.2f s, %.0f lines a second\n", kind, lines, once / 100, lines * 100 / once
        printf "%s, %d lines: %.2f s, %.2f times\n", kind, lines * 2, twice / 100, twice / once
    }'
    if [ -x /usr/bin/time ]; then
        /usr/bin/time -f '%M kilobytes at most' "$program" session 1.0.0 <"$work/input" 2>&1 >/dev/null
    fi
}

"$here/contract-tool" session 1.0.0 </dev/null >/dev/null || exit 1
status=0
for kind in "$@"; do
    measure "$kind" || exit 1
    if [ "$kind" = session ] && [ "$((twice * 10))" -gt "$((once * 22))" ]; then
        echo "more than 2.2 times"
        status=1
    fi
done
exit $status
