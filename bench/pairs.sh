#!/bin/sh
# Times of a case of `value_cases` that decodes a query of N pairs (1000 by default), whose names are put by a fixed
# stride, a hundred times under a struct of a hundred texts, and of the same with 2N pairs. A time is the least of three
# runs, each that of the whole program, which reads the query as often. Beside them stand valgrind's counts of
# instructions, where it is there, and then they judge. Ends with 1 where 2N cost more than 2.3 times N.
here=$(cd "$(dirname "$0")/.." && pwd) || exit 1
pairs=${1:-1000}
program=$here/crates/value_cases/out/value_cases
work=$(mktemp -d) || exit 1
trap 'rm -rf "$work"' EXIT

# The case of so many pairs.
case_of() {
    awk -v pairs="$1" 'BEGIN {
        printf "{\"case\":\"query\",\"repeats\":\"refuse\",\"call\":[\"decode_pairs\""
        for (i = 1; i < 100; i++)
            printf ",\"decode_pairs\""
        printf "],\"desc\":{\"struct\":["
        for (i = 0; i < 100; i++)
            printf "%s[\"name-%010d\",\"text\"]", i ? "," : "", i
        printf "]},\"query\":\""
        for (i = 0; i < pairs; i++)
            printf "name-%010d=value&", (i * 7919) % pairs
        print "\"}"
    }'
}

# The least nanoseconds of three runs on so many pairs, in each of which a hundred fields are met a hundred times.
nanoseconds() {
    case_of "$1" >"$work/case"
    least=
    for run in 1 2 3; do
        start=$(date +%s%N)
        "$program" <"$work/case" >"$work/output"
        end=$(date +%s%N)
        met=$(grep -o '"value"' "$work/output" | wc -l)
        if [ "$met" -ne 10000 ]; then
            echo "pairs.sh: $met of 10000 fields were met" >&2
            return 1
        fi
        if [ -z "$least" ] || [ $((end - start)) -lt "$least" ]; then
            least=$((end - start))
        fi
    done
    echo "$least"
}

# The instructions of one run on so many pairs.
instructions() {
    case_of "$1" | valgrind --tool=callgrind --callgrind-out-file=/dev/null "$program" 2>&1 >/dev/null |
        awk '/refs:/ { gsub(",", "", $NF); print $NF }'
}

(cd "$here/crates/value_cases" && rt run </dev/null >/dev/null 2>"$work/log")
if [ ! -x "$program" ]; then
    cat "$work/log" >&2
    exit 1
fi
once=$(nanoseconds "$pairs") || exit 1
twice=$(nanoseconds $((pairs * 2))) || exit 1
awk -v pairs="$pairs" -v once="$once" -v twice="$twice" 'BEGIN {
    printf "query, %d pairs: %.1f ms\n", pairs, once / 1e6
    printf "query, %d pairs: %.1f ms, %.2f times\n", pairs * 2, twice / 1e6, twice / once
}'
if command -v valgrind >/dev/null; then
    once=$(instructions "$pairs")
    twice=$(instructions $((pairs * 2)))
    awk -v once="$once" -v twice="$twice" 'BEGIN {
        printf "instructions: %d and %d, %.2f times\n", once, twice, twice / once
    }'
fi
awk -v once="$once" -v twice="$twice" 'BEGIN { exit twice > 2.3 * once }'
