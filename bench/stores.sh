#!/bin/sh
# Times of a case of `value_cases` that fills a table of a store with N keys (100000 by default), put by a fixed stride,
# and pages through it, a hundred keys a page, and of the same with 2N keys. A time is the least of three runs, each
# that of the whole program, which reads the case too. Beside them stand valgrind's counts of instructions, where it is
# there, and then they judge, since times also tell how much of the store the processor's caches hold. Ends with 1 where
# 2N cost more than 2.3 times N.
here=$(cd "$(dirname "$0")/.." && pwd) || exit 1
keys=${1:-100000}
program=$here/crates/value_cases/out/value_cases
work=$(mktemp -d) || exit 1
trap 'rm -rf "$work"' EXIT

# The case of so many keys.
case_of() {
    awk -v keys="$1" 'BEGIN {
        printf "{\"case\":\"store\",\"call\":\"store\",\"steps\":["
        for (i = 0; i < keys; i++)
            printf "[\"insert\",\"points\",\"%010d\",%d],", (i * 7919) % keys, i
        printf "[\"first\",\"points\",100]"
        for (i = 100; i < keys; i += 100)
            printf ",[\"after\",\"points\",\"%010d\",100]", i - 1
        print "]}"
    }'
}

# The least nanoseconds of three runs on so many keys, all of which must be met.
nanoseconds() {
    case_of "$1" >"$work/case"
    least=
    for run in 1 2 3; do
        start=$(date +%s%N)
        "$program" <"$work/case" >"$work/output"
        end=$(date +%s%N)
        met=$(grep -o '\["[0-9]*",' "$work/output" | wc -l)
        if [ "$met" -ne "$1" ]; then
            echo "stores.sh: $met of $1 keys were met" >&2
            return 1
        fi
        if [ -z "$least" ] || [ $((end - start)) -lt "$least" ]; then
            least=$((end - start))
        fi
    done
    echo "$least"
}

# The instructions of one run on so many keys.
instructions() {
    case_of "$1" | valgrind --tool=callgrind --callgrind-out-file=/dev/null "$program" 2>&1 >/dev/null |
        awk '/refs:/ { gsub(",", "", $NF); print $NF }'
}

(cd "$here/crates/value_cases" && rt run </dev/null >/dev/null 2>"$work/log")
if [ ! -x "$program" ]; then
    cat "$work/log" >&2
    exit 1
fi
once=$(nanoseconds "$keys") || exit 1
twice=$(nanoseconds $((keys * 2))) || exit 1
awk -v keys="$keys" -v once="$once" -v twice="$twice" 'BEGIN {
    printf "store, %d keys: %.1f ms\n", keys, once / 1e6
    printf "store, %d keys: %.1f ms, %.2f times\n", keys * 2, twice / 1e6, twice / once
}'
if command -v valgrind >/dev/null; then
    once=$(instructions "$keys")
    twice=$(instructions $((keys * 2)))
    awk -v once="$once" -v twice="$twice" 'BEGIN {
        printf "instructions: %d and %d, %.2f times\n", once, twice, twice / once
    }'
fi
awk -v once="$once" -v twice="$twice" 'BEGIN { exit twice > 2.3 * once }'
