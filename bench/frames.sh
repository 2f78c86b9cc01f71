#!/bin/sh
# Times of a case of `http_cases` that makes a body of N frames (10000 by default) of one byte each and reads it to its
# end by `http_dump_body`, and of the same with 2N frames. A time is the least of three runs, each that of the whole
# program, which reads the case too. Beside them stand valgrind's counts of instructions, where it is there, and then
# they judge. Ends with 1 where 2N cost more than 2.3 times N.
here=$(cd "$(dirname "$0")/.." && pwd) || exit 1
frames=${1:-10000}
program=$here/crates/http_cases/out/http_cases
work=$(mktemp -d) || exit 1
trap 'rm -rf "$work"' EXIT

# The case of so many frames.
case_of() {
    awk -v frames="$1" 'BEGIN {
        printf "{\"case\":\"body\",\"call\":\"dump\",\"budget\":%d,\"body\":{\"frames\":[", frames
        for (i = 0; i < frames; i++)
            printf "%s\"a\"", i ? "," : ""
        print "]}}"
    }'
}

# The least nanoseconds of three runs on so many frames, of each of which a byte must be read.
nanoseconds() {
    case_of "$1" >"$work/case"
    least=
    for run in 1 2 3; do
        start=$(date +%s%N)
        read=$("$program" <"$work/case")
        end=$(date +%s%N)
        if [ "$read" != "body: $1" ]; then
            echo "frames.sh: not $1 bytes were read, but $read" >&2
            return 1
        fi
        if [ -z "$least" ] || [ $((end - start)) -lt "$least" ]; then
            least=$((end - start))
        fi
    done
    echo "$least"
}

# The instructions of one run on so many frames.
instructions() {
    case_of "$1" | valgrind --tool=callgrind --callgrind-out-file=/dev/null "$program" 2>&1 >/dev/null |
        awk '/refs:/ { gsub(",", "", $NF); print $NF }'
}

(cd "$here/crates/http_cases" && rt run </dev/null >/dev/null 2>"$work/log")
if [ ! -x "$program" ]; then
    cat "$work/log" >&2
    exit 1
fi
once=$(nanoseconds "$frames") || exit 1
twice=$(nanoseconds $((frames * 2))) || exit 1
awk -v frames="$frames" -v once="$once" -v twice="$twice" 'BEGIN {
    printf "body, %d frames: %.1f ms\n", frames, once / 1e6
    printf "body, %d frames: %.1f ms, %.2f times\n", frames * 2, twice / 1e6, twice / once
}'
if command -v valgrind >/dev/null; then
    once=$(instructions "$frames")
    twice=$(instructions $((frames * 2)))
    awk -v once="$once" -v twice="$twice" 'BEGIN {
        printf "instructions: %d and %d, %.2f times\n", once, twice, twice / once
    }'
fi
awk -v once="$once" -v twice="$twice" 'BEGIN { exit twice > 2.3 * once }'
