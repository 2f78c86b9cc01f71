#!/bin/sh
# Times of registering N endpoints (1000 by default) one behind the other, and of that and their document, and of the
# same with 10N. Each has a template and a definition of its own, a definition that four share, and `Error`, which all
# share. A time is the least of three runs, each that of a whole run of `declaration_cases` on one case with these
# endpoints, whose reading it has too. Beside them stand valgrind's counts of instructions, where it is there, and then
# they judge. Ends with 1 where 10N cost more than 15 times N.
# usage: bench/registrations.sh [N]
here=$(cd "$(dirname "$0")/.." && pwd) || exit 1
endpoints=${1:-1000}
program=$here/crates/declaration_cases/out/declaration_cases
work=$(mktemp -d) || exit 1
trap 'rm -rf "$work"' EXIT

# A case of a call on so many endpoints.
case_of() {
    awk -v call="$1" -v count="$2" 'BEGIN {
        printf "{\"case\":\"n\",\"call\":\"%s\",\"endpoints\":[", call
        for (i = 0; i < count; i++) {
            printf "%s{\"method\":\"GET\",\"operation_id\":\"o%d\",\"path\":\"/own%d/{id}\",", i ? "," : "", i, i
            printf "\"slots\":[{\"path\":{\"struct\":[[\"id\",\"u8\"]]}}],"
            printf "\"table\":[\"Error\",[\"Own%d\",\"u8\"],[\"Shared%d\",\"u16\"]]}", i, int(i / 4)
        }
        print "]}"
    }'
}

# What an answer has once for each endpoint.
sign_of() {
    case $1 in
    cause) echo '"registered"' ;;
    document) echo '"/own' ;;
    esac
}

# The least nanoseconds of three runs of a call on so many endpoints, all of which it must tell.
nanoseconds() {
    least=
    case_of "$1" "$2" >"$work/case"
    for run in 1 2 3; do
        start=$(date +%s%N)
        told=$("$program" <"$work/case" | grep -o "$(sign_of "$1")" | wc -l)
        end=$(date +%s%N)
        if [ "$told" -ne "$2" ]; then
            echo "registrations.sh: $told of $2 endpoints were told" >&2
            return 1
        fi
        if [ -z "$least" ] || [ $((end - start)) -lt "$least" ]; then
            least=$((end - start))
        fi
    done
    echo "$least"
}

# The instructions of one run of a call on so many endpoints.
instructions() {
    case_of "$1" "$2" >"$work/case"
    valgrind --tool=callgrind --callgrind-out-file=/dev/null "$program" <"$work/case" 2>&1 >/dev/null |
        awk '/refs:/ { gsub(",", "", $NF); print $NF }'
}

# Prints the times of a call and their ratio, which must be at most 15.
judge() {
    once=$(nanoseconds "$1" "$endpoints") || return 1
    tenfold=$(nanoseconds "$1" $((endpoints * 10))) || return 1
    awk -v call="$1" -v endpoints="$endpoints" -v once="$once" -v tenfold="$tenfold" 'BEGIN {
        printf "%s, %d endpoints: %.1f ms\n", call, endpoints, once / 1e6
        printf "%s, %d endpoints: %.1f ms, %.2f times\n", call, endpoints * 10, tenfold / 1e6, tenfold / once
    }'
    if command -v valgrind >/dev/null; then
        once=$(instructions "$1" "$endpoints")
        tenfold=$(instructions "$1" $((endpoints * 10)))
        awk -v once="$once" -v tenfold="$tenfold" 'BEGIN {
            printf "instructions: %d and %d, %.2f times\n", once, tenfold, tenfold / once
        }'
    fi
    awk -v once="$once" -v tenfold="$tenfold" 'BEGIN { exit tenfold > 15 * once }'
}

(cd "$here/crates/declaration_cases" && rt run </dev/null >/dev/null 2>"$work/log")
if [ ! -x "$program" ]; then
    cat "$work/log" >&2
    exit 1
fi
status=0
for call in cause document; do
    judge "$call" || status=1
done
exit $status
