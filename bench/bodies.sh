#!/bin/sh
# Times of a case of `value_cases` that decodes a body and encodes its tree again, each for a size and for twice that
# size: lists of points of 1 MB and 2 MB; folders in one another 60 and 120 levels deep, side by side; objects with N
# and 2N members beside those of the descriptor (N is 20000 by default), where other names are passed over and where
# they are denied. A time is the least of three runs, each that of the whole program: reading the case, copying the body
# out of it, decoding, encoding and printing.
here=$(cd "$(dirname "$0")/.." && pwd) || exit 1
members=${1:-20000}
program=$here/crates/value_cases/out/value_cases
work=$(mktemp -d) || exit 1
trap 'rm -rf "$work"' EXIT

# A list of points of about so many bytes.
points() {
    awk -v bytes="$1" 'BEGIN {
        printf "["
        for (written = 0; written < bytes; written += length(point)) {
            point = sprintf("%s{\"label\":\"p%d\",\"x\":%d,\"y\":-1}", written ? "," : "", written, written)
            printf "%s", point
        }
        print "]"
    }'
}

# A folder of 500 chains of folders in one another, so many levels deep in all.
chains() {
    awk -v levels="$1" 'BEGIN {
        folder = "{\"name\":\"f\",\"children\":["
        for (depth = 4; depth <= levels; depth += 2) {
            chain = chain folder
            ends = ends "]}"
        }
        printf "%s", folder
        for (i = 0; i < 500; i++)
            printf "%s%s%s", i ? "," : "", chain, ends
        print "]}"
    }'
}

# An object with a beginning and so many further members.
object() {
    awk -v beginning="$1" -v members="$2" -v end="$3" 'BEGIN {
        printf "%s", beginning
        for (i = 0; i < members; i++)
            printf ",\"m%d\":%d", (i * 7919) % members, i
        print end
    }'
}

folder_with() {
    object '{"name":"f","children":[]' "$1" '}'
}

point_with() {
    object '[{"label":"p","x":1,"y":2' "$1" '}]'
}

# The case of a body under a descriptor. Of points other names are denied, and of folders they are passed over.
case_of() {
    printf '%s' '{"case":"body","call":"decode_and_encode","definitions":['
    printf '%s' '["Point",{"closed":[["label","text"],["x","i32"],["y","i32"]]}],'
    printf '%s' '["Folder",{"struct":[["name","text"],["children",{"list":"#Folder"}]]}]],'
    printf '"desc":%s,"json":' "$1"
    tr -d '\n'
    echo '}'
}

# The least nanoseconds of three runs. Standard output is kept.
nanoseconds() {
    least=
    for run in 1 2 3; do
        start=$(date +%s%N)
        "$program" <"$work/case" >"$work/output" || return 1
        end=$(date +%s%N)
        if [ -z "$least" ] || [ $((end - start)) -lt "$least" ]; then
            least=$((end - start))
        fi
    done
    echo "$least"
}

# Whether the body was written or refused.
answer() {
    case $(head -c 12 "$work/output") in
    'body: {"json') echo written ;;
    'body: {"faul') echo refused ;;
    *) echo 'not answered' ;;
    esac
}

# The times of a kind of body under a descriptor, of a size and of another.
measure() {
    for size in "$4" "$5"; do
        "$3" "$size" >"$work/body"
        case_of "$2" <"$work/body" >"$work/case"
        time=$(nanoseconds) || exit 1
        awk -v kind="$1" -v size="$size" -v time="$time" -v told="$(answer)" -v bytes="$(wc -c <"$work/body")" 'BEGIN {
            printf "%s, %d: %d bytes, %s, %.1f ms\n", kind, size, bytes, told, time / 1e6
        }'
    done
}

(cd "$here/crates/value_cases" && rt run </dev/null >/dev/null 2>"$work/log")
if [ ! -x "$program" ]; then
    cat "$work/log" >&2
    exit 1
fi
measure 'points, bytes' '{"list":"#Point"}' points 1000000 2000000
measure 'folders, levels' '"#Folder"' chains 60 120
measure 'members passed over' '"#Folder"' folder_with "$members" $((members * 2))
measure 'members denied' '{"list":"#Point"}' point_with "$members" $((members * 2))
