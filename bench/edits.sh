#!/bin/sh
# Tries the edits of bench/edits of these crates, or of all, in a copy of the repository, each alone: the proof of the
# crate must fail with it. Prints where each was refused, and at the end those that were not. Crates that `rt ci` proved
# on this machine in the same text are not proved again, but each crate once more as what its edits begin with; where
# this kit's `rt ci` takes no names, `rt must-fail` proves the crates below first.
# usage: bench/edits.sh [CRATE..]
here=$(cd "$(dirname "$0")/.." && pwd) || exit 1
[ $# -gt 0 ] || set -- $(ls "$here/bench/edits")
command -v rt >/dev/null || { echo "edits.sh: this machine has no rt" >&2; exit 2; }
copy=$(mktemp -d) || exit 1
trap 'rm -rf "$copy"' EXIT
trap 'exit 1' INT TERM

cp "$here/crates.txt" "$here/HANDLES" "$copy" || exit 1
mkdir "$copy/crates" || exit 1
tar -C "$here/crates" -cf - --exclude='./*/out' --exclude='./*/must-fail' . | tar -C "$copy/crates" -xf - || exit 1
for crate in "$@"; do
    [ -d "$here/bench/edits/$crate" ] || { echo "edits.sh: bench/edits has no $crate" >&2; exit 2; }
    cp -r "$here/bench/edits/$crate" "$copy/crates/$crate/must-fail" || exit 1
done

tell() {
    if [ -s "$2" ]; then
        echo "$1:"
        cat "$2"
    fi
}

(cd "$copy" && rt ci "$@") >"$copy/log" 2>&1
status=$?
if [ $status -eq 2 ] && ! grep -q '^rt: must-fail ' "$copy/log"; then
    (cd "$copy" && rt must-fail "$@") >"$copy/log" 2>&1
    status=$?
fi
sed -n 's/^rt: must-fail //p' "$copy/log"
grep -E 'of the contract' "$copy/log" >"$copy/weak"
tell "Refused for a reason that says little of the contract" "$copy/weak"
grep -E '(NOT REFUSED|BAD EDIT|NOT TRIED)' "$copy/log" >"$copy/left"
tell "Not refused" "$copy/left"
if [ $status -ne 0 ] && [ ! -s "$copy/left" ]; then
    tail -n 20 "$copy/log"
fi
exit $status
