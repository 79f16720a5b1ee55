#!/bin/sh
# Tries the wrong bodies under wrong/. Each is a small change of a crate's code that the crate's contracts must refuse.
#
#     scripts/wrong.sh [CRATE..]
#
# With no argument it tries all crates, which takes an hour or more; the gate does not run it. The script copies the crates, puts the
# edits of each crate where `rt must-fail` looks for them, and removes the copy at the end. One line per edit says whether it was
# refused. The status is 0 if all were, and 2 if a named crate has no edits. Skipped if rt is missing.
set -u
cd "$(dirname "$0")/.."
command -v rt >/dev/null 2>&1 || { echo "wrong: rt is not installed"; exit 0; }

[ $# -gt 0 ] || set -- $(ls wrong)
copy=$(mktemp -d)
trap 'rm -rf "$copy"' EXIT INT TERM
cp -R crates crates.txt HANDLES "$copy/"
rm -rf "$copy"/crates/*/must-fail
for crate; do
    ls "wrong/$crate"/*.edit >/dev/null 2>&1 || { echo "wrong: wrong/$crate has no edits"; exit 2; }
    mkdir -p "$copy/crates/$crate/must-fail"
    cp "wrong/$crate"/*.edit "$copy/crates/$crate/must-fail/"
done
cd "$copy" && rt must-fail "$@"
