#!/usr/bin/env bash
# Tries the must-fail edits that the gate leaves out for its time's sake, crates/NAME/must-fail-more/*.edit, as the gate
# tries its own: the prover has to refuse each, and the first error of each, which is printed, has to be about a fact.
#
#     tools/more_edits.sh [CRATE ..]
#
# What out/ has proved already is not proved again.
set -u
top=$(cd "$(dirname "$0")/.." && pwd)
room=$(mktemp -d)
trap 'rm -rf "$room"' EXIT
cp -R "$top/crates" "$top/crates.txt" "$room/"
for folder in "$room"/crates/*/; do
    rm -rf "$folder/must-fail"
    if [ -d "$folder/must-fail-more" ]; then mv "$folder/must-fail-more" "$folder/must-fail"; fi
done
cd "$room" || exit 2
git init -q .
rt must-fail "$@"
