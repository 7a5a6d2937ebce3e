#!/usr/bin/env bash
# What the must-fail edits cost: each costs one check of its crate at most. Proves every crate, one at a time, lowest first, in a copy of the
# repository where nothing is kept, and prints for each its edits, the seconds of a check, and the product; then the sums.
set -euo pipefail
cd "$(dirname "$0")"
room=$(mktemp -d)
trap 'rm -rf "$room"' EXIT
git ls-files -z crates crates.txt | xargs -0 cp --parents -t "$room"
git -C "$room" init -q
declare -A seen=()
visit() {
    [ -n "${seen[$1]-}" ] && return
    seen[$1]=1
    local below
    for below in $(sed -nE "s/^$1( staticlib)?:(.*)/\\2/p" crates.txt); do visit "$below"; done
    local before=$SECONDS
    (cd "$room/crates/$1" && rt check --jobs 1 >/dev/null 2>&1)
    local seconds=$((SECONDS - before)) edits
    edits=$(find "crates/$1/must-fail" -name '*.edit' 2>/dev/null | wc -l)
    printf '%-20s %3d edits × %3d s = %4d s\n' "$1" "$edits" "$seconds" $((edits * seconds))
}
for crate in $(sed -nE 's/^([a-z_0-9]+)( staticlib)?:.*/\1/p' crates.txt); do
    visit "$crate"
done | awk '{ print; edits += $2; cost += $8; once += $5 } END { printf "%d edits, %d s; all crates once, %d s\n", edits, cost, once }'
