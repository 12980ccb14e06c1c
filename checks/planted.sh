#!/usr/bin/env bash
# Tries each planted wrong body, in a copy of the crates: those of crates/NAME/must-fail/, which the gate tries too, and
# those of crates/NAME/planted/, which it leaves out. A file several_bodies.edit holds a body behind each line
# "# body: NAME". Bodies in different functions are tried in one check, which has to point to a place in each of these
# functions (checks/planted_together.py); each of the others is tried by itself. Prints each body that the prover did not
# refuse, and how many it refused.
#
#     checks/planted.sh [CRATE ..]
#
# Without arguments: all crates, which takes an hour or two of one core. Libraries that `rt` has built in this tree, and whose
# sources have not changed since, are taken along; others are built anew first.
# The exit status is 1 where a body was not refused, could not be applied, or was not tried.
set -eu
cd "$(dirname "$0")/.."
. checks/copied_tree.sh
work=$(mktemp -d)
trap 'rm -rf "$work"' EXIT

copy_tree "$work"

[ $# -gt 0 ] || set -- $(cd crates && ls -d */must-fail */planted 2>/dev/null | sed 's|/.*||' | sort -u)
for name in "$@"; do
    crate=$work/crates/$name
    if [ ! -d "$crate/planted" ] && [ ! -d "$crate/must-fail" ]; then
        echo "$name: there is no crate of this name with planted bodies"
        exit 1
    fi
    mkdir -p "$crate/must-fail"
    if [ -d "$crate/planted" ]; then mv "$crate"/planted/*.edit "$crate/must-fail/"; fi
    several=$crate/must-fail/several_bodies.edit
    if [ -f "$several" ]; then
        awk -v folder="$crate/must-fail" '/^# body: / { file = folder "/" $3 ".edit"; next } file { print > file }' "$several"
        rm "$several"
    fi
done

together=$PWD/checks/planted_together.py
cd "$work"
missed=0
for name in "$@"; do
    planted=$(ls "crates/$name/must-fail" | wc -l)
    "$together" "crates/$name" > "$work/log" 2>&1 || cat "$work/log"
    left=$(ls "crates/$name/must-fail" | wc -l)
    refused=$((planted - left))
    if [ "$left" -gt 0 ]; then
        rt must-fail "$name" > "$work/log" 2>&1 || true
        refused=$((refused + $(grep -c 'must-fail .*: refused' "$work/log" || true)))
        grep 'must-fail .*: \(NOT REFUSED\|NOT TRIED\|BAD EDIT\)' "$work/log" || true
    fi
    echo "$name: $refused of $planted planted bodies refused, $left of them by themselves"
    [ "$refused" = "$planted" ] || { missed=$((missed + planted - refused)); tail -n 3 "$work/log"; }
done
echo "planted bodies that were not refused: $missed"
[ "$missed" = 0 ]
