#!/usr/bin/env bash
# Measures what the gate takes, by whole commands that the shell times from outside, and compares it with the budget.
#
#     checks/budget.sh              `rt ci`, which proves everything from nothing: an hour or two
#     checks/budget.sh CRATE ..     of each crate its own share: `rt check`, `rt check --test` and `rt must-fail` in a copy of the
#                                   tree that has the libraries below it, but no work on the crate itself
#
# `rt verdict` proves all libraries below a crate anew, so it does not tell what one crate takes. Let nothing run beside it. The budget
# is that of docs/GATE.md: 230 minutes of processor time for the whole gate, 6 for a crate with its tests and planted bodies,
# 12 where it names SQLite. A crate of tests is measured by itself. What the commands print goes to /tmp/budget.log. The exit status
# is 1 where a command fails or takes more.
set -u
cd "$(dirname "$0")/.."
. checks/copied_tree.sh
TIMEFORMAT='%R %U %S'
over=0
seconds=0
wall=0

# Runs a command in a folder, and adds its seconds of wall time and of processor time.
measure() {
    local folder=$1 times
    shift
    if ! times=$( { time (cd "$folder" && "$@" > /tmp/budget.log 2>&1); } 2>&1 ); then
        echo "$*: failed"
        tail -n 3 /tmp/budget.log
        over=1
    fi
    wall=$(awk -v a="$wall" -v it="$times" 'BEGIN { split(it, t, " "); print a + t[1] }')
    seconds=$(awk -v a="$seconds" -v it="$times" 'BEGIN { split(it, t, " "); print a + t[2] + t[3] }')
}

# Prints what something took of its minutes.
judge() {
    awk -v what="$1" -v seconds="$seconds" -v minutes="$2" 'BEGIN {
        printf "%-60s %6.1f of %3d minutes%s\n", what, seconds / 60, minutes, (seconds > minutes * 60 ? "  OVER" : "")
        exit seconds > minutes * 60
    }' || over=1
}

if [ $# -eq 0 ]; then
    # Some versions of rt keep what an earlier run passed, and leave it out of the next one unless they are told.
    anew=$(rt help 2>&1 | grep -o -m 1 -e '--anew' || true)
    measure . rt ci $anew
    tail -n 1 /tmp/budget.log
    judge "the whole gate, which took $wall seconds of wall time" 230
    exit $over
fi

work=$(mktemp -d)
trap 'rm -rf "$work"' EXIT
for crate in "$@"; do
    line=$(grep -E "^$crate[ :]" crates.txt) || { echo "$crate: no line in crates.txt"; exit 1; }
    case " $line " in *' sqlite '*) minutes=12 ;; *) minutes=6 ;; esac
    (cd "crates/$crate" && rt check > /tmp/budget.log 2>&1) || { echo "$crate: not proved"; exit 1; }
    mkdir "$work/$crate"
    copy_tree "$work/$crate"
    rm -rf "$work/$crate/crates/$crate/out"
    seconds=0
    measure "$work/$crate/crates/$crate" rt check
    if grep -rq '#\[test' "crates/$crate/src"; then measure "$work/$crate/crates/$crate" rt check --test; fi
    if [ -d "crates/$crate/must-fail" ]; then measure "$work/$crate" rt must-fail "$crate"; fi
    judge "$crate" "$minutes"
    rm -rf "${work:?}/$crate"
done
exit $over
