#!/bin/sh
# Runs each example, and compares what it prints with what stands beside it.
#
#   checks/examples.sh    builds the program where it is not built
#
# Prints a line for each, and ends with 0 where all of them print what they are to.
set -u
top=$(CDPATH='' cd -- "$(dirname -- "$0")/.." && pwd -P) || exit 1
cd "$top" || exit 1
work=$(mktemp -d "${TMPDIR:-/tmp}/seat_cli_examples.XXXXXX") || exit 1
trap 'rm -rf "$work"' EXIT
failed=0

prints() { # whether what was written is what a file of the examples has
    if [ "$1" = 0 ] && cmp -s "$work/out" "examples/$2"; then echo "ok      $3"; else echo "FAILED  $3"; failed=$((failed + 1)); fi
}

cat examples/site_1.deltas examples/site_0.deltas | ./seat_cli join --layout examples/three_sites.toml >"$work/out"
prints $? joined.txt "the deltas of two sites are joined"
./seat_cli play --tables --layout examples/three_sites.toml <examples/maintenance.script >"$work/out"
prints $? maintenance.txt "the script of a maintenance job is played"
./seat_cli judge --layout examples/three_sites.toml <examples/maintenance.log >"$work/out"
prints $? maintenance.verdict "the logs of its sites are judged"
./seat_cli run --out "$work/sites.log" --layout examples/three_sites.toml <examples/at_once.script >"$work/out"
prints $? at_once.txt "three sites work at the same time"
./seat_cli judge --layout examples/three_sites.toml <"$work/sites.log" | tail -n 1 >"$work/verdict"
tail -n 1 examples/at_once.txt | cmp -s - "$work/verdict" && [ ! -e "$work/sites.log.part" ]
prints $? at_once.txt "their logs are judged"
examples/two_sites.sh >"$work/out"
prints $? two_sites.txt "two sites, with a store each, serve a writer"
if command -v mosquitto_pub >/dev/null; then
    examples/three_machines/run.sh >"$work/out"
    prints $? three_machines/output.txt "three machines exchange deltas through a broker"
else
    echo "left out: three machines and a broker (Debian's packages mosquitto and mosquitto-clients are missing)"
fi

[ "$failed" = 0 ]
