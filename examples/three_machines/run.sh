#!/bin/sh
# Three machines, each with a site, readers and a maintenance job, exchange deltas through an MQTT broker. One machine is cut
# off, one is killed, and the broker is stopped for a while.
#
#     examples/three_machines/run.sh [FOLDER]
#
# The machines are processes, and each has a link of its own to the broker, a mosquitto that this script starts on a free port
# of this computer and ends. Stores, logs and the callers' times lie in FOLDER, which is there and empty; without it in a
# temporary folder, which is removed. Prints what happens, and compares it with output.txt. Takes about a minute.
set -eu
here=$(CDPATH='' cd -- "$(dirname -- "$0")" && pwd -P)
top=$(dirname -- "$(dirname -- "$here")")
PATH=$PATH:/usr/local/sbin:/usr/sbin
for command in mosquitto mosquitto_pub mosquitto_sub python3; do
    command -v "$command" >/dev/null || {
        echo "$command is missing; Debian has it in the packages mosquitto, mosquitto-clients and python3" >&2
        exit 1
    }
done
if [ "$#" -gt 0 ]; then
    work=$(CDPATH='' cd -- "$1" && pwd -P)
else
    work=$(mktemp -d "${TMPDIR:-/tmp}/three_machines.XXXXXX")
    trap 'rm -rf "$work"' EXIT
    trap 'exit 1' HUP INT TERM
fi
[ -n "${ZINDUROI_PROGRAM:-}" ] || "$top/seat_cli" --version >/dev/null || exit 1
ZINDUROI_PROGRAM=${ZINDUROI_PROGRAM:-$top/crates/seat_cli/out/seat_cli}
PYTHONPATH=$top/clients/python
export ZINDUROI_PROGRAM PYTHONPATH
status=0
python3 "$here/story.py" "$work" || status=$?
if [ "$status" = 0 ] && ! diff -u "$here/output.txt" "$work/output.txt" >&2; then
    echo "the output is another one than output.txt has" >&2
    status=1
fi
exit "$status"
