#!/bin/sh
# Runs the tests of the client in Python over the built program, with Python's own unittest.
#
#   checks/python.sh [PROGRAM]     without PROGRAM that of this repository, which is built where it is not there
#
# Tests of the transport over MQTT need Debian's packages mosquitto and mosquitto-clients, those of `Peers` need openssl; they are left
# out without them. Run it in the foreground: a shell that starts it in the background has it ignore SIGINT, which three tests send.
# Ends with 0 where all went well.
set -u
top=$(CDPATH='' cd -- "$(dirname -- "$0")/.." && pwd -P) || exit 1
program=${1:-$top/crates/seat_cli/out/seat_cli}
[ "$#" -gt 0 ] || [ -x "$program" ] || "$top/seat_cli" --version >/dev/null || exit 1
case $program in
    /*) ;;
    *) program=$(pwd)/$program ;;
esac
cd "$top/clients/python" || exit 1
ZINDUROI_PROGRAM=$program exec python3 -m unittest discover --top-level-directory . --start-directory tests
