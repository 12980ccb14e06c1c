#!/bin/sh
# Plays examples/maintenance.script from the sources, without proving or keeping anything: a first look in about three
# minutes. `./seat_cli` proves and builds the program instead, once, and is fast from then on.
set -eu
top=$(CDPATH='' cd -- "$(dirname -- "$0")/.." && pwd -P)
command -v rt >/dev/null || { echo "first_look.sh: the toolchain's command rt is not on the PATH; README.md says what it is" >&2; exit 1; }
echo "compiling the sources, without a proof: about 3 minutes" >&2
answer=$(mktemp "${TMPDIR:-/tmp}/first_look.XXXXXX")
trap 'rm -f "$answer"' EXIT

cd "$top/crates/seat_cli"
rt try --data three_sites.toml="$top/examples/three_sites.toml" -- play --tables --layout three_sites.toml \
    <"$top/examples/maintenance.script" >"$answer" 2>&1 || { cat "$answer" >&2; exit 1; }
# Each event beside its reply, then the tables. Behind these, `rt try` tells how the run ended.
awk -v script="$top/examples/maintenance.script" '
    /^(checked|races:|run=|rt:)/ { next }
    (getline event < script) > 0 { printf "%-24s%s\n", event, $0; next }
    { print }
' "$answer"
echo "Nothing was proved in this run. ./seat_cli --version proves and builds the program." >&2
