#!/bin/sh
# Two sites, each with a store of its own. A writer at site 1 gets the seats of site 0 by deltas, which are carried from
# one to the other in files.
#
#     examples/two_sites.sh [FOLDER]
#
# Stores and deltas lie in FOLDER, which is there and empty; without it in a temporary folder, which is removed. Prints
# each line that a site is given, shortened where it takes a delta, beside the reply.
set -eu
top=$(CDPATH='' cd -- "$(dirname -- "$0")/.." && pwd -P)
if [ "$#" -gt 0 ]; then
    work=$1
else
    work=$(mktemp -d "${TMPDIR:-/tmp}/two_sites.XXXXXX")
    trap 'rm -rf "$work"' EXIT
fi

serve() { # the lines of standard input at a site
    "$top/seat_cli" site --site "$1" --store "$work/site_$1.db" --layout "$top/examples/two_sites.toml"
}

at() { # one line at a site; the program ends behind it, and begins again from the store at the next
    printf '%s\n' "$2" | serve "$1" >"$work/reply"
    printf 'site %s  %-20s %s\n' "$1" "$2" "$(cat "$work/reply")"
}

carry() { # what one site knows, to the other
    echo send | serve "$1" >"$work/site_$1.delta"
    printf 'take %s\n' "$(cat "$work/site_$1.delta")" | serve "$2" >"$work/reply"
    printf 'site %s  %-20s %s\n' "$2" "take (from site $1)" "$(cat "$work/reply")"
}

at 0 'read a 1'     # a reader is inside at site 0
at 1 'announce a 5' # when a writer announces itself at site 1
carry 1 0
at 0 'read a 2' # so site 0 lets no new reader in
at 0 'help a'   # and gives the seats that it has
carry 0 1
at 1 'write a 5' # one is missing: the reader's
at 0 'leave a 1'
at 0 'help a'
carry 0 1
at 1 'write a 5' # the writer is in, alone
at 0 'read a 2'
at 1 'leave a 5'
at 1 'give a 0 1' # a seat goes back
carry 1 0
at 0 'read a 2'
