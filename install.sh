#!/bin/sh
# Installs the program, its manual page and its completions for bash.
#
#     ./install.sh [PREFIX]    into PREFIX/bin and PREFIX/share; PREFIX is /usr/local where none is given
#
# The program is proved and built first where that is due.
set -eu
top=$(CDPATH='' cd -- "$(dirname -- "$0")" && pwd -P)
case ${1:-} in
    -*) sed -n '2,6s/^# \{0,1\}//p' "$0" >&2 && exit 2 ;;
esac
prefix=${1:-/usr/local}
"$top/seat_cli" --build
mkdir -p "$prefix/bin" "$prefix/share/man/man1" "$prefix/share/bash-completion/completions"
install -m 755 "$top/crates/seat_cli/out/seat_cli" "$prefix/bin/seat_cli"
install -m 644 "$top/docs/seat_cli.1" "$prefix/share/man/man1/seat_cli.1"
install -m 644 "$top/docs/seat_cli.bash" "$prefix/share/bash-completion/completions/seat_cli"
echo "installed $prefix/bin/seat_cli"
