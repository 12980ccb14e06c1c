#!/usr/bin/env bash
# Runs `regroup` over a store with a reader, and `rebuild` of the text that it prints, once for each of their allocations, with
# that one refused, until a run meets no refusal. Each run has to end with the whole answer; with status 6 and no answer, and
# then the store is as it was, or there is none; or, where a write found no memory, with status 7, behind which the store
# is moved, or is there or not. Whatever came of it, the same command or the next one goes well over what is there then.
#
#     checks/refused_moves.sh [PART PARTS]
#
# With two numbers it refuses only each PARTS-th allocation, from that of number PART on, so that several runs share the work.
# Needs gcc, and builds the program where it is not built; takes some minutes.
set -eu
part=${1:-1} parts=${2:-1}
. "$(dirname "$0")/refusing.sh"
./seat_cli --version >/dev/null
program=$PWD/crates/seat_cli/out/seat_cli
cd "$work"

"$program" ask --create --site 0 --store first --group east read a 7 >/dev/null
"$program" ask --site 0 --store first --group east give a 1 1 >/dev/null
cp first store
"$program" regroup --site 0 --store store --group east >text
"$program" rebuild --site 1 --store other --group east.2 <text >shown

sessions() { # GROUP: those of the store of site 0 in the group, or why it is not served
    "$program" ask --site 0 --store store --group "$1" sessions a 2>&1 || true
}

is_front() { # whether the output is the front of this file
    cmp -s -n "$(stat -c %s out)" out "$1"
}

is_moved() {
    [ "$(sessions east.2)" = "1 7 reader" ] && [ "$(sessions east)" = "store refused WrongGroup" ]
}

is_there() {
    [ "a $("$program" ask --site 1 --store store --group east.2 show a 2>&1)" = "$(cat shown)" ]
}

can_be_made() {
    "$program" rebuild --site 1 --store store --group east.2 <text >again 2>&1 && cmp -s again shown && is_there
}

# refused_in_turn COMMAND WORD..
refused_in_turn() {
    none=0 io=0 whole=0 n=$((part - parts))
    while :; do
        n=$((n + parts))
        rm -f mark store store-wal store-shm
        if [ "$1" = regroup ]; then cp first store; fi
        status=0
        REFUSE_NTH=$n REFUSE_MARK=mark LD_PRELOAD=./refuse.so "$program" "$@" <text >out 2>errors || status=$?
        if [ ! -e mark ]; then
            # Behind the last allocation: nothing was refused.
            [ "$status" = 0 ] && [ "$((none + io + whole))" -gt 0 ] || fails "$@"
            break
        fi
        case "$1 $status $(cat errors)" in
            "regroup 0 ") cmp -s out text && is_moved && whole=$((whole + 1)) || fails "$@" ;;
            "regroup 6 memory") [ ! -s out ] && [ "$(sessions east)" = "1 7 reader" ] && none=$((none + 1)) || fails "$@" ;;
            "regroup 7 io") is_front text && is_moved && io=$((io + 1)) || fails "$@" ;;
            "rebuild 0 ") cmp -s out shown && is_there && whole=$((whole + 1)) || fails "$@" ;;
            "rebuild 6 memory") [ ! -s out ] && can_be_made && none=$((none + 1)) || fails "$@" ;;
            "rebuild 7 io") is_front shown && { is_there || can_be_made; } && io=$((io + 1)) || fails "$@" ;;
            *) fails "$@" ;;
        esac
    done
    echo "$1: $((none + io + whole)) allocations were refused in turn: $none runs ended with status 6, $io with status 7, $whole gave the whole answer"
}

fails() {
    echo "$1: allocation $n refused: status $status, $(head -c 999 out errors); store: $(sessions east), $(sessions east.2)"
    exit 1
}

refused_in_turn regroup --site 0 --store store --group east
refused_in_turn rebuild --site 1 --store store --group east.2
