#!/usr/bin/env bash
# Runs `serve` with a log over a new store, `serve` with rounds of calls, and `ask`, once for each of their allocations, with
# that one refused, until a run meets no refusal. Each run has to end with status 6 before the first answer; or to answer one
# line with `refused Memory` and the others as without it; or, where a write found no memory, with status 7. Then the store has
# to have the calls that were answered, and after status 7 perhaps one more, or the whole round; and `judge` has to find the
# log consistent.
#
#     checks/refused_service.sh    needs gcc, and builds the program where it is not built; takes some minutes
set -eu
. "$(dirname "$0")/refusing.sh"
./seat_cli --version >/dev/null
program=$PWD/crates/seat_cli/out/seat_cli
cd "$work"

digits() { # so many first digits of the SHA-256 of a text
    printf %s "$1" | sha256sum | cut -c "1-$2"
}
marked() { # a delta behind its mark, in the built-in layout and no group
    echo "- $(digits ";a,2,0,1" 16) $(digits "$1" 8) $1"
}
delta=$(marked '{"from":0,"rows":[{"ann":0,"fin":0,"out":[2,0],"r":0,"s":0,"taken":2}],"v":1}')
one=$(marked '{"from":0,"rows":[{"ann":0,"fin":0,"out":[2,0],"r":0,"s":0,"taken":1}],"v":1}')

# refused_in_turn HOW WORD..: the words are `serve` or `ask` and what stands behind it; the input is the file `lines`. HOW is
# the first word, or `rounds`.
refused_in_turn() {
    how=$1
    shift
    memory=0 none=0 io=0 whole=0 n=0
    while :; do
        n=$((n + 1))
        rm -f mark store store-wal log
        status=0
        REFUSE_NTH=$n REFUSE_MARK=mark LD_PRELOAD=./refuse.so "$program" "$@" <lines >out 2>errors || status=$?
        if [ ! -e mark ]; then
            # Behind the last allocation: nothing was refused.
            [ "$status" = 0 ] && [ ! -s errors ] && [ "$n" -gt 1 ] && break
            echo "$how: without a refusal, behind $((n - 1)) of them: status $status, $(head -c 999 out errors)"
            exit 1
        fi
        kept=$("$program" ask --site 0 --store store sessions a 2>&1) || true
        [ "$kept" != "store refused NoStore" ] || kept=$("$program" ask --create --site 0 --store store sessions a 2>&1) || true
        verdict=consistent
        if [ -s log ]; then verdict=$("$program" judge <log 2>&1 | tail -n 1); fi
        case "$how $status $(tr '\n' ';' <out) $(tr '\n' ';' <errors)|$kept|$verdict" in
            "serve 0 admitted;admitted;$delta; |2 7 reader, 8 reader|consistent") whole=$((whole + 1)) ;;
            "serve 0 refused Memory;admitted;$one; |1 8 reader|consistent" | \
            "serve 0 admitted;refused Memory;$one; |1 7 reader|consistent" | \
            "serve 0 admitted;admitted;refused Memory; |2 7 reader, 8 reader|consistent") memory=$((memory + 1)) ;;
            "serve 6  memory;|0|consistent") none=$((none + 1)) ;;
            "serve 7  io;|0|consistent" | "serve 7  io;|1 7 reader|consistent" | \
            "serve 7 admitted; io;|1 7 reader|consistent" | "serve 7 admitted; io;|2 7 reader, 8 reader|consistent" | \
            "serve 7 admitted;admitted; io;|2 7 reader, 8 reader|consistent") io=$((io + 1)) ;;
            "rounds 0 admitted;admitted;$delta; |2 7 reader, 8 reader|consistent") whole=$((whole + 1)) ;;
            "rounds 0 refused Memory;admitted;$one; |1 8 reader|consistent" | \
            "rounds 0 admitted;refused Memory;$one; |1 7 reader|consistent" | \
            "rounds 0 admitted;admitted;refused Memory; |2 7 reader, 8 reader|consistent") memory=$((memory + 1)) ;;
            "rounds 6  memory;|0|consistent") none=$((none + 1)) ;;
            "rounds 7  io;|0|consistent" | "rounds 7  io;|2 7 reader, 8 reader|consistent") io=$((io + 1)) ;;
            "ask 0 admitted; |1 7 reader|consistent") whole=$((whole + 1)) ;;
            "ask 1 refused Memory; |0|consistent") memory=$((memory + 1)) ;;
            "ask 6  memory;|0|consistent") none=$((none + 1)) ;;
            "ask 7  io;|0|consistent" | "ask 7  io;|1 7 reader|consistent") io=$((io + 1)) ;;
            *)
                echo "$how: allocation $n refused: status $status, $(head -c 999 out errors); sessions: $kept; judge: $verdict"
                exit 1
                ;;
        esac
    done
    echo "$how: each of $((n - 1)) allocations was refused in turn: $none runs ended with status 6, $memory answered a line with refused Memory, $io ended with status 7, $whole gave the whole answer"
}

printf 'read a 7\nread a 8\nsend\n' >lines
refused_in_turn serve serve --create --site 0 --store store --log log
refused_in_turn rounds serve --create --site 0 --store store --together 3
: >lines
refused_in_turn ask ask --create --site 0 --store store read a 7
