#!/usr/bin/env bash
# Runs the command `site` over a new store once for each of its allocations, with that one refused, until a run meets no
# refusal. Each run has to end with status 6 and no answer, or with the whole answer; and the next run over its store
# has to find the first calls kept, as many as it may be, and to go on.
#
#     checks/refused_site.sh    needs gcc, and builds the program where it is not built; takes some minutes
set -eu
. "$(dirname "$0")/refusing.sh"
./seat_cli --version >/dev/null
program=$PWD/crates/seat_cli/out/seat_cli
cd "$work"

wanted='admitted;admitted;{"from":0,"rows":[{"ann":0,"fin":0,"out":[2,0],"r":0,"s":0,"taken":2}],"v":1};'
whole=0 none=0 n=0
while :; do
    n=$((n + 1))
    rm -f mark store store-wal
    status=0
    printf 'read a 7\nread a 8\nsend\n' |
        REFUSE_NTH=$n REFUSE_MARK=mark LD_PRELOAD=./refuse.so "$program" site --site 0 --store store >out 2>errors || status=$?
    if [ ! -e mark ]; then
        # Behind the last allocation: nothing was refused.
        [ "$status $(tr '\n' ';' <out)" = "0 $wanted" ] && [ "$n" -gt 1 ] && break
        echo "without a refusal, behind $((n - 1)) of them: status $status, $(head -c 999 out errors)"
        exit 1
    fi
    told="$status $(tr '\n' ';' <out) $(tr '\n' ';' <errors)"
    found=$(printf 'read a 7\nread a 8\n' | "$program" site --site 0 --store store 2>&1 | tr '\n' ';')
    case "$told|$found" in
        "0 $wanted |refused AlreadyHere;refused AlreadyHere;") whole=$((whole + 1)) ;;
        "6  memory;|admitted;admitted;" | "6  memory;|refused AlreadyHere;admitted;" | "6  memory;|refused AlreadyHere;refused AlreadyHere;")
            none=$((none + 1)) ;;
        *)
            echo "allocation $n refused: $told; the next run: $found"
            exit 1
            ;;
    esac
done
echo "each of $((n - 1)) allocations was refused in turn: $none runs ended with status 6, $whole with the whole answer"
