#!/usr/bin/env bash
# Runs `join`, `play`, `judge` and `run` over the examples once for each of their allocations, with that one refused,
# until a run meets no refusal. Each run has to end with status 6, `memory` and no answer, or with the whole answer; and
# the last one, of which nothing is refused, with the whole answer. A link of `run` that lacks memory for a turn goes on;
# where a thread can't be started for want of memory, `run` ends too, with status 6 or, at two sites, with the answer.
#
#     checks/refused_commands.sh    needs gcc, and builds the program where it is not built
set -eu
. "$(dirname "$0")/refusing.sh"
./seat_cli --version >/dev/null
program=$PWD/crates/seat_cli/out/seat_cli

# refused_in_turn ANSWER STATUS INPUT ARGUMENT..: what the program has to answer to these arguments and this input.
refused_in_turn() {
    answer=$1 wanted=$2 input=$3 whole=0 none=0 n=0
    shift 3
    while :; do
        n=$((n + 1))
        rm -f "$work/mark"
        status=0
        timeout 60 env REFUSE_NTH=$n REFUSE_MARK="$work/mark" LD_PRELOAD="$work/refuse.so" \
            "$program" "$@" <"$input" >"$work/out" 2>"$work/errors" || status=$?
        is_whole=0
        [ "$status" = "$wanted" ] && cmp -s "$work/out" "$answer" && [ ! -s "$work/errors" ] && is_whole=1
        [ "$is_whole" = 1 ] && [ ! -e "$work/mark" ] && break
        if [ "$is_whole" = 1 ]; then
            whole=$((whole + 1))
        elif [ "$status" = 6 ] && [ ! -s "$work/out" ] && [ "$(cat "$work/errors")" = memory ] && [ ! -e "$work/sites.log.part" ]; then
            none=$((none + 1))
        else
            echo "$1: allocation $n refused: status $status, $(head -c 999 "$work/out" "$work/errors")"
            exit 1
        fi
    done
    [ "$n" -gt 1 ] || { echo "$1: no allocation was refused"; exit 1; }
    echo "$1: each of $((n - 1)) allocations was refused in turn: $none runs ended with status 6, $whole with the whole answer"
}

cat examples/site_1.deltas examples/site_0.deltas >"$work/deltas"
refused_in_turn examples/joined.txt 0 "$work/deltas" join --layout examples/three_sites.toml
printf '\n' >>"$work/deltas"
echo "line $(wc -l <"$work/deltas") refused NotJson" >"$work/refusal"
refused_in_turn "$work/refusal" 4 "$work/deltas" join --layout examples/three_sites.toml
for _ in $(seq 200); do cat examples/site_1.deltas examples/site_0.deltas; done >"$work/many"
refused_in_turn examples/joined.txt 0 "$work/many" join --layout examples/three_sites.toml
refused_in_turn examples/maintenance.txt 0 examples/maintenance.script play --tables --layout examples/three_sites.toml
refused_in_turn examples/maintenance.verdict 0 examples/maintenance.log judge --layout examples/three_sites.toml
sed '$s/admitted/admited/' examples/maintenance.log >"$work/logs"
echo "line $(wc -l <"$work/logs") refused NotTranscript" >"$work/refusal"
refused_in_turn "$work/refusal" 4 "$work/logs" judge --layout examples/three_sites.toml
refused_in_turn examples/maintenance.verdict 0 /dev/null judge --layout examples/three_sites.toml --logs examples/maintenance.log
echo "$work/logs $(cat "$work/refusal")" >"$work/refusal_of_a_file"
refused_in_turn "$work/refusal_of_a_file" 4 /dev/null judge --layout examples/three_sites.toml --logs examples/maintenance.log "$work/logs"
# Files that are read twice: each but the last tells of more merges than are kept.
(cd bench && python3 -B -c 'import judge_files, sys; judge_files.some_turns(sys.argv[1], 23)' "$work")
files=("$work"/turns.?.log)
"$program" judge --layout "$work/turns.toml" --logs "${files[@]}" >"$work/verdict"
tail -n 1 "$work/verdict" | grep -q '^consistent$'
refused_in_turn "$work/verdict" 0 /dev/null judge --layout "$work/turns.toml" --logs "${files[@]}"
refused_in_turn examples/at_once.txt 0 examples/at_once.script run --turns 1 --layout examples/three_sites.toml
printf '0 leave a 1\n' >"$work/script"
printf '0: refused NotHere\nconsistent\n' >"$work/replies"
refused_in_turn "$work/replies" 0 "$work/script" run --turns 1 --out "$work/sites.log"
refused_in_turn "$work/replies" 0 "$work/script" run --turns 40
