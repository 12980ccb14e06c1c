#!/bin/sh
# Tries the launcher, the README's commands, the examples and the built program, all in a fresh clone.
#
#   checks/launcher.sh           takes as long as a build from nothing, and some minutes more
#   checks/launcher.sh --gate    runs the README's last command, rt ci, as well: an hour or two more
#   checks/launcher.sh --quick   takes along what the checks of this folder kept, and so builds faster
#
# Prints a line for each thing tried, and ends with 0 where all of them went well.
set -u
top=$(CDPATH='' cd -- "$(dirname -- "$0")/.." && pwd -P) || exit 1
rt=$(command -v rt) || { echo "rt is not on the PATH"; exit 1; }
work=$(mktemp -d "${TMPDIR:-/tmp}/seat_cli_checks.XXXXXX") || exit 1
trap 'chmod -R u+w "$work" && rm -rf "$work"' EXIT
chmod 755 "$work"
failed=0

tell() { # whether it went well, and what was tried
    if [ "$1" = 0 ]; then echo "ok      $2"; else echo "FAILED  $2"; failed=$((failed + 1)); fi
}

# What runs as `rt` below counts its calls.
mkdir "$work/bin" "$work/elsewhere"
printf '#!/bin/sh\necho "$*" >>"%s/calls"\nexec "%s" "$@"\n' "$work" "$rt" >"$work/bin/rt"
chmod +x "$work/bin/rt"
PATH=$work/bin:$PATH
builds() { # how often rt was called since the last question
    if [ -e "$work/calls" ]; then wc -l <"$work/calls" | tr -d ' '; rm "$work/calls"; else echo 0; fi
}

git clone --quiet "$top" "$work/clone" || exit 1
cd "$work/clone" || exit 1
if [ "${1:-}" = --quick ]; then
    for out in "$top"/crates/*/out; do cp -R -p "$out" "crates/$(basename "$(dirname "$out")")/"; done
    rm -f crates/seat_cli/out/seat_cli
fi

joins() { # whether these lines, under the example's layout, join to what the examples say
    ./seat_cli join --layout examples/three_sites.toml 2>"$work/errors" | cmp -s - examples/joined.txt
}

plays() { # whether the script of the examples is answered as they say
    ./seat_cli play --tables --layout examples/three_sites.toml <examples/maintenance.script 2>"$work/errors" | cmp -s - examples/maintenance.txt
}

began=$(date +%s)
examples/first_look.sh 2>/dev/null | awk 'NR <= 14 { print substr($0, 25); next } { print }' | cmp -s - examples/maintenance.txt
tell $? "the README's first command prints examples/maintenance.txt, in $(($(date +%s) - began)) s"
builds >/dev/null
echo "building the program in $work/clone"
plays
tell $? "the README's second command builds the program and prints examples/maintenance.txt"
[ "$(builds)" = 1 ] && [ "$(wc -l <"$work/errors")" = 1 ] && grep -q "7 GB" "$work/errors"
tell $? "the build is told in one line"
checks/examples.sh >"$work/output" 2>&1 && [ "$(builds)" = 0 ]
tell $? "every example prints what stands beside it, without a build"
checks/guide.py >"$work/output" 2>&1 && [ "$(builds)" = 0 ]
tell $? "the guide's commands print what it shows: $(tail -1 "$work/output")"
./seat_cli ask --create --site 0 --store "$work/site_0.db" show a >"$work/output" 2>&1 && [ "$(cat "$work/output")" = "rights 2 inside 0 unfinished 0" ]
tell $? "a store is made, and its seats are shown"
checks/readme.py >"$work/output" 2>&1 && [ "$(builds)" = 0 ]
tell $? "the README's table, its other commands and its program in Python do what it says: $(tail -1 "$work/output")"
cat examples/site_1.deltas examples/site_0.deltas | joins && [ ! -s "$work/errors" ] && [ "$(builds)" = 0 ]
tell $? "the deltas of the examples join to examples/joined.txt, without a build"
cat examples/site_0.deltas examples/site_1.deltas examples/site_0.deltas | joins && [ ! -s "$work/errors" ] && [ "$(builds)" = 0 ]
tell $? "another order with repeats prints the same, without a build"

ln -s "$work/clone/seat_cli" "$work/link" && ln -s ../link "$work/elsewhere/link"
(cd "$work/elsewhere" && ./link --version) | grep -q "^seat_cli " && [ "$(builds)" = 0 ]
tell $? "it runs through a link of a link, from another folder"
(cd / && "$work/clone/seat_cli" join --layout "$work/clone/examples/three_sites.toml") <examples/site_0.deltas | cmp -s - examples/joined.txt
tell $? "it runs by its whole path"

state() { find "$work/clone" -printf '%p %T@ %s\n' | sort; }
chmod -R a-w "$work/clone"
before=$(state)
if [ "$(id -u)" = 0 ]; then as='setpriv --reuid=65534 --regid=65534 --clear-groups'; else as=; fi
cat examples/site_1.deltas examples/site_0.deltas | $as ./seat_cli join --layout examples/three_sites.toml | cmp -s - examples/joined.txt \
    && [ "$before" = "$(state)" ] && [ "$(builds)" = 0 ]
tell $? "it runs where nothing can be written"
chmod -R u+w "$work/clone"

sleep 1
touch README.md docs/*.md crates/*/must-fail/*.edit crates/*/planted/*.edit
./seat_cli --version >/dev/null 2>"$work/errors" && [ ! -s "$work/errors" ] && [ "$(builds)" = 0 ]
tell $? "a change of what the program does not stand on builds nothing"
for source in crates/grow_counters/specs/Counts.antt crates/seat_cli/src/main.rt crates.txt; do
    sleep 1
    touch "$source"
    ./seat_cli --version 2>"$work/errors" | grep -q "^seat_cli " && [ "$(builds)" = 0 ] && grep -q -e "--build" "$work/errors"
    tell $? "a change of $source is told, and the program that is there runs"
    ./seat_cli --build >/dev/null 2>&1 && [ "$(builds)" = 1 ] && ./seat_cli --version >/dev/null 2>"$work/errors" && [ ! -s "$work/errors" ]
    tell $? "--build builds it once"
done
sleep 1
touch crates/seat_cli/src/main.rt
./seat_cli --build >/dev/null 2>&1 &
./seat_cli --build >/dev/null 2>&1 && wait $! && [ "$(builds)" = 1 ]
tell $? "of two builds at once the second waits, and finds what the first one built"
sleep 1
echo 'fn broken(' >>crates/exit_status/src/status.rt
./seat_cli --build >"$work/output" 2>"$work/errors"
[ $? = 1 ] && [ ! -s "$work/output" ] && grep -q "src/status.rt" "$work/errors" && tail -1 "$work/errors" | grep -q "could not be built"
tell $? "a build that fails ends with 1 and shows its log"
./seat_cli --version 2>/dev/null | grep -q "^seat_cli "
tell $? "and the program that is there still runs"
git checkout --quiet crates/exit_status/src/status.rt
./seat_cli --build >"$work/output" 2>"$work/errors" && ./seat_cli --version | grep -q "^seat_cli "
tell $? "the mended source builds again"

ends() { # the exit status, standard output and standard error that are wanted; then arguments. Input is standard input
    status=$1 output=$2 errors=$3
    shift 3
    ./seat_cli "$@" >"$work/output" 2>"$work/errors"
    [ $? = "$status" ] && [ "$(cat "$work/output")" = "$output" ] && [ "$(head -1 "$work/errors")" = "$errors" ]
}
ends 0 "seat_cli 0.1.0" "" --version </dev/null
tell $? "0 and the version on standard output"
ends 0 '{"from":0,"rows":[],"v":1}' "" </dev/null
tell $? "0 and the book of no input"
ends 2 "" "error: unrecognized subcommand 'walk'" walk </dev/null
tell $? "2 and clap's words on standard error"
ends 2 "" "error: an argument is not UTF-8" "$(printf '\377')" </dev/null
tell $? "2 for an argument that is not UTF-8"
ends 2 "" "cut refused BadWord" judge --cut 1,x </dev/null
tell $? "2 for a word that is no cut"
ends 2 "" "error: invalid value '1001' for '--turns <T>': 1001 is not in 1..=1000" run --turns 1001 </dev/null
tell $? "2 for too many turns"
ends 3 "" "layout refused NotRead" join --layout examples </dev/null
tell $? "3 for a folder in place of a layout file"
ends 3 "" "layout refused TooLong" join --layout /dev/zero </dev/null
tell $? "3 for a device that never ends, in place of a layout file"
ends 3 "" "layout refused BadGrowth" play --from 3 </dev/null
tell $? "3 for first sites that have no layout"
ends 3 "" "layout refused NoSite" site --site 2 --store "$work/site_2.db" </dev/null && [ ! -e "$work/site_2.db" ]
tell $? "3 for a site that the layout has not, and no store is made"
echo "0 reed a 7" | ends 4 "line 1 refused BadWord" "" play
tell $? "4 and the line that says no event"
echo | ends 4 "line 1 refused NotJson" ""
tell $? "4 and the refusal on standard output"
ends 5 "" "store refused WrongSite" site --site 1 --store "$work/site_0.db" </dev/null
tell $? "5 for the store of another site"
ends 5 "" "store refused StoreFault" site --site 0 --store examples </dev/null
tell $? "5 for a folder in place of a store"
ends 1 "refused NotHere" "" ask --site 0 --store "$work/site_0.db" leave a 9 </dev/null
tell $? "1 for a call that is refused"
ends 1 "refused BadWord 3" "" ask --site 0 --store "$work/site_0.db" read a x </dev/null
tell $? "1 and the first wrong word of a call that can't be read"
ends 5 "" "store refused NoStore" serve --site 0 --store "$work/mistyped.db" </dev/null && [ ! -e "$work/mistyped.db" ]
tell $? "5 for a service without its store, and none is made"
ends 5 "" "store refused Exists" serve --site 0 --store "$work/site_0.db" --create </dev/null
tell $? "5 for a new store where one is"
touch "$work/empty.db"
ends 5 "" "store refused NoStore" serve --site 0 --store "$work/empty.db" </dev/null \
    && ends 5 "" "store refused NoStore" ask --site 0 --store "$work/empty.db" show a </dev/null \
    && ends 0 "" "" serve --site 0 --store "$work/empty.db" --create </dev/null
tell $? "an empty file is no store, and becomes one"
ends 5 "" "store refused WrongGroup" ask --site 0 --store "$work/site_0.db" --group crew show a </dev/null
tell $? "5 for the store of another group"
ends 0 'crew d6a41a2b6edb4b8d 49d0174c {"from":0,"rows":[],"v":1}' "" ask --create --site 0 --store "$work/crew.db" --group crew send </dev/null
tell $? "0 for a store of a group, whose deltas have a mark that begins with its name"
ends 5 "" "store refused WrongGroup" ask --site 0 --store "$work/crew.db" show a </dev/null \
    && ends 5 "" "store refused WrongSite" site --site 0 --store "$work/crew.db" </dev/null
tell $? "5 for a group's store where none is named"
ends 2 "" "group refused BadWord" ask --site 0 --store "$work/crew.db" --group Crew show a </dev/null \
    && ends 2 "" "group refused BadWord" ask --site 0 --store "$work/crew.db" --group refused show a </dev/null \
    && ends 2 "" "group refused Plain" ask --site 0 --store "$work/crew.db" --group crew --plain show a </dev/null
tell $? "2 for a name that no group can have, and for a group beside --plain"
ends 5 "" "store refused NoFolder" ask --create --site 0 --store "$work/nowhere/site_0.db" show a </dev/null && [ ! -e "$work/nowhere" ]
tell $? "5 for a store in a folder that is not there"
printf 'sites = 3\n[[record]]\nname = "a"\nseats = 2\nhome = 0\nproblem = 1\n' >"$work/wider.toml"
ends 5 "" "store refused WrongLayout" ask --site 0 --store "$work/site_0.db" --layout "$work/wider.toml" show a </dev/null \
    && ends 0 "rights 2 inside 0 unfinished 0" "" ask --site 0 --store "$work/site_0.db" show a </dev/null
tell $? "5 for a layout with more sites, without --grow"
ends 8 "" "log refused IsStore" serve --site 0 --store "$work/new.db" --create --log "$work/new.db" </dev/null && [ ! -e "$work/new.db" ]
tell $? "8 for a log that is the store itself"
echo "no log" >"$work/no.log"
ends 8 "" "log refused NotTranscript" serve --site 0 --store "$work/new.db" --create --log "$work/no.log" </dev/null \
    && [ ! -e "$work/new.db" ] && [ "$(cat "$work/no.log")" = "no log" ] \
    && ends 0 "" "" serve --site 0 --store "$work/new.db" --create --log "$work/new.log" </dev/null
tell $? "8 for a file that is no log, which stays; the new store is removed, and can be made with another log"
ends 8 "" "log refused NotTranscript" serve --site 0 --store "$work/new.db" --log "$work/no.log" </dev/null \
    && ends 0 "0" "" ask --site 0 --store "$work/new.db" sessions a </dev/null
tell $? "8 for the same at a store that was there before, which stays"
printf "no log" >"$work/no.log"
ends 8 "" "log refused NotALog" serve --site 0 --store "$work/new.db" --log "$work/no.log" </dev/null && [ "$(cat "$work/no.log")" = "no log" ]
tell $? "8 for a file without the end of a line, which stays"
printf "leave a 1" | ends 0 "refused BadWord" "" serve --site 0 --store "$work/new.db"
tell $? "0 for a last line that may be cut, which is not carried out"
echo "0 send" | ends 4 "line 1 refused BadWord" "" run --out "$work/run.log" && [ -z "$(ls "$work"/run.log* 2>/dev/null)" ]
tell $? "4 for a script that is refused, and no file for its logs"
echo "0 leave a 1" | ends 0 "0: refused NotHere
consistent" "" run --out "$work/run.log" && ./seat_cli judge <"$work/run.log" | grep -q '^consistent$' && [ ! -e "$work/run.log.part" ]
tell $? "0 for a script that is run, and its logs are judged"
./seat_cli judge --logs "$work/run.log" >"$work/output" </dev/null && tail -n 1 "$work/output" | grep -q '^consistent$'
tell $? "0 for a file of logs that is judged"
grep -n '"site":0' "$work/run.log" | head -1 | grep -q '^1:' && grep -v '"site":' "$work/run.log" >"$work/entries.log"
ends 4 "$work/entries.log line 1 refused NotTranscript" "" judge --logs "$work/run.log" "$work/entries.log"
tell $? "4 for a second file of logs that begins no run, which is named"
ends 7 "" "$work/nowhere refused NotRead" judge --logs "$work/run.log" "$work/nowhere"
tell $? "7 for a file of logs that isn't there, which is named"
ends 7 "" "examples refused NotRead" judge --logs examples
tell $? "7 for a folder in place of a file of logs"
ends 2 "" "error: a value is required for '--logs <FILE>...' but none was supplied" judge --logs
tell $? "2 for no file of logs"
printf 'older\n' >"$work/older.log" && mkdir "$work/older.log.part"
echo "0 leave a 1" | ends 7 "" "io" run --out "$work/older.log" && [ "$(cat "$work/older.log")" = older ]
tell $? "7 for a file that can't be made, and an older one stays"
ends 7 "" "io" run --out "$work/nowhere/run.log" </dev/null
tell $? "7 for logs in a folder that isn't there"
ends 7 "" "io" run --out "$work" </dev/null
tell $? "7 for a folder in place of a file for logs"
(ulimit -f 1 && trap '' XFSZ && echo "0 leave a 1" | ends 7 "" "io" run --turns 1000 --out "$work/large.log") && [ -z "$(ls "$work"/large.log* 2>/dev/null)" ]
tell $? "7 for logs that are too large for the file system, and nothing is left of them"
ends 7 "" "io" <examples
tell $? "7 for a folder in place of the input"
if [ -w /dev/full ]; then
    ./seat_cli >/dev/full 2>"$work/errors" </dev/null
    [ $? = 7 ] && [ "$(cat "$work/errors")" = io ]
    tell $? "7 for an output that is full"
    ./seat_cli --help >/dev/full 2>"$work/errors" </dev/null
    [ $? = 7 ] && [ "$(cat "$work/errors")" = io ]
    tell $? "7 for help where the output is full"
    echo "0 leave a 1" | ends 7 "" "io" run --out /dev/full && [ -c /dev/full ] && [ ! -e /dev/full.part ]
    tell $? "7 for logs on a device that is full, which stays as it is"
else
    echo "left out, without /dev/full: outputs that are full"
fi

python3 checks/second_reader.py --against crates/seat_cli/out/seat_cli >"$work/output" 2>&1
tell $? "the second reader of the format agrees: $(tail -1 "$work/output")"

if [ "${1:-}" = --gate ]; then
    rt ci >"$work/output" 2>&1
    tail -1 "$work/output" | grep -q " 0 failed"
    tell $? "the README's last command: $(tail -1 "$work/output")"
else
    echo "left out: the README's last command, rt ci (--gate)"
fi
[ "$failed" = 0 ] && echo "all went well" && exit 0
echo "$failed failed"
exit 1
