#!/bin/sh
# Reads a store that the program wrote with sqlite3, opens one that sqlite3 wrote from the documented tables, and runs the
# command over files that are no stores, with inputs and outputs that fail, over a copy that was put back, until it is
# killed, and twice at once over one store.
#
#   checks/store.sh    needs sqlite3, and builds the program where it is not built
#
# Prints a line for each thing tried, and ends with 0 where all of them went well.
set -u
top=$(CDPATH='' cd -- "$(dirname -- "$0")/.." && pwd -P) || exit 1
command -v sqlite3 >/dev/null || { echo "sqlite3 is not on the PATH"; exit 1; }
work=$(mktemp -d "${TMPDIR:-/tmp}/seat_cli_store.XXXXXX") || exit 1
trap 'rm -rf "$work"' EXIT
failed=0

tell() { # whether it went well, and what was tried
    if [ "$1" = 0 ]; then echo "ok      $2"; else echo "FAILED  $2"; failed=$((failed + 1)); fi
}

site() { # the answers to lines, of site 0 over a file
    "$top/seat_cli" site --site 0 --store "$1"
}

rows() { # what sqlite3 answers to a query
    sqlite3 "$work/own" "$1"
}

# the built-in layout: two sites, record a of two seats at site 0
[ "$(printf 'read a 7\nannounce a 8\ngive a 1 1\n' | site "$work/own" | tr '\n' ';')" = "admitted;announced 1;given;" ]
tell $? "a new store is made, and three calls are answered"
[ "$(rows 'PRAGMA integrity_check')" = ok ]
tell $? "sqlite3 finds the file sound"
[ "$(rows 'SELECT name, value FROM meta ORDER BY name' | tr '\n' ';')" = "layout|2;a,2,0,1;site|0;version|2;" ]
tell $? "the rows of meta"
[ "$(rows 'SELECT record, slot, n FROM cells ORDER BY record, slot' | tr '\n' ';')" = "0|1|1;0|200|1;0|201|1;" ]
tell $? "the rows of cells"
[ "$(rows 'SELECT record, holder, phase, place FROM sessions ORDER BY place' | tr '\n' ';')" = "0|7|1|1;0|8|2|2;" ]
tell $? "the rows of sessions"
[ "$(rows 'SELECT count(*) FROM notices')" = 0 ]
tell $? "the rows of notices"
[ "$(printf 'read a 7\nleave a 8\n' | site "$work/own" | tr '\n' ';')" = "refused AlreadyHere;withdrawn;" ]
tell $? "the store that sqlite3 read is opened again"

sqlite3 "$work/first" "
    CREATE TABLE meta (name TEXT PRIMARY KEY NOT NULL, value TEXT NOT NULL);
    CREATE TABLE cells (record INTEGER NOT NULL, slot INTEGER NOT NULL, n INTEGER NOT NULL CHECK (n >= 0), PRIMARY KEY (record, slot));
    CREATE TABLE sessions (record INTEGER NOT NULL, holder INTEGER NOT NULL, phase INTEGER NOT NULL, place INTEGER NOT NULL UNIQUE, PRIMARY KEY (record, holder));
    INSERT INTO meta VALUES ('version', '1'), ('site', '0'), ('layout', '2;a,2,0,1');
    INSERT INTO cells VALUES (0, 200, 1);
    INSERT INTO sessions VALUES (0, 7, 1, 3);"
[ "$(printf 'read a 7\nread a 8\nread a 9\n' | site "$work/first" | tr '\n' ';')" = "refused AlreadyHere;admitted;refused NoSeat 0;" ]
tell $? "a store of the first version that sqlite3 wrote is opened"
[ "$(sqlite3 "$work/first" "SELECT value FROM meta WHERE name = 'version'; SELECT place FROM sessions WHERE holder = 8; PRAGMA integrity_check" | tr '\n' ';')" = "2;4;ok;" ]
tell $? "it is of the second version then"

refuses() { # whether the store at a path is refused by this name, and what was tried
    printf 'read a 9\n' | site "$2" >"$work/out" 2>"$work/errors"
    [ $? = 5 ] && [ ! -s "$work/out" ] && [ "$(cat "$work/errors")" = "store refused $1" ]
    tell $? "$3"
}

sqlite3 "$work/first" "UPDATE meta SET value = '1' WHERE name = 'site'"
refuses WrongSite "$work/first" "another site's store is refused"
sqlite3 "$work/first" "UPDATE meta SET value = '0' WHERE name = 'site'; UPDATE meta SET value = '2;a,2,0,2' WHERE name = 'layout'"
refuses WrongLayout "$work/first" "a store of another layout is refused"
sqlite3 "$work/first" "UPDATE meta SET value = '3' WHERE name = 'version'"
refuses BadStore "$work/first" "a store of a version to come is refused"
mkdir "$work/folder"
refuses StoreFault "$work/folder" "a folder is no store"
refuses StoreFault "$work/none/own" "nor is a file in a folder that is not there"
refuses StoreFault "" "nor is the empty path"
refuses StoreFault /dev/null/own "nor is a path through a device"
printf 'no database, but some words\n' >"$work/words"
cp "$work/words" "$work/words_before"
refuses StoreFault "$work/words" "nor is a file that is no database"
cmp -s "$work/words" "$work/words_before" && rmdir "$work/folder"
tell $? "which stays as it was, and so does the folder"

# where files can be written by no one but others
if [ "$(id -u)" = 0 ]; then as='setpriv --reuid=65534 --regid=65534 --clear-groups'; else as=; fi
mkdir "$work/others"
cp "$work/own" "$work/others/own"
chmod 777 "$work/others" && chmod 444 "$work/others/own" && chmod 755 "$work"
printf 'read a 9\n' | $as "$top/seat_cli" site --site 0 --store "$work/others/own" >"$work/out" 2>"$work/errors"
[ $? = 5 ] && [ ! -s "$work/out" ] && [ "$(cat "$work/errors")" = "store refused StoreFault" ]
tell $? "a file that may only be read is refused"
cmp -s "$work/own" "$work/others/own"
tell $? "and stays as it was"

# runs that fail, and what the next run finds: reader 7 is inside, and reader 8 comes
fails() { # the status that a run over a store ended with, the one that is wanted, and what was tried
    [ "$1" = "$2" ] && [ "$(printf 'read a 7\nread a 8\nleave a 8\n' | site "$work/run" | tr '\n' ';')" = "refused AlreadyHere;admitted;left reader;" ]
    tell $? "$3"
}
[ "$(printf 'read a 7\n' | site "$work/run")" = admitted ]
{ printf 'read a 8\n'; head -c 16777208 /dev/zero | tr '\0' ' '; } | site "$work/run" >"$work/out"
fails $? 4 "an input that is a byte too long, of which no line is carried out"
[ "$(cat "$work/out")" = "input refused TooLong" ]
tell $? "which is told"
site "$work/run" <"$work" >"$work/out" 2>/dev/null
fails $? 7 "a folder in place of the input"
printf 'read a 8\n\377\n' | site "$work/run" >"$work/out"
[ $? = 4 ] && [ "$(tr '\n' ';' <"$work/out")" = "admitted;line 2 refused BadWord;" ] && [ "$(echo leave a 8 | site "$work/run")" = "left reader" ]
tell $? "a line that is not UTF-8 ends a run, which keeps what it was answered before"
if [ -w /dev/full ]; then
    echo read a 9 | site "$work/run" >/dev/full 2>/dev/null
    [ $? = 7 ] && [ "$(printf 'read a 9\nleave a 9\n' | site "$work/run" | tr '\n' ';')" = "refused AlreadyHere;left reader;" ]
    tell $? "an output that is full, behind which the call is kept"
else
    echo "left out, without /dev/full: an output that is full"
fi

# a store that is copied, and put back behind what it told
cp "$work/run" "$work/copy"
printf 'give a 1 1\nsend\n' | site "$work/run" >"$work/out"
[ "$(head -1 "$work/out")" = given ] && cp "$work/copy" "$work/run" && rm -f "$work/run-wal"
{ printf 'take '; sed -n 2p "$work/out"; echo read a 8; } | site "$work/run" >"$work/answers"
[ "$(tr '\n' ';' <"$work/answers")" = "refused OwnRowAhead 0;admitted;" ]
tell $? "a store that was put back does not take what it no longer knows, and goes on"

# runs of one call each, of which the last is killed: each call that was answered is kept, and at most the one in flight
program=$top/crates/seat_cli/out/seat_cli
one_call() { # the answer to one line of a site over a store, in the background
    echo "$1" >"$work/line"
    "$program" site --site 0 --store "$work/calls" <"$work/line" >>"$work/answered" 2>/dev/null &
    pid=$!
}
kept=0 lost=0 wrong=0
for delay in 0 0 0 0.001 0.001 0.002 0.002 0.004 0.004 0.006 0.008 0.01; do
    rm -f "$work"/calls "$work"/calls-wal "$work/answered"
    for n in 1 2 3 4 5; do
        one_call "announce a $n"
        wait "$pid"
    done
    one_call "announce a 6"
    [ "$delay" = 0 ] || sleep "$delay"
    kill -9 "$pid" 2>/dev/null
    wait "$pid" 2>/dev/null
    answered=$(grep -c '^announced' "$work/answered")
    next=$(echo announce a 7 | site "$work/calls" 2>"$work/errors")
    sound=$(sqlite3 "$work/calls" "PRAGMA integrity_check; SELECT n FROM cells WHERE slot = 201; SELECT count(*) FROM sessions" | tr '\n' ';')
    if [ "$answered" -ge 5 ] && [ "$next" = "announced $((answered + 1))" ] && [ "$sound" = "ok;$((answered + 1));$((answered + 1));" ]; then
        lost=$((lost + 1))
    elif [ "$answered" = 5 ] && [ "$next" = "announced 7" ] && [ "$sound" = "ok;7;7;" ]; then
        kept=$((kept + 1))
    else
        wrong=$((wrong + 1))
    fi
done
[ "$wrong" = 0 ]
tell $? "of 12 stores each call that was answered is kept; of the killed calls $kept were kept and not answered, $lost not, or answered too"

# a run of many calls that is killed: what the run before it was answered is kept, and of its own calls the first ones, whole
for delay in 0.02 0.05 0.1 0.2; do
    rm -f "$work"/killed "$work"/killed-wal
    awk 'BEGIN { print "read a 99999"; for (n = 1; n <= 50; n++) print "announce a " n "\nleave a " n }' | site "$work/killed" >"$work/first"
    awk 'BEGIN { for (n = 1; n <= 60000; n++) print "announce a " n "\nleave a " n }' >"$work/long"
    "$program" site --site 0 --store "$work/killed" <"$work/long" >"$work/second" 2>/dev/null &
    pid=$!
    sleep "$delay"
    kill -9 "$pid" 2>/dev/null
    wait "$pid" 2>/dev/null
    # the counters: one seat taken, writers announced and finished; and the sessions, a reader and at most one writer
    announced=$(sqlite3 "$work/killed" "SELECT n FROM cells WHERE slot = 201")
    finished=$(sqlite3 "$work/killed" "SELECT n FROM cells WHERE slot = 202")
    waits=$((announced - finished))
    [ "$(wc -l <"$work/first")" = 101 ] && [ ! -s "$work/second" ] && [ "$finished" -ge 50 ] && [ "$waits" -ge 0 ] && [ "$waits" -le 1 ] \
        && [ "$(sqlite3 "$work/killed" 'PRAGMA integrity_check; SELECT n FROM cells WHERE slot = 200; SELECT count(*) FROM sessions' | tr '\n' ';')" = "ok;1;$((waits + 1));" ] \
        && [ "$(printf 'read a 99999\nannounce a 100000\n' | site "$work/killed" | tr '\n' ';')" = "refused AlreadyHere;announced $((announced + 1));" ]
    tell $? "a run that was killed after $delay s, in its call $((announced + finished - 99)), leaves all that was answered before it"
done

# two runs over one store: the second is refused at once and reads nothing; the first goes on
rm -f "$work"/two "$work"/two-wal
mkfifo "$work/lines"
"$program" site --site 0 --store "$work/two" <"$work/lines" >"$work/first" 2>"$work/errors" &
pid=$!
exec 3>"$work/lines"
tries=0
until [ -e "$work/two-wal" ] || [ "$tries" = 500 ]; do sleep 0.01; tries=$((tries + 1)); done
echo 'read a 8' >"$work/line"
{
    timeout 10 "$program" site --site 0 --store "$work/two" >"$work/out" 2>"$work/second"
    status=$?
    cat >"$work/unread"
} <"$work/line"
[ "$status" = 5 ] && [ ! -s "$work/out" ] && [ "$(cat "$work/second")" = "store refused StoreFault" ]
tell $? "a second run over a store that another one serves is refused at once"
cmp -s "$work/line" "$work/unread"
tell $? "and reads none of its input"
sqlite3 "$work/two" 'SELECT count(*) FROM sessions' >"$work/out" 2>"$work/second"
[ $? != 0 ] && grep -q locked "$work/second"
tell $? "sqlite3 finds the store locked meanwhile"
echo 'read a 7' >&3
exec 3>&-
wait "$pid"
[ $? = 0 ] && [ "$(cat "$work/first")" = admitted ] && [ ! -s "$work/errors" ] && [ "$(printf 'read a 7\nread a 8\n' | site "$work/two" | tr '\n' ';')" = "refused AlreadyHere;admitted;" ]
tell $? "the first run goes on, and the next one finds what it was answered"

[ "$failed" = 0 ]
