#!/usr/bin/env bash
# Runs tests of a crate of tests once for each of their allocations, with that one refused, until a run meets no refusal.
# The tests are those whose names hold a word; they have to pass whatever is refused. With RUN so many allocations in a row
# are refused, from that one on. Where a test has threads, the order of their allocations differs from run to run, and a run
# refuses the one that comes at its number.
#
#     checks/refused_growths.sh [CRATE [WORD [RUN]]]
#
# Without arguments: the tests of site_tests on calls that find no memory. Of serving_tests, session_tests, exchange_tests,
# serve_tests and store_tests the tests with the same word are such tests too; those of serve_tests and store_tests have to
# pass with two in a row too. Needs gcc.
set -eu
. "$(dirname "$0")/refusing.sh"
crate=${1:-site_tests}
word=${2:-growths}
export REFUSE_RUN=${3:-1}
tests=crates/$crate/out/${crate}_tests

[ -x "$tests" ] && [ -z "$(find "crates/$crate/src" -newer "$tests" -name '*.rt')" ] || (cd "crates/$crate" && rt test)
names=$("$tests" --list | sed -n "s/: test$//p" | grep "$word") || { echo "$crate has no test whose name holds $word"; exit 1; }

for name in $names; do
    n=0
    while :; do
        n=$((n + 1))
        rm -f "$work/mark"
        if ! timeout 60 env REFUSE_NTH=$n REFUSE_MARK="$work/mark" LD_PRELOAD="$work/refuse.so" "$tests" "$name" > "$work/out" 2>&1; then
            cat "$work/out"
            echo "$name fails, or does not end within 60 seconds, where allocation $n is refused"
            exit 1
        fi
        [ -e "$work/mark" ] || break
    done
    [ "$n" -gt 1 ] || { echo "$name: no allocation was refused"; exit 1; }
    echo "$name: each of $((n - 1)) allocations was refused in turn"
done
