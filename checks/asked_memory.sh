#!/usr/bin/env bash
# Counts how often tests ask for memory, and for how many bytes: what no contract speaks of, and what no test inside the
# program can see. Needs gcc.
#
#     checks/asked_memory.sh
set -eu
. "$(dirname "$0")/refusing.sh"

wrong=0
# A crate of tests, one of its tests, and the most requests and bytes that it may make.
within() {
    tests=crates/$1/out/$1_tests
    [ -x "$tests" ] && [ -z "$(find "crates/$1/src" -newer "$tests" -name '*.rt')" ] || (cd "crates/$1" && rt test)
    REFUSE_TOTAL=$work/total LD_PRELOAD=$work/refuse.so "$tests" "$2" > "$work/out" 2>&1 || { cat "$work/out"; exit 1; }
    read -r requests bytes < "$work/total"
    echo "$2: $requests requests, $bytes bytes"
    [ "$requests" -le "$3" ] && [ "$bytes" -le "$4" ] || { echo "  more than $3 requests or $4 bytes"; wrong=1; }
}

# Two desks with a log of 16 places each: one of 65,536 places would take megabytes.
within session_tests desks::a_log_takes_as_many_entries_as_its_limit 100 40000
# 65,536 calls: their log has its places from the start, and the receipts of a pass double theirs, so few calls ask for
# memory. Receipts that grew one by one would ask 65,536 times.
within session_tests sites::the_longest_log_is_closed_by_all_passes 1000 40000000
# Twelve calls, a snapshot among them: a second snapshot, or one copy more of a reply, would ask more often.
within session_tests sites::a_store_is_called_once_an_opening_and_once_a_change 60 15100
# One snapshot of a book with 243 rows of 16 sites: a second one, or a copy, would take 10,000 bytes and more.
within site_tests admission::limits::a_full_site_tells_and_keeps 2095 1100000
# Stores are opened again, and looked at once each: a second look would ask for all their rows again.
within store_tests stores_opened::a_keeper_is_opened_again_after_a_crash 7480 20100000
exit $wrong
