#!/usr/bin/env bash
# The time that changes of a flight take in a store, beside the time of a small program over sqlite3 for the same upserts with
# the same settings: each opens the store, puts the row in a transaction of its own, with a log beside the file that is synced at
# each commit, and closes the store. bench/store.sh [PROGRAM] takes the program that was proved and built, out/loadctl by
# default. The two take turns, and of each the median of five runs is taken, from its start to its end. The time of a run that
# only opens the store and shows a flight stands beside it.
set -euo pipefail

top=$(dirname "$(dirname "$(readlink -f "$0")")")
program=$(readlink -f "${1-$top/out/loadctl}")
aircraft=$top/examples/daiab.toml
changes=500

fail() {
    echo "bench/store.sh: $*" >&2
    exit 1
}

[ -x "$program" ] || fail "$program is not there; ./prove proves and builds it."
command -v sqlite3 >/dev/null || fail "sqlite3 is not there, so nothing is compared."
command -v python3 >/dev/null || fail "python3 is not there, so nothing is compared."

work=$(mktemp -d)
trap 'rm -rf "$work"' EXIT

# One request: METHOD PATH BODY.
request() { printf '%s %s HTTP/1.1\r\nContent-Length: %d\r\n\r\n%s' "$1" "$2" "${#3}" "$3"; }

# One run of the program on the store.
run() {
    timeout 600 "$program" desk "$work/flights.db" "$aircraft" <"$work/$1" >"$work/output" || fail "the program ended with $?."
}

# A store of so many flights, opened in several runs, since one answers 1,000 requests.
open_flights() {
    local first n
    for ((first = 0; first < $1; first += 500)); do
        for ((n = first; n < first + 500 && n < $1; n++)); do
            request POST /flights "{\"flight\":\"XX$((1000 + n))\",\"day\":12,\"registration\":\"DAIAB\",\"origin\":\"FRA\",\"destination\":\"ARN\"}"
        done >"$work/opened"
        run opened
    done
    sqlite3 "$work/flights.db" 'PRAGMA wal_checkpoint(truncate)' >/dev/null
    cp "$work/flights.db" "$work/before.db"
}

# The changes of the first flight, from its first edition.
ask_changes() {
    local n
    for ((n = 1; n <= changes; n++)); do
        request PUT "/flights/XX1000-12/fuel/$n" "{\"taxi\":200,\"takeoff\":9000,\"trip\":$((5000 + n))}"
    done >"$work/asked"
}

# The time of a command, in nanoseconds. Before it, the store is as it was opened.
nanoseconds() {
    local begun
    rm -f "$work"/*.db-wal "$work"/*.db-shm
    cp "$work/before.db" "$work/flights.db"
    cp "$work/before.db" "$work/copy.db"
    sync "$work/flights.db" "$work/copy.db" "$work"
    begun=$(date +%s%N)
    "$@"
    echo $(($(date +%s%N) - begun))
}

# The same upserts over sqlite3, with other bytes at the row's end each time, since it writes no page that stays as it is.
upserts() { "$top/bench/store_reference.py" "$work/copy.db" XX1000-12 "$changes"; }

median() { sort -n "$work/$1" | sed -n 3p; }

request GET /flights/XX1000-12 '' >"$work/shown"
printf '%8s %8s %10s %22s %22s %6s\n' flights changes opening loadctl sqlite3 ratio
for flights in 1 100 500 2000; do
    rm -f "$work"/*.db "$work"/*.db-wal "$work"/*.db-shm "$work"/*.times
    open_flights "$flights"
    ask_changes
    run asked
    [ "$(grep -a -o '{"edition":[0-9]*}' "$work/output" | wc -l)" = "$changes" ] || fail "a change was refused."
    for _ in 1 2 3 4 5; do
        nanoseconds run shown >>"$work/opening.times"
        nanoseconds run asked >>"$work/loadctl.times"
        nanoseconds upserts >>"$work/sqlite3.times"
    done
    awk -v f="$flights" -v c="$changes" -v b="$(median opening.times)" -v o="$(median loadctl.times)" -v t="$(median sqlite3.times)" 'BEGIN {
        printf "%8d %8d %8.3f s %7.3f s, %5.0f a second %7.3f s, %5.0f a second %6.2f\n",
            f, c, b / 1e9, o / 1e9, c / (o / 1e9), t / 1e9, c / (t / 1e9), o / t
    }'
done
