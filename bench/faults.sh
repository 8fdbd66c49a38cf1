#!/usr/bin/env bash
# Stores that cannot be used: what the program answers, and that it leaves them as they were. bench/faults.sh [PROGRAM] takes
# the program that was proved and built, out/loadctl by default. Root runs it as nobody, whom the mode of a file stops, and
# fills a small disk in memory too. It ends with the number of cases, and with status 1 where one went wrong.
set -eu

top=$(dirname "$(dirname "$(readlink -f "$0")")")
program=$(readlink -f "${1-$top/out/loadctl}")
flights=300
cases=0
wrong=0

fail() {
    echo "bench/faults.sh: $*" >&2
    exit 1
}

[ -x "$program" ] || fail "$program is not there; ./prove proves and builds it."

work=$(mktemp -d)
disk=
holder=
stop() {
    [ -z "$holder" ] || kill -KILL "$holder" 2>/dev/null || true
    cd /
    [ -z "$disk" ] || umount "$disk" || true
    chmod -R u+rwx "$work"
    rm -rf "$work"
}
trap stop EXIT

# What starts the program, and whose the stores are.
as=()
own() { :; }
if [ "$(id -u)" = 0 ]; then
    as=(setpriv --reuid=65534 --regid=65534 --clear-groups --)
    own() { chown -R 65534:65534 "$@"; }
fi
cp "$program" "$work/loadctl"
cp "$top/examples/daiab.toml" "$work/daiab.toml"
mkdir "$work/stores"
chmod 755 "$work"
own "$work/stores"
cd "$work/stores"

# One request: METHOD PATH BODY.
request() { printf '%s %s HTTP/1.1\r\nContent-Length: %d\r\n\r\n%s' "$1" "$2" "${#3}" "$3"; }

open_flight() {
    request POST /flights "{\"flight\":\"$1\",\"day\":11,\"registration\":\"DAIAB\",\"origin\":\"FRA\",\"destination\":\"ARN\"}"
}

# One run on a store, with the requests of a file.
run() {
    status=0
    "${as[@]}" timeout 60 "$work/loadctl" desk "$1" "$work/daiab.toml" <"$2" >"$work/output" || status=$?
}

# says CASE TEST ..: counts a case, which went wrong where the test fails.
says() {
    local name=$1
    shift
    cases=$((cases + 1))
    if ! "$@"; then
        wrong=$((wrong + 1))
        echo "bench/faults.sh: $name: status $status" >&2
    fi
}

# The statuses of all answers, in their order.
answers() { grep -a -o 'HTTP/1.1 [0-9]*' "$work/output" | cut -c 10-; }

is_store_fault() { [ "$status" = 8 ] && [ "$(cat "$work/output")" = 'STORE FAULT' ]; }

# The store was refused, and is as the copy of it.
is_untouched() { is_store_fault && cmp -s "$1" "$2"; }

is_absent() { is_store_fault && [ ! -e "$1" ]; }

# The store has the one flight.
is_whole() {
    run "$1" "$work/asked"
    [ "$status" = 0 ] && [ "$(answers)" = 200 ]
}

request GET /flights/XX1-11 '' >"$work/asked"
open_flight XX1 >"$work/opening"
run good.db "$work/opening"
is_whole good.db || fail "a good store does not work: status $status."
# With sqlite3 the log is copied into the file, so that the file alone is a whole store.
! command -v sqlite3 >/dev/null || "${as[@]}" sqlite3 good.db 'PRAGMA wal_checkpoint(truncate)' >/dev/null
cp good.db "$work/good"

# A store with this content is refused, and stays.
refuses() {
    cp "$2" bad.db
    own bad.db
    chmod "${3-644}" bad.db
    run bad.db "$work/opening"
    chmod 644 bad.db
    says "$1" is_untouched bad.db "$2"
    rm -f bad.db bad.db-wal
}

echo 'this is no database' >"$work/text"
refuses 'a file that is no database' "$work/text"
if command -v sqlite3 >/dev/null; then
    head -c 6000 "$work/good" >"$work/short"
    refuses 'a database that was cut' "$work/short"
fi
refuses 'a file that may only be read' "$work/good" 444
refuses 'a file that may not be read' "$work/good" 000

run no/such/folder/flights.db "$work/opening"
says 'a folder that is not there' is_absent no

run . "$work/opening"
says 'a folder in place of the file' is_store_fault

mkdir sealed
cp "$work/good" sealed/flights.db
own sealed
chmod 555 sealed
run sealed/flights.db "$work/opening"
says 'a folder that may only be read' is_untouched sealed/flights.db "$work/good"

# A program that is running on the store until its input ends.
mkfifo "$work/never"
"${as[@]}" "$work/loadctl" desk good.db "$work/daiab.toml" <"$work/never" >"$work/held" &
holder=$!
exec 9>"$work/never"
asked=0

# Sends it a request, and waits for the answer, whose status is then the last one.
ask() {
    local tries
    "$@" >&9
    asked=$((asked + 1))
    for ((tries = 0; tries < 100; tries++)); do
        [ "$(grep -a -c 'HTTP/1.1 ' "$work/held")" -lt "$asked" ] || break
        sleep 0.1
    done
    status=$(grep -a -o 'HTTP/1.1 [0-9]*' "$work/held" | tail -n 1 | cut -c 10-)
}

is_status() { [ "$status" = "$1" ]; }

# It was answered as the keeper's failure, and no file was made at the name.
is_missed() { [ "$status" = 503 ] && [ ! -e good.db ]; }

has_flights() { [ "$(sqlite3 "$1" 'SELECT count(*) FROM flight' 2>/dev/null)" = "$2" ]; }

ask open_flight XX2
says 'a store that is running' is_status 201
says 'the same store, by another program' is_whole good.db
ask open_flight XX3
says 'the store after the other program' is_status 201
if command -v sqlite3 >/dev/null; then
    says 'sqlite3 on a store that is running' has_flights good.db 3
    "${as[@]}" sqlite3 good.db '.backup copy.db' || true
    says 'a copy of a store that is running' has_flights copy.db 3
fi
ask open_flight XX4
says 'the store after sqlite3' is_status 201
mv good.db away.db
ask open_flight XX5
says 'a store that was moved away' is_missed
cp away.db good.db
own good.db
ask open_flight XX5
says 'a copy in place of the store' is_status 503
mv away.db good.db
ask open_flight XX5
says 'the store that was moved back' is_status 201
exec 9>&-
wait "$holder" || true
holder=
says 'the store after all that' is_whole good.db

for ((n = 0; n < flights; n++)); do open_flight "XX$((1000 + n))"; done >"$work/openings"
for ((n = 0; n < flights; n++)); do request GET "/flights/XX$((1000 + n))-11" ''; done >"$work/shows"

# Each flight was opened, or refused as what the keeper failed at, and some were refused.
are_answered() {
    [ "$status" = 0 ] && [ "$(wc -l <"$work/opened")" = "$flights" ] &&
        grep -q '^503$' "$work/opened" && ! grep -q -v '^201$\|^503$' "$work/opened"
}

# Each flight whose opening was answered is in the store, and no other.
are_kept() {
    [ "$status" = 0 ] && sed 's/201/200/;s/503/404/' "$work/opened" | cmp -s - "$work/shown"
}

# Opens flights on a store until there is no more room, and shows them when there is room again, which the command makes.
fills() {
    local name=$1 store=$2
    shift 2
    run "$store" "$work/openings"
    answers >"$work/opened"
    says "$name: the answers" are_answered
    "$@"
    run "$store" "$work/shows"
    answers >"$work/shown"
    says "$name: the flights" are_kept
}

# A file that may not grow beyond so many blocks of 1,024 bytes: the log takes 256 of them at a time. A write beyond them fails
# and does not end the program.
free=("${as[@]}")
# shellcheck disable=SC2016
as+=(bash -c 'trap "" XFSZ; ulimit -f 400; exec "$@"' limited)
freed() { as=("${free[@]}"); }
fills 'a file that may not grow' limited.db freed

if [ "$(id -u)" = 0 ] && mkdir "$work/disk" && mount -t tmpfs -o size=400k tmpfs "$work/disk" 2>/dev/null; then
    disk=$work/disk
    own "$disk"
    fills 'a full disk' "$disk/flights.db" mount -o remount,size=64m "$disk"
else
    echo "bench/faults.sh: no disk in memory can be mounted here, so none is filled." >&2
fi

echo "$cases cases, $wrong of them wrong."
[ "$wrong" = 0 ]
