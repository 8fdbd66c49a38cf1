#!/usr/bin/env bash
# What hearing takes: the instructions for each byte of a head of 200 bytes and of 8,192, and for each byte of a body of
# 16,384. The program of crates/wire_echo, which answers requests with their own bodies, is proved and built, and reads
# requests that follow one another without a pause.
#
# A run with twice as many requests takes what one run takes for its start and end, and twice the rest. So the
# difference of two such runs is what the requests take.
set -eu

top=$(dirname "$(dirname "$(readlink -f "$0")")")
# shellcheck source=/dev/null
. "$top/bench/counting.sh"
count=200

if ! command -v valgrind >/dev/null; then
    echo "bench/wire.sh: valgrind is not there, so nothing is measured."
    exit 0
fi

if ! (cd "$top/crates/wire_echo" && rt run </dev/null) >/dev/null 2>&1; then
    echo "bench/wire.sh: crates/wire_echo is not proved, so nothing is measured." >&2
    exit 1
fi
program=$top/crates/wire_echo/out/wire_echo

work=$(mktemp -d)
trap 'rm -rf "$work"' EXIT

# So many bytes.
filler() { head -c "$1" /dev/zero | tr '\0' a; }

# A head of so many bytes in fields of 150, which states a body of so many.
head_of() {
    local left
    printf -v text 'PUT /flights/XX210-12/dry/1 HTTP/1.1\r\nContent-Length: %d\r\n' "$2"
    left=$(($1 - ${#text} - 2))
    while [ "$left" -gt 300 ]; do
        printf -v text '%sX-Field: %s\r\n' "$text" "$(filler 139)"
        left=$((left - 150))
    done
    printf '%sX-Field: %s\r\n\r\n' "$text" "$(filler $((left - 11)))"
}

# So many requests with such a head and body.
requests() {
    head_of "$2" "$3" >"$work/request"
    filler "$3" >>"$work/request"
    for _ in $(seq "$1"); do cat "$work/request"; done
}

# The instructions of a run on such requests.
instructions() {
    requests "$@" >"$work/input"
    { valgrind --tool=callgrind --callgrind-out-file=/dev/null "$program" <"$work/input" >"$work/output"; } 2>&1 |
        sed -n 's/.*Collected : *//p'
    if [ "$(grep -a -o 'HTTP/1.1 200 OK' "$work/output" | wc -l)" != "$1" ]; then
        echo "bench/wire.sh: some request was not answered." >&2
        exit 1
    fi
}

# The instructions of one request with such a head and body.
each() { echo $((($(instructions $((2 * count)) "$1" "$2") - $(instructions "$count" "$1" "$2")) / count)); }

small=$(each 200 0)
large=$(each 8192 0)
body=$(each 200 16384)
row() { awk -v name="$1" -v n="$2" -v bytes="$3" 'BEGIN { printf "%-36s %9d  %6.2f for each byte\n", name, n, n / bytes }'; }
row 'a request with a head of 200 bytes' "$small" 200
row 'a request with a head of 8,192 bytes' "$large" 8192
row 'a body of 16,384 bytes, beside these' $((body - small)) 16384
