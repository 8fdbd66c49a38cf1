#!/usr/bin/env bash
# What planning a full hold through the desk takes: for each load the instructions of `POST /flights/KEY/best/E`, those of
# the command `best` on the same task, and their ratio, of which at most 1.05 is wanted. Then how long another desk of
# `serve` takes for its requests while one plans the largest load, and how long without that.
#
# tools/full_holds makes an aircraft and a flight of each task. A run of the desk with the request, less one without it,
# is what the request takes. bench/full_holds.sh [PROGRAM [TASK ..]] takes out/loadctl and the realistic loads by default.
set -eu

top=$(dirname "$(dirname "$(readlink -f "$0")")")
# shellcheck source=/dev/null
. "$top/bench/counting.sh"
program=$(readlink -f "${1-$top/out/loadctl}")
[ $# -gt 0 ] && shift
[ $# -gt 0 ] || set -- "$top"/../shared/cases/realistic/*.task
looks=2000
key=FH1-01
edition=4

if ! [ -e "$1" ]; then
    echo "bench/full_holds.sh: the realistic loads are not there, so nothing is measured."
    exit 0
fi

room=$(mktemp -d)
server=''
trap '[ -z "$server" ] || kill "$server" 2>/dev/null || true; rm -rf "$room"' EXIT

# One request: METHOD PATH FILE, whose bytes are the body.
request() {
    printf '%s %s HTTP/1.1\r\nContent-Length: %d\r\n\r\n' "$1" "$2" "$(wc -c <"$3")"
    cat "$3"
}

# The requests that open the flight of a task.
opening() {
    local method path body
    while read -r method path body; do request "$method" "$path" "$room/$body"; done <"$room/requests"
}

# The instructions of a run on the standard input.
instructions() {
    { valgrind --tool=callgrind --callgrind-out-file=/dev/null "$program" "$@" >"$room/output" || true; } 2>&1 |
        sed -n 's/.*Collected : *//p'
}

# One row: the load, and what desk and command take.
row() {
    local without with command
    "$top/tools/full_holds" --write "$room" "$1"
    printf '{"looks":%d}' $looks >"$room/looks"
    opening >"$room/opened"
    { cat "$room/opened"; request POST "/flights/$key/best/$edition" "$room/looks"; } >"$room/planned"
    without=$(instructions desk :memory: "$room/full.toml" <"$room/opened")
    with=$(instructions desk :memory: "$room/full.toml" <"$room/planned")
    command=$(instructions best "$1" $looks)
    awk -v name="$(basename "$1" .task)" -v desk=$((with - without)) -v command="$command" \
        'BEGIN { printf "%-12s %15d %15d %6.3f\n", name, desk, command, desk / command }'
}

if command -v valgrind >/dev/null; then
    printf '%-12s %15s %15s %6s\n' load desk best ratio
    for task in "$@"; do row "$task"; done
fi

# The milliseconds of one request for the flight's row at the second desk.
milliseconds() {
    curl -s -o "$room/answer" -w '%{time_total}\n' "http://localhost:$((port + 1))/flights/$key" |
        awk '{ printf "%.2f\n", 1000 * $1 }'
}

# The median and the greatest of the numbers in a file.
spread() {
    sort -n "$1" | awk '{ a[NR] = $1 }
        END { printf "%d requests: median %.2f ms, longest %.2f ms\n", NR, a[int((NR + 1) / 2)], a[NR] }'
}

if command -v curl >/dev/null; then
    task=$top/../shared/cases/realistic/f48_full.task
    "$top/tools/full_holds" --write "$room" "$task"
    port=$((20000 + $$ % 20000))
    "$program" serve 2 $port "$room/rows" "$room/full.toml" >"$room/log" 2>&1 &
    server=$!
    for _ in $(seq 100); do
        curl -s -o "$room/answer" "http://localhost:$port/flights/$key" && break
        sleep 0.1
    done
    while read -r method path body; do
        curl -s -o "$room/answer" -X "$method" --data-binary "@$room/$body" "http://localhost:$port$path"
    done <"$room/requests"
    begun=$(date +%s%N)
    curl -s -o "$room/plan" -d "{\"looks\":$looks}" "http://localhost:$port/flights/$key/best/$edition" &
    planning=$!
    while kill -0 $planning 2>/dev/null; do milliseconds; done >"$room/during"
    wait $planning
    took=$((($(date +%s%N) - begun) / 1000000))
    while IFS= read -r _; do milliseconds; done <"$room/during" >"$room/after"
    echo "one desk: $(head -n 1 "$room/plan") after $took ms"
    echo "the other meanwhile: $(spread "$room/during")"
    echo "the other with no plan beside it: $(spread "$room/after")"
fi
