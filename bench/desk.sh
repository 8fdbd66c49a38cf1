#!/usr/bin/env bash
# What a request over one connection takes: the instructions of each kind through `loadctl desk`, from its bytes to those of
# its answer, and how many requests are answered in a second, 1,000 at a time. bench/desk.sh [PROGRAM] takes the program
# that was proved and built, out/loadctl by default.
#
# A run with twice as many requests takes what one run takes for its start and end, and twice the rest. So the difference of
# two such runs is what the requests take.
set -eu

top=$(dirname "$(dirname "$(readlink -f "$0")")")
# shellcheck source=/dev/null
. "$top/bench/counting.sh"
program=$(readlink -f "${1-$top/out/loadctl}")
aircraft=$top/examples/daiab.toml
key=XX210-12

if ! [ -x "$program" ]; then
    echo "bench/desk.sh: $program is not there; ./prove proves and builds it." >&2
    exit 1
fi

work=$(mktemp -d)
trap 'rm -rf "$work"' EXIT

# One request: METHOD PATH BODY.
request() { printf '%s %s HTTP/1.1\r\nContent-Length: %d\r\n\r\n%s' "$1" "$2" "${#3}" "$3"; }

containers=$'id,mass\nAKE10001XX,1000\nAKE10002XX,800\n'
fuel='{"taxi":200,"takeoff":9000,"trip":6000}'

# The figures of the flight, whose edition is 7 behind them.
figures() {
    request POST /flights '{"flight":"XX210","day":12,"registration":"DAIAB","origin":"FRA","destination":"ARN"}'
    request PUT "/flights/$key/dry/1" '{"mass":42000,"index":"50.00000","cockpit":2,"cabin":4}'
    request PUT "/flights/$key/fuel/2" "$fuel"
    request PUT "/flights/$key/limits/3" '{"takeoff":73500,"landing":66000}'
    request PUT "/flights/$key/cabin/4" '{"zones":[[50,4,2],[70,6,1]]}'
    request PUT "/flights/$key/containers/5" "$containers"
    request PUT "/flights/$key/loose/6" '{"bulk":[["51",200,8]]}'
}

released() {
    figures
    request POST "/flights/$key/plan/7" ''
    request POST "/flights/$key/release/7" ''
}

# So many requests of a kind, behind what they need.
requests() {
    local kind=$1 count=$2 n adults=1
    case $kind in
        fuel | containers | plan | stale) figures ;;
        *) released ;;
    esac
    for n in $(seq 0 $((count - 1))); do
        case $kind in
            row) request GET "/flights/$key" '' ;;
            sheet | ldm | cpm) request GET "/flights/$key/$kind" '' ;;
            fuel) request PUT "/flights/$key/fuel/$((7 + n))" "$fuel" ;;
            containers) request PUT "/flights/$key/containers/$((7 + n))" "$containers" ;;
            plan) request POST "/flights/$key/plan/7" '' ;;
            release) request POST "/flights/$key/release/7" '' ;;
            late)
                request POST "/flights/$key/lmc/$((7 + n))" "{\"zone\":2,\"adults\":$adults,\"children\":0,\"infants\":0}"
                adults=$((-adults))
                ;;
            again)
                request POST "/flights/$key/reopen/$((7 + n))" ''
                request POST "/flights/$key/plan/$((8 + n))" ''
                request POST "/flights/$key/release/$((8 + n))" ''
                ;;
            stale) request PUT "/flights/$key/fuel/1" "$fuel" ;;
            route) request GET "/flight" '' ;;
        esac
    done
}

# How many of these requests are answered with another status than the first figures and the kind have.
refused() {
    local wanted=200
    case $1 in
        stale) wanted=409 ;;
        route) wanted=404 ;;
    esac
    grep -a -o 'HTTP/1.1 [0-9]*' "$work/output" | grep -v -c -e ' 201' -e ' 200' -e " $wanted" || true
}

# The instructions of a run on so many requests of a kind.
instructions() {
    requests "$1" "$2" >"$work/input"
    { valgrind --tool=callgrind --callgrind-out-file=/dev/null "$program" desk :memory: "$aircraft" <"$work/input" >"$work/output"; } 2>&1 |
        sed -n 's/.*Collected : *//p'
    if [ "$(refused "$1")" != 0 ]; then
        echo "bench/desk.sh: some request of $1 was answered otherwise." >&2
        exit 1
    fi
}

# One row, from runs on 100 and 200 requests, or on so many and twice as many.
row() {
    local count=${3-100} few many
    few=$(instructions "$2" "$count")
    many=$(instructions "$2" $((2 * count)))
    printf '%-44s %9d instructions\n' "$1" $(((many - few) / count))
}

if command -v valgrind >/dev/null; then
    row 'the row of a flight' row
    row 'fuel' fuel
    row 'two containers' containers
    row 'a plan of two containers' plan
    row 'a release, again' release
    # A flight takes ten late changes at most.
    row 'a late change' late 5
    row 'opened again, planned and released' again
    row 'the loadsheet' sheet
    row 'the load message' ldm
    row 'the container message' cpm
    row 'a stale edition, refused' stale
    row 'no route, refused' route
fi

# The median time of five runs on so many rows, in nanoseconds.
nanoseconds() {
    local begun
    requests row "$1" >"$work/input"
    for _ in 1 2 3 4 5; do
        begun=$(date +%s%N)
        "$program" desk :memory: "$aircraft" <"$work/input" >"$work/output" || true
        echo $(($(date +%s%N) - begun))
    done | sort -n | sed -n 3p
}

# Nine requests come before the rows, and a connection has at most 1,000.
many=$(nanoseconds 991)
awk -v t="$many" 'BEGIN { printf "1,000 requests on one connection: %.0f for each second, the start of the program included\n", 1000 / (t / 1e9) }'
