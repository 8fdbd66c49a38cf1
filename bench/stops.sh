#!/usr/bin/env bash
# What a prefix takes of a search over two sectors, beside one of `place`: the instructions for each prefix of `place`
# on a load, those of `stops` on the same load over two sectors, and how many times `place` that is for each sector. At
# most 1.6 is wanted.
#
# Every second container leaves after the first sector. The second task is the first without these, with a window that
# any hold index meets, and nothing is behind anything. So both searches go on, and look at as many prefixes as the
# budget allows: the difference of a run with a budget of 500 and one of 1 is what the other prefixes take. Loads that
# either search answers within 500 are left out. bench/stops.sh [PROGRAM [TASK ..]] takes out/loadctl and the realistic
# loads by default.
set -eu

top=$(dirname "$(dirname "$(readlink -f "$0")")")
# shellcheck source=/dev/null
. "$top/bench/counting.sh"
program=$(readlink -f "${1-$top/out/loadctl}")
[ $# -gt 0 ] && shift
[ $# -gt 0 ] || set -- "$top"/../shared/cases/realistic/*.task
budget=500

if ! command -v valgrind >/dev/null; then
    echo "bench/stops.sh: valgrind is not there, so nothing is measured."
    exit 0
fi
if ! [ -e "$1" ]; then
    echo "bench/stops.sh: the realistic loads are not there, so nothing is measured."
    exit 0
fi
if ! "$program" stops "$top/examples/two_sectors.stops" >/dev/null; then
    echo "bench/stops.sh: $program does not answer examples/two_sectors.stops, so nothing is measured; ./prove builds it." >&2
    exit 1
fi

room=$(mktemp -d)
trap 'rm -rf "$room"' EXIT

# The load of a task over two sectors.
over_two_sectors() {
    awk '
        { line[NR] = $0 }
        $1 == "item" { stays[NR] = ++items % 2; leave[items] = "leave " $2 " " 1 + stays[NR] }
        END {
            print "STOPS 1"
            for (item = 1; item <= items; item++) print leave[item]
            for (at = 1; at <= NR; at++) print line[at]
            for (at = 1; at <= NR; at++) {
                if (line[at] ~ /^window /) print "window -10000.00000 10000.00000"
                else if (line[at] !~ /^item / || stays[at]) print line[at]
            }
        }' "$1"
}

# Whether the search spends the budget.
is_spent() { "$program" "$@" "$budget" | grep -q '^BUDGET '; }

# The instructions of a run.
instructions() {
    { valgrind --tool=callgrind --callgrind-out-file=/dev/null "$program" "$@" >/dev/null || true; } 2>&1 |
        sed -n 's/.*Collected : *//p'
}

# The instructions for each prefix.
each() { echo $((($(instructions "$@" "$budget") - $(instructions "$@" 1)) / (budget - 1))); }

printf '%-14s %12s %12s %24s\n' load place stops 'each sector, times place'
for task in "$@"; do
    load=$room/load.stops
    over_two_sectors "$task" >"$load"
    is_spent place "$task" || continue
    is_spent stops "$load" || continue
    placed=$(each place "$task")
    stopped=$(each stops "$load")
    printf '%-14s %12d %12d %24s\n' "$(basename "$task" .task)" "$placed" "$stopped" \
        "$(awk -v placed="$placed" -v stopped="$stopped" 'BEGIN { printf "%.2f", stopped / placed / 2 }')"
done
