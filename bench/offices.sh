#!/usr/bin/env bash
# What a request takes of an office: the instructions of each kind, with 1, 100 and 2,000 flights and with 10 and 2,000 entries
# in the history. The program of crates/office_bench, proved and built, starts an office on kept flights, fills the history, and then
# makes rounds of requests.
#
# A run with more rounds takes what one with fewer takes, and the rounds between. So the difference of two runs is what these
# rounds take, and the difference of a kind and the one before it is what the last request of a round takes. The program's own
# part is in it: the key's text, and with a plan the check of its certificate.
#
# In one of the first rounds the C library puts together the memory that the start gave back, which takes the longer the more
# flights there are. So the first round is left out where there are more, and a departure is taken from the 21st to the 100th.
# The others are about the first flight, in which a late change has room for 20 passengers.
set -eu

top=$(dirname "$(dirname "$(readlink -f "$0")")")
# shellcheck source=/dev/null
. "$top/bench/counting.sh"
program=${1-$top/crates/office_bench/out/office_bench}
aircraft=$top/examples/daiab.toml

if ! command -v valgrind >/dev/null; then
    echo "bench/offices.sh: valgrind is not there, so nothing is measured."
    exit 0
fi
if ! "$program" show 1 1 1 "$aircraft" >/dev/null 2>&1; then
    echo "bench/offices.sh: $program does not run; rt run in crates/office_bench proves and builds it." >&2
    exit 1
fi

# The instructions of a run: its kind, flights, entries and rounds.
instructions() {
    local said
    said=$(mktemp)
    { valgrind --tool=callgrind --callgrind-out-file=/dev/null "$program" "$@" "$aircraft" >"$said"; } 2>&1 |
        sed -n 's/.*Collected : *//p'
    if [ "$(cat "$said")" != "$4 of $4 rounds" ]; then
        echo "bench/offices.sh: $* was answered otherwise: $(cat "$said")" >&2
        exit 1
    fi
    rm "$said"
}

# What a round of this kind takes with so many flights and entries, of the rounds behind so many up to so many.
round() {
    local first all
    first=$(instructions "$1" "$2" "$3" "$4")
    all=$(instructions "$1" "$2" "$3" "$5")
    echo $(((all - first) / ($5 - $4)))
}

printf '%-8s %-8s' flights entries
printf ' %9s' show set take plan install release late reopen depart
printf '\n'
for flights in 1 100 2000; do
    few=$((flights < 20 ? flights : 20))
    many=$((flights < 100 ? flights : 100))
    behind=$((many - few))
    behind=$((behind < 20 ? behind : 20))
    early=$((few > 1))
    for entries in 10 2000; do
        show=$(round show "$flights" "$entries" "$early" "$few")
        set=$(round set "$flights" "$entries" "$early" "$few")
        take=$(round take "$flights" "$entries" "$early" "$few")
        plan=$(round plan "$flights" "$entries" "$early" "$few")
        install=$(round install "$flights" "$entries" "$early" "$few")
        release=$(round release "$flights" "$entries" "$early" "$few")
        late=$(round late "$flights" "$entries" "$early" "$few")
        reopen=$(round reopen "$flights" "$entries" "$early" "$few")
        released=$(round release "$flights" "$entries" "$behind" "$many")
        departed=$(round depart "$flights" "$entries" "$behind" "$many")
        printf '%-8d %-8d' "$flights" "$entries"
        printf ' %9d' "$show" "$set" $((take - set)) $((plan - take)) $((install - plan)) $((release - install)) $((late - release)) \
            $((reopen - release)) $((departed - released))
        printf '\n'
    done
done
