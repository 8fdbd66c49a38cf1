#!/usr/bin/env bash
# Kills the program at random moments while it takes changes of three flights into a store, and looks after each kill that
# every edition that it had acknowledged is in the store. bench/kills.sh [PROGRAM [ROUNDS]] takes the program that was
# proved and built, out/loadctl by default, and 200 rounds. It ends with the number of rounds and of losses, and with
# status 1 where an edition was lost.
#
# A round starts one program and kills that one, by its process id, at a moment within the time that a whole run takes. The
# changes of a flight are sent in the order of their editions, so after a kill at most one edition is in the store whose
# answer did not come. The trip fuel of an edition follows from its number, which shows that a row belongs to its edition. Where
# sqlite3 is there, a reader opens the store all the time, counts its flights and closes it.
set -eu

top=$(dirname "$(dirname "$(readlink -f "$0")")")
program=$(readlink -f "${1-$top/out/loadctl}")
rounds=${2-200}
aircraft=$top/examples/daiab.toml
days=(11 12 13)
flights=${#days[@]}
# The changes of each flight in a round.
changes=20

fail() {
    echo "bench/kills.sh: $*" >&2
    exit 1
}

[ -x "$program" ] || fail "$program is not there; ./prove proves and builds it."
case $rounds in
    '' | *[!0-9]*) fail "the number of rounds is not a number." ;;
esac
[ "$rounds" -le 1000 ] || fail "there are at most 1,000 rounds."

work=$(mktemp -d)
running=
reader=
end_reader() {
    rm -f "$work/reading"
    [ -z "$reader" ] || wait "$reader" 2>/dev/null || true
    reader=
}
stop() {
    [ -z "$running" ] || kill -KILL "$running" 2>/dev/null || true
    end_reader
    rm -rf "$work"
}
trap stop EXIT
store=$work/flights.db

# One request: METHOD PATH BODY.
request() { printf '%s %s HTTP/1.1\r\nContent-Length: %d\r\n\r\n%s' "$1" "$2" "${#3}" "$3"; }

trip_of() { echo $((1 + $1 % 9000)); }

# One run of the program to its end.
run() {
    timeout 60 "$program" desk "$store" "$aircraft" <"$work/input" >"$work/output" || fail "the program ended with $?."
}

# The edition and the trip fuel of each flight, as a program that opens the store has them: a line for each flight.
for day in "${days[@]}"; do request GET "/flights/XX210-$day" ''; done >"$work/rows_asked"
kept() {
    cp "$work/rows_asked" "$work/input"
    run
    awk '/^edition /{ edition = $2 } /^fuel /{ trip = $4 } /^END/{ print edition, trip }' "$work/output"
}

for day in "${days[@]}"; do
    request POST /flights "{\"flight\":\"XX210\",\"day\":$day,\"registration\":\"DAIAB\",\"origin\":\"FRA\",\"destination\":\"ARN\"}"
done >"$work/input"
run
[ "$(grep -a -o 'HTTP/1.1 201' "$work/output" | wc -l)" = "$flights" ] || fail "the flights are not opened."

# The changes of each flight that follow the editions.
ask_changes() {
    local n f edition
    for ((n = 0; n < changes; n++)); do
        for ((f = 0; f < flights; f++)); do
            edition=$((editions[f] + n))
            request PUT "/flights/XX210-${days[f]}/fuel/$edition" \
                "{\"taxi\":200,\"takeoff\":9000,\"trip\":$((1 + (edition + 1) % 9000))}"
        done
    done >"$work/input"
}

# A whole run, and how many milliseconds it takes.
editions=(1 1 1)
ask_changes
begun=$(date +%s%N)
run
whole=$((($(date +%s%N) - begun) / 1000000 + 1))

acknowledged=()
for ((f = 0; f < flights; f++)); do acknowledged[f]=$((1 + changes)); done
answers=0
unanswered=0
killed=0
losses=0

# loses EDITIONS WHAT: so many acknowledged editions are not there.
loses() {
    losses=$((losses + $1))
    echo "bench/kills.sh: round $round: $2" >&2
}

# What the last round acknowledged is there, and at most one edition more.
look() {
    local f edition trip more=0 lines
    editions=()
    kept >"$work/kept"
    mapfile -t lines <"$work/kept"
    [ "${#lines[@]}" = "$flights" ] || fail "round $round: ${#lines[@]} flights are in the store."
    for ((f = 0; f < flights; f++)); do
        read -r edition trip <<<"${lines[f]}"
        if [ "$edition" -lt "${acknowledged[f]}" ]; then
            loses $((acknowledged[f] - edition)) \
                "edition ${acknowledged[f]} of flight $((f + 1)) was acknowledged, and $edition is in the store."
        else
            more=$((more + edition - acknowledged[f]))
        fi
        [ "$edition" = 1 ] || [ "$trip" = "$(trip_of "$edition")" ] ||
            loses 1 "edition $edition of flight $((f + 1)) has the trip fuel $trip."
        editions[f]=$edition
    done
    [ "$more" -le 1 ] || fail "round $round: $more editions are in the store that no answer names."
    unanswered=$((unanswered + more))
}

# Starts the program on the changes, and kills it at a random moment.
kill_one() {
    local moment ended=0
    "$program" desk "$store" "$aircraft" <"$work/input" >"$work/output" &
    running=$!
    moment=$((RANDOM % whole))
    sleep "$((moment / 1000)).$(printf '%03d' $((moment % 1000)))"
    kill -KILL "$running" 2>/dev/null || true
    wait "$running" 2>/dev/null || ended=$?
    running=
    [ "$ended" != 137 ] || killed=$((killed + 1))
}

# Reads the store until it is told to end. A read that meets the program is told that the store is locked; another one that does
# not see each flight went wrong.
read_on() {
    local count reads=0 locked=0
    while [ -e "$work/reading" ]; do
        if count=$(sqlite3 -readonly "$store" 'SELECT count(*) FROM flight' 2>&1); then
            [ "$count" = "$flights" ] || echo "$count" >>"$work/misread"
            reads=$((reads + 1))
        else
            case $count in
                *locked*) locked=$((locked + 1)) ;;
                *) echo "$count" >>"$work/misread" ;;
            esac
        fi
        echo "$reads reads, and $locked that met the program" >"$work/reads"
    done
}
if command -v sqlite3 >/dev/null; then
    touch "$work/reading"
    read_on &
    reader=$!
fi

round=0
look
while [ "$round" -lt "$rounds" ]; do
    round=$((round + 1))
    ask_changes
    kill_one
    ! grep -a -o 'HTTP/1.1 [0-9][0-9][0-9]' "$work/output" | grep -q -v ' 200$' ||
        fail "round $round: a change was refused."
    answered=$(grep -a -o '{"edition":[0-9]*}' "$work/output" | wc -l)
    answers=$((answers + answered))
    # The answers go from flight to flight.
    for ((f = 0; f < flights; f++)); do
        acknowledged[f]=$((editions[f] + (answered + flights - 1 - f) / flights))
    done
    look
done

end_reader
if command -v sqlite3 >/dev/null; then
    [ ! -e "$work/misread" ] || fail "a reader went wrong: $(head -n 3 "$work/misread")"
    echo "A reader beside the program: $(cat "$work/reads")."
    [ "$(sqlite3 "$store" 'pragma integrity_check')" = ok ] || fail "sqlite3 finds the store damaged."
fi
echo "$rounds rounds, $killed of them killed before their end: $answers editions were acknowledged, $losses of them were lost; $unanswered were kept whose answer had not come."
[ "$losses" = 0 ]
