#!/usr/bin/env bash
# What judging a certificate takes: for each task that has a plan or none within the usual budget, the instructions of
# making its certificate and of judging it; and what reading a certificate of many cuts takes, for each byte of its text,
# and how much memory it holds.
set -eu

top=$(dirname "$(dirname "$(readlink -f "$0")")")
# shellcheck source=/dev/null
. "$top/bench/counting.sh"
program=${1-$top/out/loadctl}
room=$(mktemp -d)
trap 'rm -rf "$room"' EXIT

if ! command -v valgrind >/dev/null; then
    echo "bench/check.sh: valgrind is not there, so nothing is measured."
    exit 0
fi

# The instructions of a run.
instructions() {
    { valgrind --tool=callgrind --callgrind-out-file=/dev/null "$program" "$@" >/dev/null || true; } 2>&1 |
        sed -n 's/.*Collected : *//p'
}

printf '%-28s %14s %14s %10s\n' task place check verdict
for task in "$top"/examples/*.task "$top"/../shared/cases/realistic/*.task; do
    [ -e "$task" ] || continue
    "$program" place "$task" >"$room/answer" || true
    if head -n 1 "$room/answer" | grep -q '^BUDGET '; then continue; fi
    printf '%-28s %14d %14d %10s\n' "$(basename "$task" .task)" "$(instructions place "$task")" \
        "$(instructions check "$task" "$room/answer")" "$("$program" check "$task" "$room/answer" | tr ' ' -)"
done

# A certificate of many cuts, each of 12 positions in an order of its own. It is read whole before it is rejected.
many() {
    awk -v cuts="$1" 'BEGIN {
        print "CERTIFICATE 1"; print "none"
        for (i = 0; i < cuts; i++) {
            line = "cut"
            for (j = 0; j < 12; j++) { n = (i * 7 + j * 11) % 64; line = line sprintf(" %s%02d", n < 28 ? "F" : "A", n < 28 ? n + 1 : n - 27) }
            print line
        }
        print "expanded 0"; print "END"
    }'
}

# A task with 64 positions.
{
    echo 'TASK 1'
    for n in $(seq 1 28); do printf 'position F%02d 1 -400 AKE 1600\n' "$n"; done
    for n in $(seq 1 36); do printf 'position A%02d 4 400 AKE 1600\n' "$n"; done
    printf 'item AKE%dXX 1000\n' $(seq 10001 10012)
    printf 'base 50.00000\nwindow -1000.00000 1000.00000\nideal 44.00000 56.00000\nEND\n'
} >"$room/task"
many 1 >"$room/one"
many 50000 >"$room/some"
many 1000000 >"$room/many"
bytes=$(($(stat -c %s "$room/some") - $(stat -c %s "$room/one")))
read_one=$(instructions check "$room/task" "$room/one")
read_some=$(instructions check "$room/task" "$room/some")
printf '\n50,000 cuts: %d.%02d instructions for each byte\n' $(((read_some - read_one) / bytes)) $(((read_some - read_one) * 100 / bytes % 100))
printf '1,000,000 cuts: %d kilobytes of text, %s kilobytes resident, %s\n' $(($(stat -c %s "$room/many") / 1024)) \
    "$(/usr/bin/env time -f '%M' "$program" check "$room/task" "$room/many" 2>&1 >/dev/null | tail -n 1)" \
    "$("$program" check "$room/task" "$room/many" || true)"
