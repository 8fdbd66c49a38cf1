#!/usr/bin/env bash
# What `best` takes: for each task its answer, how many leaves the trees of its certificate have, the certificate's bytes, the best
# time of five whole runs, and the instructions under valgrind; beside them those of `place` with its usual budget, and of
# another program where OTHER names one, which is given the task alone. bench/best.sh PROGRAM TASK .. takes out/loadctl and the
# examples by default.
set -eu

top=$(dirname "$(dirname "$(readlink -f "$0")")")
# shellcheck source=/dev/null
. "$top/bench/counting.sh"
program=$(readlink -f "${1-$top/out/loadctl}")
[ $# -gt 0 ] && shift
[ $# -gt 0 ] || set -- "$top"/examples/*.task

if ! [ -x "$program" ]; then
    echo "bench/best.sh: $program is not there; ./prove proves and builds it." >&2
    exit 1
fi

work=$(mktemp -d)
trap 'rm -rf "$work"' EXIT

# The best time of five whole runs, in milliseconds.
milliseconds() {
    local begun best=0 took
    for _ in 1 2 3 4 5; do
        begun=$(date +%s%N)
        "$@" >"$work/answer" || true
        took=$(($(date +%s%N) - begun))
        if [ "$best" = 0 ] || [ "$took" -lt "$best" ]; then best=$took; fi
    done
    echo $(((best + 500000) / 1000000))
}

# The instructions of a run, or a dash where valgrind is not there.
instructions() {
    if ! command -v valgrind >/dev/null; then
        echo -
        return
    fi
    { valgrind --tool=callgrind --callgrind-out-file=/dev/null "$@" >"$work/other" || true; } 2>&1 | sed -n 's/.*Collected : *//p'
}

printf '%-22s %-10s %6s %8s %5s %12s | %-7s %5s %12s' task best leaves bytes ms instructions place ms instructions
[ -z "${OTHER-}" ] || printf ' | %12s' other
printf '\n'
for task in "$@"; do
    placed=$(milliseconds "$program" place "$task")
    by_place=$(head -n 1 "$work/answer" | cut -d' ' -f1)
    best=$(milliseconds "$program" best "$task")
    answer=$(head -n 1 "$work/answer" | cut -d' ' -f1)
    leaves=$(grep -c -e '^leaf ' -e '^residue$' "$work/answer" || true)
    bytes=$(sed -n '/^CERTIFICATE/,$p' "$work/answer" | wc -c)
    printf '%-22s %-10s %6d %8d %5d %12s | %-7s %5d %12s' "$(basename "$task" .task)" "$answer" "$leaves" "$bytes" "$best" \
        "$(instructions "$program" best "$task")" "$by_place" "$placed" "$(instructions "$program" place "$task")"
    # OTHER may have arguments.
    # shellcheck disable=SC2086
    [ -z "${OTHER-}" ] || printf ' | %12s' "$(instructions $OTHER "$task")"
    printf '\n'
done
