#!/usr/bin/env bash
# What the search takes: for each task the first line of the answer, the instructions of the whole run, and the
# instructions for each near prefix.
#
# The least budget that is answered is the number of near prefixes; where the usual budget is spent, that is the number
# that the search looked at. A run with a budget of 1 reads the same task and looks at one prefix, so what it takes is
# taken off before the rest is shared out among the other prefixes. With --growth the largest of the tasks is searched
# with budgets of 500, 5,000 and 50,000, and the memory that each takes is shown.
set -eu

top=$(dirname "$(dirname "$(readlink -f "$0")")")
# shellcheck source=/dev/null
. "$top/bench/counting.sh"
growth=no
if [ "${1-}" = --growth ]; then
    growth=yes
    shift
fi
program=${1-$top/out/loadctl}
usual=20000

if ! command -v valgrind >/dev/null; then
    echo "bench/search.sh: valgrind is not there, so nothing is measured."
    exit 0
fi

# The first line of the answer.
first_line() { "$program" place "$1" "$2" | head -n 1; }

# Whether the search answers within the budget.
is_answered() { ! first_line "$1" "$2" | grep -q '^BUDGET '; }

# How many prefixes are near, or were looked at; none where the task is refused.
prefixes() {
    local low=0 high=$usual middle
    case $(first_line "$1" "$usual") in
        BUDGET*) echo "$usual" && return ;;
        INPUT*) echo 0 && return ;;
    esac
    while [ $((high - low)) -gt 1 ]; do
        middle=$(((low + high) / 2))
        if is_answered "$1" "$middle"; then high=$middle; else low=$middle; fi
    done
    echo "$high"
}

# The instructions of a run.
instructions() {
    { valgrind --tool=callgrind --callgrind-out-file=/dev/null "$program" place "$1" "$2" >/dev/null || true; } 2>&1 |
        sed -n 's/.*Collected : *//p'
}

if ! "$program" place "$top/examples/worked.task" >/dev/null; then
    echo "bench/search.sh: $program does not answer the worked task, so nothing is measured; ./prove builds it." >&2
    exit 1
fi

# The most memory that a run holds, in kilobytes.
resident() { /usr/bin/env time -f '%M' "$program" "$@" 2>&1 >/dev/null | tail -n 1; }

if [ "$growth" = yes ]; then
    largest=$top/../shared/cases/realistic/f48_full.task
    if [ ! -e "$largest" ]; then
        echo "bench/search.sh: the largest of the tasks is not there, so nothing is measured."
        exit 0
    fi
    first=$(instructions "$largest" 1)
    printf '%-10s %14s %12s %12s\n' budget instructions 'each prefix' kilobytes
    for budget in 500 5000 50000; do
        all=$(instructions "$largest" "$budget")
        printf '%-10s %14d %12d %12s\n' "$budget" "$all" $(((all - first) / (budget - 1))) "$(resident place "$largest" "$budget")"
    done
    printf '%-10s %14s %12s %12s\n' 'gen 0' - - "$(resident gen 0)"
    exit 0
fi

printf '%-28s %-14s %14s %9s %12s\n' task answer instructions prefixes 'each prefix'
for task in "$top"/examples/*.task "$top"/../shared/cases/realistic/*.task; do
    [ -e "$task" ] || continue
    looked=$(prefixes "$task")
    all=$(instructions "$task" "$usual")
    each=-
    if [ "$looked" -gt 1 ]; then each=$(((all - $(instructions "$task" 1)) / (looked - 1))); fi
    printf '%-28s %-14s %14d %9d %12s\n' "$(basename "$task" .task)" "$(first_line "$task" "$usual")" "$all" "$looked" "$each"
done
