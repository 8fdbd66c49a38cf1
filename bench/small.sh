#!/usr/bin/env bash
# What the built program takes for the worked task: the time of a whole run, from its start to its end,
# and the most memory that it holds.
set -eu

top=$(dirname "$(dirname "$(readlink -f "$0")")")
program=$top/out/loadctl
task=$top/examples/worked.task
runs=101

if ! "$program" place "$task" >/dev/null; then
    echo "bench/small.sh: $program does not answer the worked task, so nothing is measured; ./prove builds it." >&2
    exit 1
fi

if [ -n "${EPOCHREALTIME-}" ]; then
    for _ in $(seq "$runs"); do
        from=$EPOCHREALTIME
        "$program" place "$task" >/dev/null
        to=$EPOCHREALTIME
        echo $((${to/[.,]/} - ${from/[.,]/}))
    done | sort -n | awk -v runs="$runs" '
        NR == 1 { best = $1 }
        NR == (runs + 1) / 2 { median = $1 }
        END { printf "time: best %.2f ms, median %.2f ms of %d runs\n", best / 1000, median / 1000, runs }'
else
    echo "time: not measured, since this bash has no clock of microseconds (bash 5 has one)."
fi

if [ -x /usr/bin/time ]; then
    { /usr/bin/time -f 'memory: at most %M KB resident' "$program" place "$task" >/dev/null; } 2>&1
else
    echo "memory: not measured, since GNU time is not there."
fi
