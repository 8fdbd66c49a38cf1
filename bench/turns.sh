#!/usr/bin/env bash
# What the turn lock takes: calls a second of one desk and of eight desks in threads of their own, beside the same
# machine behind a plain Mutex in Rust, in one run. Each figure is the median of the runs.
set -eu

top=$(dirname "$(dirname "$(readlink -f "$0")")")
program=${1-$top/crates/turn_bench/out/turn_bench}
runs=11

if ! command -v rustc >/dev/null; then
    echo "bench/turns.sh: rustc is not there, so there is nothing to compare with." >&2
    exit 1
fi
if ! "$program" 2 50 >/dev/null 2>&1; then
    echo "bench/turns.sh: $program does not run; rt run in crates/turn_bench proves and builds it." >&2
    exit 1
fi
peer=$(mktemp -d)
trap 'rm -r "$peer"' EXIT
rustc --edition 2021 -C opt-level=3 -o "$peer/mutex" "$top/bench/turns/mutex.rs"

# The nanoseconds that the calls of one run took.
nanoseconds() { { "$@" >/dev/null; } 2>&1; }

# The median over the runs of the calls a second.
calls_a_second() {
    local calls=$(($2 * $3))
    for _ in $(seq "$runs"); do nanoseconds "$@"; done | sort -n |
        awk -v calls="$calls" -v middle=$(((runs + 1) / 2)) 'NR == middle { printf "%d", calls * 1e9 / $1 }'
}

printf '%-8s %-12s %16s %16s %8s\n' desks 'calls each' 'turn lock, 1/s' 'Mutex, 1/s' ratio
for sizes in '1 1000000' '8 10000'; do
    read -r desks calls <<<"$sizes"
    ours=$(calls_a_second "$program" "$desks" "$calls")
    theirs=$(calls_a_second "$peer/mutex" "$desks" "$calls")
    ratio=$(awk -v a="$ours" -v b="$theirs" 'BEGIN { printf "%.4f", a / b }')
    printf '%-8d %-12d %16d %16d %8s\n' "$desks" "$calls" "$ours" "$theirs" "$ratio"
done
