#!/usr/bin/env bash
# How many random loads of real size `best` answers, and the slowest of each kind: at an ideal band of one index unit, at one of
# a single tick, and at one index unit with a lateral limit of 500 kg. Each answer is judged by `bestcheck`. bench/loads.sh
# [PROGRAM [COUNT]] takes out/loadctl and 20 loads of each of 15 kinds by default. bench/loads.py makes the loads.
set -euo pipefail

top=$(dirname "$(dirname "$(readlink -f "$0")")")
program=$(readlink -f "${1-$top/out/loadctl}")
count=${2-20}

fail() {
    echo "bench/loads.sh: $*" >&2
    exit 1
}

[ -x "$program" ] || fail "$program is not there; ./prove proves and builds it."
command -v python3 >/dev/null || fail "python3 is not there, so no loads are made."

run() {
    echo "$1"
    shift
    python3 "$top/bench/loads.py" "$program" --count "$count" "$@"
}

run "a band of one index unit"
run "a band of one tick" --band 0
run "a lateral limit of 500 kg" --lateral 500
