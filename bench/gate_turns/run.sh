#!/usr/bin/env bash
# How long turns take where threads want them at once: 20 runs of the test of two threads with 10,000
# turns each, and 20 of the one of four threads on two processors. Each run has 10 seconds; prints
# the shortest, the middle and the longest of each, in milliseconds, and ends with 1 where a run
# failed or took longer. Builds the tests by `rt test` where they are not there.
set -eu
root=$(cd "$(dirname "$0")/../.." && pwd)
cd "$root/crates/turn_gate"
tests=out/turn_gate_tests
[ -x "$tests" ] || rt test >/dev/null
runs=${1:-20}

run_all() { # NAME COMMAND..
    name=$1
    shift
    times=()
    for _ in $(seq "$runs"); do
        start=$(date +%s%N)
        timeout 10 "$@" >/dev/null 2>&1 || { echo "$name: a run failed or took more than 10 seconds"; exit 1; }
        times+=($((($(date +%s%N) - start) / 1000000)))
    done
    sorted=($(printf '%s\n' "${times[@]}" | sort -n))
    echo "$name: runs ${#sorted[@]}, shortest ${sorted[0]} ms, middle ${sorted[$((runs / 2))]} ms, longest ${sorted[$((runs - 1))]} ms"
}

run_all 'two threads' "$tests" tests::two_threads_lose_no_entry
run_all 'four threads on two processors' taskset -c 0,1 "$tests" tests::four_threads_lose_no_entry
