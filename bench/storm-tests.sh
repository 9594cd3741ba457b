#!/bin/sh
# Runs each test of threads and of storms so many times, 200 if nothing is said, with busy processors beside them, and as many times on one
# processor. What it prints is how many of the runs failed, and its status is 1 if one did. It proves and builds the tests first.
# bench/storm-tests.sh [TIMES]           proves and builds the tests, and runs them
# bench/storm-tests.sh --built [TIMES]   runs the tests that `rt test` has built
set -eu
top=$(cd "$(dirname "$0")/.." && pwd)
crates="cam_test_threads cam_test_storm"
if [ "${1-}" = --built ]; then
    shift
else
    for crate in $crates; do
        (cd "$top/crates/$crate" && rt test)
    done
fi
times=${1:-200}
busy=
all=0
trap 'kill $busy 2>/dev/null || true' EXIT

# run_all WHAT COMMAND..: runs each test by the command so many times. A test has a minute.
run_all() {
    what=$1
    shift
    for crate in $crates; do
        tests=$top/crates/$crate/out/${crate}_tests
        failed=0
        for name in $("$tests" --list | sed -n 's/: test$//p'); do
            for _ in $(seq "$times"); do
                "$@" timeout 60 "$tests" "$name" >/dev/null 2>&1 || failed=$((failed + 1))
            done
        done
        echo "$what, $crate: $times runs of each test, $failed failed"
        all=$((all + failed))
    done
}

for _ in $(seq "$(nproc)"); do
    nice -n 19 sh -c 'while :; do :; done' &
    busy="$busy $!"
done
run_all "busy processors" nice -n 19
kill $busy
busy=
run_all "one processor" nice -n 19 taskset -c 0
[ "$all" -eq 0 ]
