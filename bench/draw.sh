#!/bin/sh
# How long the picture of a run takes, beside the trace of the same script: of 128, 256 and 512 steps, of which the last is the largest that there
# is. Each time is the least of 20 runs of the whole program. It wants the proved programs, or those that CAMELOT and CAMSCOPE name.
set -eu
top=$(CDPATH='' cd -- "$(dirname -- "$0")/.." && pwd)
camelot=${CAMELOT:-$top/camelot}
camscope=${CAMSCOPE:-$top/camscope}
room=$(mktemp -d)
trap 'rm -rf "$room"' EXIT

# a script of at most so many steps: top actions that add at two nodes and commit
script() {
    echo "nodes 4"
    echo "object x 2 counter 0"
    echo "object y 3 counter 0"
    awk -v last=$(($1 / 6)) 'BEGIN { for (k = 1; k <= last; k++)
        printf "begin T%d 1\ncall T%d x add 1\ndrain\ncall T%d y add 1\ndrain\ncommit T%d 0\n", k, k, k, k; print "drain" }'
}

# the least time of 20 runs of these words, in microseconds
least() {
    best=
    for _ in 1 2 3 4 5 6 7 8 9 10 11 12 13 14 15 16 17 18 19 20; do
        began=$(date +%s%N)
        "$@" <"$room/script" >"$room/text"
        took=$((($(date +%s%N) - began) / 1000))
        if [ -z "$best" ] || [ "$took" -lt "$best" ]; then best=$took; fi
    done
    echo "$best"
}

for steps in 128 256 512; do
    script $((steps - 1)) >"$room/script"
    trace=$(least "$camelot" trace)
    draw=$(least "$camscope" draw)
    events=$(grep -c '^<g class="event' "$room/text")
    lit=$(least "$camscope" draw --action T1)
    echo "$events events: traced in $trace us; drawn in $draw us, $((100 * draw / trace)) hundredths of that; with an action lit $lit us"
done
