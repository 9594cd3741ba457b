#!/bin/sh
# How long the first proof of the program takes, from nothing: by one `rt run` in its crate, and by `camelot --prove`, crate beside crate.
#
# bench/first-proof.sh [PROCESSORS]     with so many processors, else with all; it wants the machine for itself, and an hour or two
#
# Each is made in a new clone of HEAD, by a kit of its own, whose commands are copied and whose other files are linked: the kit keeps beside its
# folder what it has proved in any checkout.
set -eu

top=$(CDPATH='' cd -- "$(dirname -- "$0")/.." && pwd)
processors=${1:-$(nproc)}
kit=$(dirname -- "$(rt doc)")
room=$(mktemp -d)
trap 'rm -rf "$room"' EXIT

# measure NAME COMMAND..   runs a command in a new clone, beside a new copy of the kit, and writes how long it took
measure() {
    name=$1
    shift
    mkdir -p "$room/$name/kit"
    for it in "$kit"/*; do
        case $it in */bin) cp -a "$it" "$room/$name/kit" ;; *) ln -s "$it" "$room/$name/kit" ;; esac
    done
    git clone -q "$top" "$room/$name/top"
    began=$(date +%s)
    (cd "$room/$name/top" && export PATH="$room/$name/kit/bin:$PATH" RT_JOBS="$processors" &&
        taskset -c "0-$((processors - 1))" "$@") >"$room/$name/told" 2>&1 || { tail -n 20 "$room/$name/told" && exit 1; }
    seconds=$(($(date +%s) - began))
    printf '%-30s %2d processors  %4d:%02d minutes\n' "$name" "$processors" $((seconds / 60)) $((seconds % 60))
    rm -rf "${room:?}/$name"
}

measure one-rt-run sh -c 'cd crates/cam_cli && echo "nodes 1" | rt run -- run'
measure crate-beside-crate ./camelot --prove
echo "commit $(git -C "$top" rev-parse --short HEAD), $(rt version)"
