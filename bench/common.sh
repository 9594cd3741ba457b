# What the scripts of this folder share: a program in a copy of the crates that it uses, in a folder that is removed at the end.
# A figure of such a script is a ratio of times of one run: the times themselves are those of one machine on one day.
# Sourced, and not run by itself.
set -e
top=$(cd "$(dirname "$0")/.." && pwd)

# make_program NAME CRATE..: makes the folder, with an empty program NAME that uses these crates and what they stand on, and goes to
# the program's folder. The folder is made in $bench_folder, where that is set.
make_program() {
    name=$1
    shift
    copy=$(mktemp -d -p "${bench_folder:-${TMPDIR:-/tmp}}")
    copy=$(cd "$copy" && pwd)
    trap 'rm -rf "$copy"' EXIT
    mkdir "$copy/crates"
    : > "$copy/crates.txt"
    copy_crates "$@"
    cd "$copy"
    rt new "crates/$name" start_io > new.log 2>&1
    rm -rf "crates/$name/BUILD.bazel" "crates/$name/proofs" "crates/$name/specs" "crates/$name/src"/*
    rm -f "crates/$name/stdin" "crates/$name/stdout"
    echo "$name: $*" >> crates.txt
    cd "crates/$name"
}

# copy_crates CRATE..: copies those of them that stand in this repository, with what they stand on.
copy_crates() {
    for crate in "$@"; do
        if [ -d "$top/crates/$crate" ] && [ ! -d "$copy/crates/$crate" ]; then
            cp -r "$top/crates/$crate" "$copy/crates/$crate"
            grep -E "^$crate( [^:]*)?:" "$top/crates.txt" >> "$copy/crates.txt"
            copy_crates $(sed -n "s/^$crate\( [^:]*\)\?: *//p" "$top/crates.txt")
        fi
    done
}
