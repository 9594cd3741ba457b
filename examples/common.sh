# What check and rewrite share: each example is run once, on the proved program or on one quick build.

camelot=$here/../camelot
program=$here/../crates/cam_cli

# whether the proved program is there and not older than its sources
is_proved() {
    "$camelot" --is-proved
}

# the examples, each as FOLDER/NAME. Those of several commands need the proved program: a quick build takes one command, and keeps no file.
examples() {
    commands=
    ! is_proved || commands='*.commands'
    (cd "$here" && find . -name '*.cam' -o -name '*.make' -o -name "$commands") | sed 's|^\./||; s|\.[a-z]*$||' | LC_ALL=C sort
}

# the name of an example in one folder with all others
flat() {
    echo "$1" | sed 's|/|--|g'
}

# the script of an example, which stands in a file or is written by a command
script_of() {
    if [ -f "$here/$1.cam" ]; then cat "$here/$1.cam"; else sh "$here/$1.make"; fi
}

# the words of an example, which are split at blanks
words_of() {
    if [ -f "$here/$1.words" ]; then cat "$here/$1.words"; else echo run; fi
}

# run_commands EXAMPLE FOLDER   runs the commands of an example in a new folder, which has the program and the examples as the top folder has
run_commands() {
    mkdir "$2"
    ln -s "$here" "$2/examples"
    printf '#!/bin/sh\nexec "%s" "$@"\n' "$camelot" >"$2/camelot"
    chmod +x "$2/camelot"
    (cd "$2" && sh "examples/$1.commands")
}

# run_examples ROOM   leaves NAME.text and NAME.status of each example in the folder ROOM, with NAME as `flat` has it
run_examples() {
    if is_proved; then
        for example in $(examples); do
            name=$(flat "$example")
            status=0
            if [ -f "$here/$example.commands" ]; then
                run_commands "$example" "$1/$name" >"$1/$name.text" 2>/dev/null || status=$?
            else
                script_of "$example" >"$1/$name"
                # shellcheck disable=SC2046
                "$camelot" $(words_of "$example") <"$1/$name" >"$1/$name.text" 2>/dev/null || status=$?
            fi
            echo $status >"$1/$name.status"
        done
        return
    fi
    command -v rt >/dev/null 2>&1 || PATH=$PATH:/opt/rattle/bin
    echo "no proved program is there: all examples run on one quick build, in two or three minutes" >&2
    mkdir "$1/cases"
    for example in $(examples); do
        name=$(flat "$example")
        script_of "$example" >"$1/cases/$name"
        # shellcheck disable=SC2046
        printf '%s\n' $(words_of "$example") >"$1/cases/$name.args"
        # Where no text is expected yet, the kit prints the one that comes under `== NAME`.
        : >"$1/$name.text"
    done
    (cd "$program" && rt try --cases "$1/cases") >"$1/told.text" 2>"$1/told" || true
    if ! grep -q '^cases=' "$1/told"; then
        cat "$1/told" >&2
        exit 1
    fi
    awk -v room="$1" '/^== / { out = room "/" $2 ".text"; next } { print > out }' "$1/told.text"
    sed -n 's/^case=\([^ ]*\) run=[a-z-]* status=\([0-9]*\) .*/\1 \2/p' "$1/told" |
        while read -r name status; do echo "$status" >"$1/$name.status"; done
}
