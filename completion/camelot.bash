# camelot.bash   completes the words of camelot and camscope in bash; the launcher says which words may come
_camelot() {
    local before=${COMP_LINE:0:COMP_POINT}
    COMPREPLY=()
    # Behind <, --page and --try comes the name of a file.
    if [[ $before =~ \<[[:space:]]*([^[:space:]]*)$ || (${COMP_WORDS[1]} == --@(page|try) && $before =~ --(page|try).*[[:space:]]([^[:space:]]*)$) ]]; then
        compopt -o filenames 2>/dev/null
        mapfile -t COMPREPLY < <(compgen -f -- "${BASH_REMATCH[-1]}")
        return
    fi
    mapfile -t COMPREPLY < <("${COMP_WORDS[0]}" --complete "$before" "$COMP_LINE" 2>/dev/null | cut -f 1)
}
complete -F _camelot camelot
complete -o default -F _camelot camscope
