# camelot.fish   completes the words of camelot and camscope in fish; the launcher says which words may come
function __camelot_words
    set -l command (commandline -opc)[1]
    $command --complete (commandline -pc | string collect) (commandline -p | string collect) 2>/dev/null
end
complete -c camelot -f -a '(__camelot_words)'
complete -c camelot -n 'string match -qr -- " --(page|try) " (commandline -pc)' -F
complete -c camscope -f -a '(__camelot_words)'
complete -c camscope -n 'not string match -qr -- " (--action|--stop) [^ ]*\$" (commandline -pc)' -F
