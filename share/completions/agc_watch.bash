# Completes the words of agc and agc_watch in bash. Those of agc_watch come from its own help.
_agc() {
    COMPREPLY=()
    ((COMP_CWORD > 1)) || mapfile -t COMPREPLY < <(compgen -W 'script serial threads' -- "$2")
}
_agc_watch() {
    local command=() words=
    ((COMP_CWORD == 1)) || command=("${COMP_WORDS[1]}")
    case $COMP_CWORD:${command[0]}:$2 in
        *:help:-*) ;;
        *:-*) words=$("$1" "${command[@]}" --help | sed -n 's/^ *\(-[a-zA-Z], \)\?\(--[a-z]*\) .*/\2/p') ;;
        1:* | 2:help:*) words=$("$1" --help | sed -n '/^Commands:/,/^$/s/^  \([a-z]*\) .*/\1/p') ;;
        2:sweep:*) words='steal sets seconds seed' ;;
    esac
    mapfile -t COMPREPLY < <(compgen -W "$words" -- "$2")
}
complete -o default -F _agc agc
complete -o default -F _agc_watch agc_watch
