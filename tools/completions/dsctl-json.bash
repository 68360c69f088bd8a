# Completions for bash, of dsctl-json, which reads standard input alone.
_dsctl_json() {
    local current=${COMP_WORDS[COMP_CWORD]}
    COMPREPLY=()
    if [[ $current == -* && $COMP_CWORD == 1 ]]; then
        COMPREPLY=($(compgen -W "--strict -h --help" -- "$current"))
    fi
}
complete -F _dsctl_json dsctl-json
