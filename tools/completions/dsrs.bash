# Completions for bash, of dsrs and dsask.
_dsrs() {
    local current=${COMP_WORDS[COMP_CWORD]} before=${COMP_WORDS[COMP_CWORD - 1]}
    case $before in
        --log-format) COMPREPLY=($(compgen -W "text json" -- "$current")); return ;;
        --tick | --grace | --slot | --stream | --stream-name | --kinds | --sub | --watch) COMPREPLY=(); compopt +o default 2> /dev/null || :; return ;;
    esac
    case $1:$current in
        dsrs:-*) COMPREPLY=($(compgen -W "--tick --grace --slot --generations --log-format --cgroup --stream --stream-name -h --help --version" -- "$current")) ;;
        dsask:-*) COMPREPLY=($(compgen -W "--watch --kinds --sub -h --help --version" -- "$current")) ;;
        dsask:*) if [ -S "$before" ]; then COMPREPLY=($(compgen -W "status log show all" -- "$current")); else COMPREPLY=(); fi ;;
        *) COMPREPLY=() ;;
    esac
}
complete -o default -F _dsrs dsrs dsask
