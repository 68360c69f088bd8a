# Completions for bash, made by tests/dsctl/manual from the program's help.
_dsctl() {
    local at command= is_number= file words="-h --help -V --version"
    local current=${COMP_WORDS[COMP_CWORD]} before=${COMP_WORDS[COMP_CWORD - 1]}
    for ((at = 1; at < COMP_CWORD; at++)); do
        case ${command:-${COMP_WORDS[at]}} in
            replay|settings|verify|upgrade|record|live|help) command=${command:-${COMP_WORDS[at]}} ;;
        esac
    done
    case $command in
        replay) words="--keep-going --stop --ends --load --save -h --help" ;;
        settings) words="--line -h --help" ;;
        verify) words="-h --help" ;;
        upgrade) words="-h --help" ;;
        record) words="--format --keys -h --help" ;;
        live) words="--publishers --subscribers --changes --seed --for -h --help" ;;
        help) words="replay settings verify upgrade record live" ;;
    esac
    # bash takes an equals sign for a word of its own
    if [[ $current == "=" ]]; then
        current=
    elif [[ $before == "=" ]]; then
        before=${COMP_WORDS[COMP_CWORD - 2]}
    fi
    case $command:$before in
        record:--format) words="1 2" is_number=1 ;;
        record:--keys) words="1024 4096" is_number=1 ;;
        live:--publishers) words="1 2 3 4 5 6 7 8" is_number=1 ;;
        live:--subscribers) words="1 2 3 4 5 6 7 8" is_number=1 ;;
        live:--changes) words="" is_number=1 ;;
        live:--seed) words="" is_number=1 ;;
        live:--for) words="" is_number=1 ;;
    esac
    # options are offered after a dash; elsewhere bash completes a file by itself, if one is taken there
    case $command:$is_number:$current in
        *:1:*|*:*:-*|help:*) ;;
        *) words= ;;
    esac
    [[ $COMP_CWORD != 1 || $current == -* ]] || words="replay settings verify upgrade record live help"
    COMPREPLY=($(compgen -W "$words" -- "$current"))
    case $command:$is_number in
        live:*|help:*|*:1) compopt +o default 2> /dev/null || : ;;
    esac
    # the first word may also be a file
    if [[ $COMP_CWORD == 1 && $current != -* ]]; then
        while IFS= read -r file; do
            COMPREPLY+=("$file")
        done < <(compgen -f -- "$current")
        compopt -o filenames 2> /dev/null || :
    fi
}
complete -o default -F _dsctl dsctl
