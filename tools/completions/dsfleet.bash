# Completions of dsfleet for bash.
_dsfleet() {
    local current=${COMP_WORDS[COMP_CWORD]} before=${COMP_WORDS[COMP_CWORD - 1]}
    case $before in
        --group | --readers) mapfile -t COMPREPLY < <(compgen -g -- "$current") ;;
        --log-format) mapfile -t COMPREPLY < <(compgen -W "text json" -- "$current") ;;
        --stream | --scope | --keep | --replicas | --within | --mode | --maxclients | --timeout | --client-output-buffer-limit | --maxmemory-clients) ;;
        *)
            if [[ $before != --@(password-file|cacert|cert|key) && $current == -* ]]; then
                mapfile -t COMPREPLY < <(compgen -W "--check --cacert --cert --key --password-file --stream --scope --keep --replicas --within --mode --group --readers --maxclients --timeout --client-output-buffer-limit --maxmemory-clients --log-format --version --help" -- "$current")
            else
                mapfile -t COMPREPLY < <(compgen -f -- "$current")
            fi
            ;;
    esac
}
complete -o filenames -F _dsfleet dsfleet
