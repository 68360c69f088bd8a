# Completions for fish, of dsctl-json, which reads standard input alone.
complete -c dsctl-json -f
complete -c dsctl-json -l strict -d 'Status 1 if a line was refused, stopped or bad'
complete -c dsctl-json -s h -l help -d 'Print help'
