# Completions of dsfleet for fish.
complete -c dsfleet -l check -d 'says whether a server will do'
complete -c dsfleet -l cacert -d 'with TLS, the file of the CAs that certify the server' -r
complete -c dsfleet -l cert -d 'with TLS, the file of the certificate that is shown' -r
complete -c dsfleet -l key -d 'with TLS, the file of its key' -r
complete -c dsfleet -l password-file -d 'the file with the password' -r
complete -c dsfleet -l stream -d 'the front of the keys in redis' -x
complete -c dsfleet -l scope -d 'what is shared' -x
complete -c dsfleet -l keep -d 'compacts a longer stream' -x
complete -c dsfleet -l replicas -d 'how many have to have a change' -x
complete -c dsfleet -l within -d 'milliseconds to wait for them' -x
complete -c dsfleet -l mode -d 'the mode of the socket' -x
complete -c dsfleet -l group -d 'the group of the socket' -x -a '(__fish_complete_groups)'
complete -c dsfleet -l readers -d 'the group that may read' -x -a '(__fish_complete_groups)'
complete -c dsfleet -l maxclients -d 'clients at once' -x
complete -c dsfleet -l timeout -d 'seconds until an idle client is dropped' -x
complete -c dsfleet -l client-output-buffer-limit -d 'bytes that wait for a client' -x
complete -c dsfleet -l maxmemory-clients -d 'bytes that wait for all clients' -x
complete -c dsfleet -l log-format -d 'the format of standard error' -x -a 'text json'
complete -c dsfleet -l version -d 'prints the version'
complete -c dsfleet -l help -d 'prints the help'
