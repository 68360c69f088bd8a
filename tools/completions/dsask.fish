# Completions for fish, of dsask.
complete -c dsask -l watch -x -d 'Print what is under a pattern, and each change'
complete -c dsask -l kinds -x -d 'Watch these kinds'
complete -c dsask -l sub -x -d 'Watch by this subscription'
complete -c dsask -l version -d 'Print version'
complete -c dsask -s h -l help -d 'Print help'
complete -c dsask -n 'test (count (commandline -opc)) -ge 2' -a 'status log show all'
