#!/bin/sh
# watch.sh SOCKET NAME: prints a line each time that the driver NAME starts or dies, as the dsfleet at SOCKET holds its label. ^C ends it.
set -eu
[ $# -eq 2 ] || { sed -n '2s/^# //p' "$0" >&2; exit 2; }
ask=${DSASK:-dsask}
socket=$1 name=$2
sub= # the number of the subscription, once it is known
room=$(mktemp -d)
trap 'rm -rf "$room"' EXIT
trap 'exit 1' HUP INT TERM

# One client: what is written to descriptor 3 are its lines, what is read from 4 its answers.
mkfifo "$room/lines" "$room/answers"
$ask "$socket" < "$room/lines" > "$room/answers" &
exec 3> "$room/lines" 4< "$room/answers"

pattern=$(printf '%s' "$name" | sed 's/\./\\\\./g') # a dot in a pattern is written \\.
printf 'subscribe "%s" 1 first new\n' "$pattern" >&3
while read -r word kind owner version mark value; do
    case "$word $kind" in
        "$name label") if [ "$mark" = "=" ]; then echo "$name is at $value"; else echo "$name is gone"; fi ;;
        "listening $sub" | "notice $sub") echo "check $sub 256" >&3 ;;
        "sub $kind") sub=$kind && echo "listen $sub" >&3 ;;
    esac
done <&4
exit 1 # the dsfleet has ended
