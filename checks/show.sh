#!/bin/sh
# show.sh EXAMPLE: replays an example of one run from the repository's top, and prints its command,
# what the program says, the emitted bytes in hexadecimal and the status. Ends with the program's
# status.
room=$(mktemp -d) || exit 1
trap 'rm -rf "$room"' EXIT

line=$(cat "$1/command")
echo "$line"
set --
for word in $line; do
    [ "$word" = OUT ] && word=$room/out.pcap
    set -- "$@" "$word"
done
"$@"
status=$?

if [ -f "$room/out.pcap" ]; then
    if command -v xxd >/dev/null; then
        xxd -g 1 "$room/out.pcap"
    else
        od -A x -t x1 "$room/out.pcap"
    fi
fi
echo "status $status"
exit "$status"
