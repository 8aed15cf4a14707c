#!/bin/sh
# worst.sh [--table] [NAME..]: replays the worst inputs: worst.py beside this file says how. It makes captures of 1 GiB, in
# memory where there is enough of it, and takes minutes.
. "$(dirname "$0")/begin.sh"
large=$(awk '/^MemAvailable:/ { print $2 }' /proc/meminfo)
if [ "$large" -gt 8388608 ] && [ -d /dev/shm ] && [ "$(df -k --output=avail /dev/shm | tail -n 1)" -gt 4194304 ]; then
    rm -rf "$room"
    room=$(mktemp -d -p /dev/shm) || exit 1
fi
python3 checks/worst.py "$room" "$@"
