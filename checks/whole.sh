#!/bin/sh
# Replays captures under limits on memory, on the size of files and on how many are open: whole.py beside this file says how.
. "$(dirname "$0")/begin.sh"
python3 checks/whole.py "$room"
