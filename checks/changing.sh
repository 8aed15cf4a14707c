#!/bin/sh
# Replays captures and chain files that change while they are read: changing.py beside this file says how.
. "$(dirname "$0")/begin.sh"
python3 checks/changing.py "$room"
