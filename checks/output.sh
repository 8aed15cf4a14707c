#!/bin/sh
# Replays captures onto what is there: files, links, open files, and while it is killed: output.py beside this file says how.
. "$(dirname "$0")/begin.sh"
python3 checks/output.py "$room"
