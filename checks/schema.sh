#!/bin/sh
# Judges chain files by docs/chain.schema.json: schema.py beside this file says how.
exec python3 "$(dirname "$0")/schema.py" "$@"
