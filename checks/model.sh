#!/bin/sh
# Replays the examples that are serial and succeed with the model in checks/model instead of the program: it was
# written after docs/FORMATS.md in another language, so what is expected is more than what the program said once.
# Prints what is wrong and ends with status 1, or else prints how many passed.
cd "$(dirname "$0")/.." || exit 1
set --
for folder in examples/*/; do
    [ -f "$folder/status" ] || grep -qv -e '--serial' "$folder/command" || set -- "$@" "$folder"
done
said=$(ONVM_PROGRAM=checks/model/replay.py sh checks/examples.sh "$@")
status=$?
echo "$said" | sed 's/^examples: /model: /'
exit "$status"
