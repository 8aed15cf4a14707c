#!/bin/sh
# version.sh PROGRAM: says of which commit the program was proved and built, with which kit, and whether a source is
# newer than it.
if [ -n "${ONVM_PROGRAM:-}" ]; then
    echo "ONVM_PROGRAM names $ONVM_PROGRAM: nothing is known of how it was built"
elif [ ! -x "$1" ] || [ ! -f "${1%/*}/version" ]; then
    echo 'nothing is proved and built here yet: make build'
else
    echo 'onvm, proved and built of'
    sed 's/^/    /' "${1%/*}/version"
    newer=$(find crates.txt crates -name out -prune -o '(' -name '*.rt' -o -name '*.antt' -o -name crates.txt ')' \
        -newer "$1" -print | wc -l)
    [ "$newer" -eq 0 ] || echo "    $newer sources are newer than it: make build"
fi
