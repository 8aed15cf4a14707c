#!/bin/sh
# total.sh STATUS LOG: adds up the counts that the checks wrote into LOG, and prints them as one line.
# STATUS is how the checks ended: where it is not 0, at least one has failed.
awk -v status="$1" '
/^[0-9]+ passed, [0-9]+ failed$/ { passed += $1; failed += $3 }
/^(repository checks|examples|model|schema|plots|captures|system|threads|install|growth|changing|whole|output): [0-9]+ passed/ { sub(/^[^:]*: /, ""); passed += $1; failed += $3 }
END { printf "%d passed, %d failed\n", passed, (status != 0 && !failed) ? 1 : failed }
' "$2"
