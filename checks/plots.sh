#!/bin/sh
# Makes tables and pictures of stored reports with tools/plot.py, and compares what has to stand in them. Prints
# what is wrong and ends with status 1, or else prints how many checks passed. It needs no program.
cd "$(dirname "$0")/.." || exit 1
room=$(mktemp -d) || exit 1
trap 'rm -rf "$room"' EXIT
passed=0
wrong=0

# judge WHAT CONDITION..: one check, which passes where the condition holds.
judge() {
    what=$1
    shift
    if "$@"; then
        passed=$((passed + 1))
    else
        wrong=$((wrong + 1))
        echo "$what"
    fi
}

# has FILE COUNT TEXT: so many lines of the file have the text.
has() {
    [ "$(grep -cF -- "$3" "$room/$1")" -eq "$2" ]
}

# has_files FOLDER NAME..: these files and no others are there.
has_files() {
    folder=$room/$1
    shift
    [ "$(ls "$folder")" = "$(printf '%s\n' "$@")" ]
}

# is_xml FOLDER: each picture there is well formed.
is_xml() {
    python3 -c 'import sys, xml.etree.ElementTree as e; [e.parse(p) for p in sys.argv[1:]]' "$room/$1"/*.svg
}

ends_with() {
    wanted=$1
    shift
    "$@" >"$room/said" 2>&1
    [ $? -eq "$wanted" ]
}

held=examples/46-slow-end-held-back/expected.txt
judge 'a report with all lines' ends_with 0 python3 tools/plot.py "$held" "$room/held"
judge 'its files' has_files held outcomes.svg posts.csv posts.svg records.csv shares.csv shares.svg summary.csv weights.svg
judge 'its pictures are no XML' is_xml held
judge 'frames that were throttled' has held/records.csv 136 ',throttled,end,,1,'
judge 'frames that were sent' has held/records.csv 64 ',sent,,0,,'
judge 'a legend with counts' has held/outcomes.svg 1 '>throttled (136)<'
judge 'an axis with its unit' has held/posts.svg 1 '>moment (microseconds)<'
# Four bars: of frames 1 to 32, 33 to 136, 137 to 168 and 169 to 200, in the colours of sent and throttled.
judge 'bars of what was sent' has held/outcomes.svg 3 'fill="#009e73"'
judge 'bars of what was throttled' has held/outcomes.svg 3 'fill="#e69f00"'
printf '%s\n' feeder,post,moment_ns,functions 1,1,3000,end 1,2,16000, 1,3,20000,end 1,4,33000, >"$room/posts"
judge 'the table of posts' cmp -s "$room/posts" "$room/held/posts.csv"

shares=examples/48-priority-and-cost/expected.txt
judge 'a report with shares' ends_with 0 python3 tools/plot.py - "$room/shares" <"$shares"
judge 'its files' has_files shares shares.csv shares.svg summary.csv weights.svg
judge 'its pictures are no XML' is_xml shares
judge 'a row of shares' has shares/shares.csv 1 '1,5000,costly,39,300,1,11700,19400,617'
judge 'a point for each tick and function' has shares/weights.svg 24 '<circle '

# The pictures that stand in docs/pictures are those of the examples as they are now.
python3 tools/plot.py examples/47-slow-end-let-in/expected.txt "$room/let-in"
for picture in held/outcomes held/posts let-in/outcomes shares/weights; do
    kept=docs/pictures/$(echo "$picture" | tr / -).svg
    judge "$kept is old" cmp "$kept" "$room/$picture.svg"
done

cat "$held" "$shares" >"$room/both"
judge 'two reports' ends_with 1 python3 tools/plot.py "$room/both" "$room/none"
judge 'a fault line' ends_with 1 python3 tools/plot.py examples/05-missing-keys/expected.txt "$room/none"
judge 'no folder is named' ends_with 2 python3 tools/plot.py "$held"
echo "plots: $passed passed, $wrong failed"
[ "$wrong" -eq 0 ]
