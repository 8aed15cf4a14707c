#!/bin/sh
# examples.sh [FOLDER..]: replays these examples, or every one, with ./onvm, and compares what it emits,
# says and answers with what is expected. Prints what is wrong and ends with status 1, or else prints how
# many passed.
#
# An example is a folder. Each line of its file command is a run, and the word OUT stands there for a
# file of this check's own. expected.txt is what the runs say, one behind the other. Each of them emits
# the capture expected.pcap, or one whose SHA-256 is expected.sha256, or without these creates nothing,
# and ends with the status in the file status, or without it with 0.
. "$(dirname "$0")/begin.sh"
out=$room/out.pcap

complain() {
    echo "$folder: $1"
    well=false
}

# Whether what the last run emitted is what is expected.
emits_well() {
    if [ -f "$folder/expected.pcap" ]; then
        cmp "$folder/expected.pcap" "$out"
    elif [ -f "$folder/expected.sha256" ]; then
        [ "$(sha256sum <"$out")" = "$(cat "$folder/expected.sha256")  -" ]
    else
        [ ! -e "$out" ]
    fi
}

# Makes the run of the command $line.
try() {
    set --
    for word in $line; do
        [ "$word" = OUT ] && word=$out
        set -- "$@" "$word"
    done
    rm -f "$out"
    "$@" </dev/null >>"$room/said"
    status=$?
    [ "$status" = "$wanted" ] || complain "the status is $status, and not $wanted: $line"
    emits_well || complain "it emits something else: $line"
}

[ "$#" -gt 0 ] || set -- examples/*/
for folder; do
    folder=${folder%/}
    well=true
    wanted=0
    [ -f "$folder/status" ] && wanted=$(cat "$folder/status")
    : >"$room/said"
    while read -r line; do try; done <"$folder/command"
    diff "$folder/expected.txt" "$room/said" || complain "it says something else"
    if $well; then passed=$((passed + 1)); else wrong=$((wrong + 1)); fi
done

echo "examples: $passed passed, $wrong failed"
[ "$passed" -gt 0 ] && [ "$wrong" -eq 0 ]
