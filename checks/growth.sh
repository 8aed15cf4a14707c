#!/bin/sh
# Refuses each growth of the program's memory in turn, from the first to the last: that one alone, and that one with all
# behind it. refuse.c beside this file stands before the C library's calls for that, also before those that start a
# thread. The runs are those of one frame and of two guests, with --serial and without. A run has to end with status 7,
# its line, and all files as they were; or whole, where it could do without what was refused. Prints what is wrong and
# ends with status 1, or else prints how many runs passed. It needs a C compiler, and without one makes no run.
. "$(dirname "$0")/begin.sh"
if ! command -v cc >/dev/null; then
    echo 'growth: skipped, there is no cc'
    exit 0
fi
cc -shared -fPIC -O1 -DORDER="\"$room/order\"" -DREFUSED="\"$room/refused\"" -o "$room/refuse.so" checks/refuse.c -ldl || exit 1
folder=$room/folder
mkdir "$folder"
echo 'what was there' >"$room/old"

# begin old|none: the folder of OUT holds an old file of that name, or nothing.
begin() {
    rm -rf "$folder/"* "$room/refused"
    if [ "$1" = old ]; then cp "$room/old" "$folder/out.pcap"; fi
}

# run FIRST LAST: a run of $option, $chain and $capture in which these growths are refused.
run() {
    echo "$1 $2" >"$room/order"
    # shellcheck disable=SC2086 # No option is no word.
    timeout 20 env LD_PRELOAD="$room/refuse.so" "$ONVM_PROGRAM" $option "$chain" "$folder/out.pcap" "$capture" \
        >"$room/said" 2>"$room/error" </dev/null
    status=$?
}

# is_whole: the run said and emitted all that it should. Without --serial the numbers behind the outcomes may differ.
is_whole() {
    if [ -n "$option" ]; then lines=14; else lines=10; fi
    head -n "$lines" "$room/said" | cmp -s - "$room/front" && [ "$(wc -l <"$room/said")" -eq 14 ] &&
        cmp -s "$wanted" "$folder/out.pcap" && [ "$(ls -A "$folder")" = out.pcap ]
}

# is_kept old|none: the folder is as begin left it.
is_kept() {
    if [ "$1" = old ]; then
        cmp -s "$room/old" "$folder/out.pcap" && [ "$(ls -A "$folder")" = out.pcap ]
    else
        [ -z "$(ls -A "$folder")" ]
    fi
}

# judge NAME old|none: one check of the run before this call.
judge() {
    if [ -s "$room/error" ]; then
        well=false
    elif [ "$status" -eq 7 ]; then
        memory=$((memory + 1))
        if cmp -s "$room/line" "$room/said" && is_kept "$2"; then well=true; else well=false; fi
    else
        if [ "$status" -eq 0 ] && is_whole; then well=true; else well=false; fi
    fi
    if $well; then
        passed=$((passed + 1))
    else
        wrong=$((wrong + 1))
        echo "$1: the status is $status, it says: $(head -c 400 "$room/said" "$room/error"), and leaves: $(ls -A "$folder")"
    fi
}

# course NAME: all runs of one plan, whose report is in $room/front. The one in which nothing was left to refuse is
# the last, and has to be whole.
course() {
    memory=0
    number=0
    reached=true
    while $reached; do
        number=$((number + 1))
        reached=false
        for way in "none $number" "old $number" "old 999999999"; do
            begin "${way% *}"
            run "$number" "${way#* }"
            judge "$1, growths $number to ${way#* }, ${way% *}" "${way% *}"
            [ -e "$room/refused" ] && reached=true
        done
    done
    echo "growth of $1: $((number - 1)) growths were refused, and $memory runs ended for want of memory"
    # Without one of each kind nothing was shown.
    if [ "$memory" -eq 0 ] || [ "$status" -ne 0 ]; then
        wrong=$((wrong + 1))
        echo "$1: no run ended for want of memory, or the last was not whole"
    fi
}

# plan NAME EXAMPLE CAPTURE FRAMES: the courses of an example.
plan() {
    chain=examples/$2/chain.json
    capture=examples/$2/$3
    wanted=examples/$2/expected.pcap
    option=--serial
    summary "$4" >"$room/front"
    course "$1, serial"
    option=
    summary "$4" | head -n 10 >"$room/front"
    course "$1, beside each other"
}

echo 'fault memory' >"$room/line"
plan 'one frame' 01-one-frame one-frame.pcap 1
plan 'two guests' 22-two-guests three-frames.pcap 3

echo "growth: $passed passed, $wrong failed"
[ "$passed" -gt 0 ] && [ "$wrong" -eq 0 ]
