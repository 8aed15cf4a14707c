#!/bin/sh
# threads.sh [CALM [STRESSED]]: replays with ./onvm whose roles run beside each other, so often in each way.
# A calm plan gives the same bytes and records as with --serial; a stressed one accounts for each frame.
# Prints what is wrong and ends with status 1, or else prints how many runs passed.
. "$(dirname "$0")/begin.sh"
calm=${1:-10}
stressed=${2:-10}

# functions COUNT CORES: so many forwarding functions, of services 1, 2 and so on, on cores in turn.
functions() {
    for number in $(seq "$1"); do
        [ "$number" = 1 ] || printf ','
        printf '{"name":"f%s","service":%s,"core":%s,"kind":"forward"}' "$number" "$number" $(((number - 1) % $2))
    done
}

# chain COUNT: through so many services in turn, and out of port 0.
chain() {
    printf '"chains":[{"name":"all","steps":['
    for number in $(seq "$1"); do printf '{"to":%s},' "$number"; done
    printf '{"out":0}]}],"default":"all"'
}

# Four functions on two cores, and so few frames that no lane comes near its mark.
printf '{"version":1,"ports":2,"cores":2,"transmit":2,"ring":1024,"high":1024,"low":512,"functions":[%s],%s}' \
    "$(functions 4 2)" "$(chain 4)" >"$room/calm.json"
# As little of everything as a plan may have, for as many roles as there may be.
printf '{"version":1,"ports":4,"cores":8,"transmit":4,"buffers":1,"ring":2,"output":2,"high":2,"low":1,"burst":1,"age":0,"functions":[%s],%s}' \
    "$(functions 8 8)" "$(chain 8)" >"$room/stress.json"

# replay OPTION OUT: the calm plan. Its records go to OUT.records.
replay() {
    # shellcheck disable=SC2086 # No option is no word.
    ./onvm $1 --records "$room/calm.json" "$2" gen:7:500 gen:8:500 >"$2.said" &&
        grep '^record' "$2.said" >"$2.records"
}

replay --serial "$room/serial" || wrong=$((wrong + 1))
for run in $(seq "$calm"); do
    if replay '' "$room/beside" && cmp -s "$room/serial" "$room/beside" &&
        cmp -s "$room/serial.records" "$room/beside.records"; then
        passed=$((passed + 1))
    else
        wrong=$((wrong + 1))
        echo "calm run $run: not as with --serial"
        cmp "$room/serial.records" "$room/beside.records"
        grep -E '^(frames|sent|throttled|ring-full|pool-empty) ' "$room/beside.said"
    fi
done

# Each of 4 * 300 frames has one record, in order; for each outcome there are as many records as the summary
# says; and these numbers add up to all frames.
accounted='
BEGIN { port = "none" }
/^record / {
    if ($2 == port) { number++ } else { port = $2; number = 1; ports++ }
    if ($3 != number) { print "record " $2 " " $3 " out of place"; bad = 1 }
    records++
    counted[$4 == "dropped" ? $6 : $4]++
    next
}
/^(sent|asked|chain-end|no-service|no-port|hops|throttled|ring-full|pool-empty) / { told[$1] = $2; sum += $2 }
/^frames / { frames = $2 }
END {
    if (frames != 1200 || sum != frames || records != frames || ports != 4) {
        print frames + 0 " frames, outcomes " sum + 0 ", records " records + 0; bad = 1
    }
    for (outcome in told) if (told[outcome] != counted[outcome] + 0) { print outcome " " counted[outcome] + 0; bad = 1 }
    exit bad
}'
for run in $(seq "$stressed"); do
    if ./onvm --records "$room/stress.json" "$room/out" gen:1:300 gen:2:300 gen:3:300 gen:4:300 >"$room/said" &&
        awk "$accounted" "$room/said"; then
        passed=$((passed + 1))
    else
        wrong=$((wrong + 1))
        echo "stressed run $run: not accounted for"
    fi
done

echo "threads: $passed passed, $wrong failed"
[ "$wrong" -eq 0 ]
