#!/bin/sh
# losses.sh [RUNS [FRAMES]]: replays so many made frames so often through chains of one, three and eight
# functions, each on a core of its own, on two and on four processors, alone and beside as many busy
# programs. Prints for each of these how many runs sent all frames, and what the others lost and why.
# Ends with status 1 where a frame was lost.
. "$(dirname "$0")/begin.sh"
runs=${1:-50}
frames=${2:-262144}

# plan COUNT: a chain of so many functions.
plan() {
    printf '{"version":1,"ports":1,"cores":%s,"functions":[' "$1"
    for number in $(seq "$1"); do
        [ "$number" = 1 ] || printf ','
        printf '{"name":"f%s","service":%s,"core":%s,"kind":"forward"}' "$number" "$number" $((number - 1))
    done
    printf '],"chains":[{"name":"all","steps":['
    for number in $(seq "$1"); do printf '{"to":%s},' "$number"; done
    printf '{"out":0}]}],"default":"all"}'
}

busy=
# load PROCESSORS: as many programs that never rest, on these processors. relieve ends them.
load() {
    for _ in $(seq "$(($1 + 1))"); do
        taskset -c "0-$1" sh -c 'while :; do :; done' &
        busy="$busy $!"
    done
}
relieve() {
    # shellcheck disable=SC2086 # One word for each process.
    [ -z "$busy" ] || kill $busy
    busy=
}
trap 'relieve; rm -rf "$room"' EXIT

# course NAME COUNT LAST: the runs of a chain of COUNT functions on the processors 0 to LAST.
course() {
    whole=0
    for _ in $(seq "$runs"); do
        taskset -c "0-$3" ./onvm "$room/plan$2" /dev/null "gen:7:$frames" >"$room/said"
        if grep -qx "sent $frames" "$room/said"; then
            whole=$((whole + 1))
        else
            grep -E '^(sent|throttled|ring-full|pool-empty) ' "$room/said" | tr '\n' ' '
            echo
        fi
    done
    echo "$1, a chain of $2 on $(($3 + 1)) processors: $whole of $runs runs sent all frames"
    passed=$((passed + whole))
    wrong=$((wrong + runs - whole))
}

for count in 1 3 8; do plan "$count" >"$room/plan$count"; done
for last in 1 3; do
    for count in 1 3 8; do course alone "$count" "$last"; done
    load "$last"
    for count in 1 3 8; do course loaded "$count" "$last"; done
    relieve
done
echo "losses: $passed passed, $wrong failed"
[ "$wrong" -eq 0 ]
