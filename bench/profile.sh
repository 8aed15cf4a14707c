#!/bin/bash
# profile.sh [--threads] [--plain] [--onvm PATH] [--runs N] [--top N] CASE..: where the time of a case of the race goes, for --serial
# or for threads. With perf it takes samples of N runs by the processor's time, the kernel's part included; without it
# valgrind's callgrind counts the instructions of one run, which tells nothing of the kernel. README.md says how to read it.
set -u -o pipefail
cd "$(dirname "$0")/.." || exit 1
onvm=$PWD/crates/onvm_main/out/onvm_main
runs=10
top=30
serial=--serial
script=./onvm
cases=()
while [ $# -gt 0 ]; do
    case $1 in
    --threads) serial= ;;
    --plain) script= ;;
    --onvm) onvm=$(readlink -f "$2") && shift ;;
    --runs) runs=$2 && shift ;;
    --top) top=$2 && shift ;;
    -*) echo "profile.sh: no option $1" >&2 && exit 2 ;;
    *) cases+=("$1") ;;
    esac
    shift
done
[ -x "$onvm" ] || { echo "profile.sh: there is no program $onvm: make build makes it" >&2 && exit 1; }
[ ${#cases[@]} -gt 0 ] || cases=(forward)
export ONVM_PROGRAM=$onvm
[ -n "$script" ] || script=$onvm
folder=$(mktemp -d "$([ -w /dev/shm ] && echo /dev/shm || echo /tmp)/onvm-profile-XXXXXX")
trap 'rm -rf "$folder"' EXIT

by_perf() {
    data=$folder/perf.data
    # shellcheck disable=SC2016 # The inner shell is to read these.
    perf record -q -g -e cpu-clock -F 10000 -o "$data" -- bash -c '
        for ((i = 0; i < $1; i++)); do rm -f "$2"; "${@:3}" >/dev/null || exit 1; done' - "$runs" "$folder/out.pcap" "${words[@]}" \
        2>"$folder/said" || { cat "$folder/said" >&2 && return 1; }
    perf script -i "$data" -F comm,pid,tid,ip,sym,dso 2>/dev/null | python3 bench/samples.py "$(basename "$onvm" | cut -c1-15)" "$top"
}

by_callgrind() {
    valgrind --tool=callgrind --callgrind-out-file="$folder/callgrind" "${words[@]}" >/dev/null 2>"$folder/said" ||
        { cat "$folder/said" >&2 && return 1; }
    echo "instructions of one run, by function:"
    callgrind_annotate "$folder/callgrind" | grep -A "$top" '^-.*' | tail -n "+3" | cut -c1-140
}

# Wall time, time in the program and in the kernel, page faults and peak memory of one run, the median of all by the wall time.
measured() {
    for ((i = 0; i < runs; i++)); do
        rm -f "$folder/out.pcap"
        python3 - "${words[@]}" <<'PYTHON'
import os, subprocess, sys, time
begin = time.monotonic()
started = subprocess.Popen(sys.argv[1:], stdout=subprocess.DEVNULL)
_, status, used = os.wait4(started.pid, 0)
wall = (time.monotonic() - begin) * 1000
print(f"{wall:7.1f} ms, {used.ru_utime * 1000:.0f} in the program, {used.ru_stime * 1000:.0f} in the kernel, "
      f"{used.ru_minflt} page faults, peak {used.ru_maxrss // 1024} MiB, {used.ru_nvcsw} + {used.ru_nivcsw} switches"
      + (f", STATUS {status}" if status else ""))
PYTHON
    done | sort -n | sed -n "$(((runs + 1) / 2))p"
}

failed=0
for case in "${cases[@]}"; do
    told=$(python3 bench/cases.py "$case" "$folder") || exit 1
    read -r plan captures <<<"$told"
    read -r -a words <<<"$script $serial $plan $folder/out.pcap $captures"
    echo "== $case, ${serial:-threads}${script#./onvm}"
    measured
    if perf record -q -e cpu-clock -o "$folder/tried" true >"$folder/said" 2>&1; then by_perf; else by_callgrind; fi || failed=1
done
exit $failed
