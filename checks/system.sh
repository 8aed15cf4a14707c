#!/bin/sh
# Replays captures with ./onvm where the system refuses something, memory or bytes of a file, and with
# standard output of each kind. Prints what is wrong and ends with status 1, or else prints how many
# checks passed.
. "$(dirname "$0")/begin.sh"
chain=examples/01-one-frame/chain.json

# large_frames COUNT: a capture in the emitted spelling, of so many frames of 262,144 bytes, all 0, at
# second 0.
large_frames() {
    head -c 24 examples/01-one-frame/expected.pcap
    for _ in $(seq "$1"); do
        printf '\0\0\0\0\0\0\0\0\0\0\004\0\0\0\004\0'
        head -c 262144 /dev/zero
    done
}

# judge NAME STATUS SAID CONDITION..: the run before this call ended with STATUS, which is to be the
# status in $status, it said just what the file $room/line holds into the file SAID, and the condition
# holds.
judge() {
    name=$1
    wanted=$2
    said=$3
    shift 3
    if [ "$status" = "$wanted" ] && cmp -s "$room/line" "$said" && "$@"; then
        passed=$((passed + 1))
    else
        wrong=$((wrong + 1))
        echo "$name: the status is $status, and it says: $(head -c 400 "$said")"
    fi
}

# is_front FILE OF COUNT: the file is the first COUNT bytes of another.
is_front() {
    head -c "$3" "$2" | cmp -s - "$1"
}

is_missing() {
    [ ! -e "$1" ]
}

# is_emitted: the small capture was emitted, which has the emitted spelling.
is_emitted() {
    cmp -s "$room/small" "$room/out"
}

# starve KIB CAPTURE: a run in so much memory. The script's own settings of malloc would ask for more at
# once.
starve() {
    rm -f "$room/out"
    (ulimit -v "$1" && GLIBC_TUNABLES='' exec ./onvm --serial "$chain" "$room/out" "$2") >"$room/said"
    status=$?
}

# onvm CAPTURE OUT: a serial run, which says what it says where this call's output goes.
onvm() {
    ./onvm --serial "$chain" "$2" "$1"
}

large_frames 100 >"$room/capture"
large_frames 1 >"$room/small"

# 26,214,400 bytes of frames in 20,000 KiB of memory.
starve 20000 "$room/capture"
echo 'fault memory' >"$room/line"
judge 'want of memory' 7 "$room/said" is_missing "$room/out"

starve 20000 "$room/small"
summary 1 >"$room/line"
judge 'one frame in as much memory' 0 "$room/said" is_emitted

# A file may grow up to 102,400 bytes. Shells count blocks of different sizes.
blocks=$((102400 / $(sh -c 'ulimit -f 1; head -c 4096 /dev/zero >"$1"; wc -c <"$1"' sh "$room/block" 2>/dev/null)))
rm -f "$room/out"
(ulimit -f "$blocks" && onvm "$room/capture" "$room/out") >"$room/said"
status=$?
echo 'fault write' >"$room/line"
judge 'a limit on the size of files' 6 "$room/said" is_missing "$room/out"

# The line of the failed write finds no room behind the output, and must not go over its begin.
: >"$room/line"
(ulimit -f "$blocks" && onvm "$room/capture" /dev/stdout) >"$room/both"
status=$?
judge 'OUT is standard output, behind a limit' 6 /dev/null is_front "$room/both" "$room/capture" 102400
(ulimit -f "$blocks" && onvm "$room/capture" "$room/both") >"$room/both"
status=$?
judge 'OUT is the file of standard output, behind a limit' 6 /dev/null is_front "$room/both" "$room/capture" 102400

# One file for what is emitted and what is said, and for what the caller writes before and behind: all
# stands there in the order in which it was written, whatever name OUT has for that file.
(echo before && cat "$room/small" && summary 1 && echo behind) >"$room/line"
ln -s both "$room/link"
for out in /dev/stdout "$room/both" "$room/link" "$room/../${room##*/}/both"; do
    (echo before && onvm "$room/small" "$out" && echo behind) >"$room/both"
    status=$?
    judge "standard output goes to the file $out" 0 "$room/both" true
done
echo before >"$room/both"
(onvm "$room/small" /dev/stdout && echo behind) >>"$room/both"
status=$?
judge 'standard output is appended to a file' 0 "$room/both" true

# A file of standard output that OUT doesn't name, a pipe, a terminal, and what takes all or nothing.
(echo before && summary 1 && echo behind) >"$room/line"
(echo before && onvm "$room/small" "$room/out" && echo behind) >"$room/said"
status=$?
judge 'standard output is another file' 0 "$room/said" is_emitted

rm -f "$room/out"
{
    (echo before && onvm "$room/small" "$room/out" && echo behind)
    echo $? >"$room/status"
} | cat >"$room/said"
status=$(cat "$room/status")
judge 'standard output is a pipe' 0 "$room/said" is_emitted

(cat "$room/small" && summary 1) >"$room/line"
onvm "$room/small" /dev/stdout | cat >"$room/said"
status=$?
judge 'standard output is a pipe, and OUT too' 0 "$room/said" true

summary 1 >"$room/line"
if command -v script >/dev/null; then
    rm -f "$room/out"
    script -qec "./onvm --serial '$chain' '$room/out' '$room/small'" /dev/null </dev/null >"$room/typed"
    status=$?
    tr -d '\r' <"$room/typed" >"$room/said"
    judge 'standard output is a terminal' 0 "$room/said" is_emitted
fi

: >"$room/line"
rm -f "$room/out"
onvm "$room/small" "$room/out" >/dev/null
status=$?
judge 'standard output is /dev/null' 0 /dev/null is_emitted

# A report that can't be said: the capture is there, and the status tells that the report is not.
rm -f "$room/out"
onvm "$room/small" "$room/out" >/dev/full
status=$?
judge 'standard output is a full device' 6 /dev/null is_emitted

rm -f "$room/out"
onvm "$room/small" "$room/out" >&-
status=$?
judge 'standard output is closed' 6 /dev/null is_emitted

rm -f "$room/out"
{
    sleep 1
    onvm "$room/small" "$room/out"
    echo $? >"$room/status"
} | true
status=$(cat "$room/status")
judge 'standard output is a pipe that nobody reads' 6 /dev/null is_emitted

# What OUT, a capture or the chain file may not be. They stay as they were, and nothing comes beside them.
special=$room/special
mkdir -p "$special/folder"
echo kept >"$special/folder/kept"
ln -s loop "$special/loop"
long=$(head -c 300 /dev/zero | tr '\0' n)
python3 -c 'import socket, sys; socket.socket(socket.AF_UNIX).bind(sys.argv[1])' "$special/socket"

# is_unchanged: the folder of special files holds what was made in it, and no OUT was made outside.
is_unchanged() {
    [ "$(ls -A "$special" "$special/folder" | sort | tr '\n' ' ')" = "$unchanged" ] && [ "$(cat "$special/folder/kept")" = kept ] &&
        [ -S "$special/socket" ] && [ -h "$special/loop" ] && [ ! -e "$room/out" ]
}

# refuse NAME STATUS LINE WORD..: a run of these words, with --serial and without, ends so.
refuse() {
    what=$1
    ending=$2
    echo "$3" >"$room/line"
    shift 3
    rm -f "$room/out"
    ./onvm --serial "$@" >"$room/said" 2>&1
    status=$?
    judge "$what, serial" "$ending" "$room/said" is_unchanged
    ./onvm "$@" >"$room/said" 2>&1
    status=$?
    judge "$what, beside each other" "$ending" "$room/said" is_unchanged
}

unchanged=$(ls -A "$special" "$special/folder" | sort | tr '\n' ' ')
for kind in folder socket loop "$long" none/out none/ ''; do
    refuse "OUT is '$kind'" 6 'fault write' "$chain" "${kind:+$special/}$kind" "$room/small"
    refuse "the capture is '$kind'" 5 'fault read 0' "$chain" "$room/out" "${kind:+$special/}$kind"
    refuse "the chain file is '$kind'" 5 'fault read chain' "${kind:+$special/}$kind" "$room/out" "$room/small"
done
refuse 'OUT is a full device' 6 'fault write' "$chain" /dev/full "$room/small"
refuse 'OUT is a full device, for a large capture' 6 'fault write' "$chain" /dev/full "$room/capture"
refuse 'OUT is a file of the system' 6 'fault write' "$chain" /proc/none "$room/small"

# A pipe as OUT, whose reader takes all, a part or nothing.
mkfifo "$room/pipe"
summary 100 >"$room/line"
cat "$room/pipe" >"$room/taken" &
onvm "$room/capture" "$room/pipe" >"$room/said"
status=$?
wait "$!"
judge 'OUT is a pipe' 0 "$room/said" cmp -s "$room/taken" "$room/capture"

echo 'fault write' >"$room/line"
head -c 1000 "$room/pipe" >"$room/taken" &
onvm "$room/capture" "$room/pipe" >"$room/said"
status=$?
wait "$!"
judge 'OUT is a pipe whose reader ends' 6 "$room/said" is_front "$room/taken" "$room/capture" 1000

: <"$room/pipe" &
onvm "$room/capture" "$room/pipe" >"$room/said"
status=$?
wait "$!"
judge 'OUT is a pipe that nobody reads' 6 "$room/said" test -p "$room/pipe"

# Standard input and error aren't needed.
summary 1 >"$room/line"
rm -f "$room/out"
onvm "$room/small" "$room/out" >"$room/said" <&- 2>&-
status=$?
judge 'standard input and error are closed' 0 "$room/said" is_emitted

# on_device SCRIPT: in a mount namespace of its own, with a device of 1 MiB at $1/device, where $1 is $room and $2 the chain
# file. Its status is in $room/status, and what the script left of OUT is $room/left.
mkdir "$room/device"
on_device() {
    rm -f "$room/left"
    unshare -m sh -c "mount -t tmpfs -o size=1m none \"\$1/device\" || exit 1
        echo kept >\"\$1/device/out\"
        $1
        echo \$? >\"\$1/status\"
        ls -A \"\$1/device\" | grep -v -x -e said -e other >\"\$1/beside\"
        cp \"\$1/device/out\" \"\$1/left\" 2>/dev/null
        cp \"\$1/device/said\" \"\$1/said\" 2>/dev/null
        exit 0" sh "$room" "$chain"
}

# is_left: OUT is what was there, and no part of the new one takes room beside it.
is_left() {
    [ "$(cat "$room/left")" = kept ] && [ "$(cat "$room/beside")" = out ]
}

# shellcheck disable=SC2016 # The inner shell has these words.
if on_device true 2>/dev/null; then
    echo 'fault write' >"$room/line"
    on_device './onvm --serial "$2" "$1/device/out" "$1/capture" >"$1/said"'
    status=$(cat "$room/status")
    judge 'a device becomes full, serial' 6 "$room/said" is_left
    on_device './onvm "$2" "$1/device/out" "$1/capture" >"$1/said"'
    status=$(cat "$room/status")
    judge 'a device becomes full, beside each other' 6 "$room/said" is_left
    on_device 'head -c 2000000 /dev/zero >"$1/device/other" 2>/dev/null
        ./onvm --serial "$2" "$1/device/out" "$1/small" >"$1/said"'
    status=$(cat "$room/status")
    judge 'a device was full' 6 "$room/said" is_left
    rm -f "$room/out"
    : >"$room/line"
    on_device 'head -c 2000000 /dev/zero >"$1/device/other" 2>/dev/null
        ./onvm --serial "$2" "$1/out" "$1/small" >"$1/device/said"'
    status=$(cat "$room/status")
    judge 'the report goes to a full device' 6 "$room/said" is_emitted
else
    echo 'system: skipped, this system lets no device be mounted here'
fi

# The fault line of a run whose standard output goes to the file that OUT names.
(./onvm "$chain" "$room/both" "$room/none") >"$room/both"
status=$?
echo 'fault read 0' >"$room/line"
judge 'a fault, and standard output goes to the file that OUT names' 5 "$room/both" true

echo "system: $passed passed, $wrong failed"
[ "$passed" -gt 0 ] && [ "$wrong" -eq 0 ]
