#!/bin/sh
# Replays captures that are made here, of bytes altered in two examples and of many or large frames,
# and chain files that are large, with ./onvm, and compares what it emits, says and answers with what
# is expected. Prints what is wrong and ends with status 1, or else prints how many passed.
. "$(dirname "$0")/begin.sh"
chain=examples/01-one-frame/chain.json
low=examples/01-one-frame/one-frame.pcap
high=examples/09-high-byte-first/one-frame.pcap
emitted=examples/01-one-frame/expected.pcap

# alter FILE [AT BYTES]..: the capture is FILE with BYTES, in octal as printf reads them, at the offset AT.
alter() {
    cp "$1" "$room/capture"
    shift
    while [ $# -gt 0 ]; do
        # shellcheck disable=SC2059
        printf "$2" | dd of="$room/capture" bs=1 seek="$1" conv=notrunc 2>/dev/null
        shift 2
    done
}

# cut FILE COUNT: the capture is so many bytes of FILE.
cut() {
    head -c "$2" "$1" >"$room/capture"
}

# empty_frames FILE COUNT OUT: the header of FILE, and so many records of no byte, at second 0.
empty_frames() {
    head -c 24 "$1" >"$3"
    head -c $((16 * $2)) /dev/zero >>"$3"
}

# judge NAME STATUS [WANTED]: the run before this call ended with STATUS, which is to be the one in
# $status, and said what the file $room/line holds. What it emitted is the file WANTED, or it created
# nothing.
judge() {
    if [ "$status" = "$2" ] && cmp -s "$room/line" "$room/said" &&
        if [ $# -eq 3 ]; then cmp -s "$3" "$room/out"; else [ ! -e "$room/out" ]; fi; then
        passed=$((passed + 1))
    else
        wrong=$((wrong + 1))
        echo "$1: the status is $status, and it says: $(head -c 400 "$room/said")"
    fi
}

# run WORD..: a serial run with these words behind OUT.
run() {
    rm -f "$room/out"
    ./onvm --serial "$chain" "$room/out" "$@" >"$room/said"
    status=$?
}

# sent NAME COUNT WANTED: the capture's frames, so many, are all sent, and WANTED is emitted.
sent() {
    run "$room/capture"
    summary "$2" >"$room/line"
    judge "$1" 0 "$3"
}

# refuse NAME CAUSE: the capture is refused with this cause.
refuse() {
    run "$room/capture"
    echo "fault capture 0 $2" >"$room/line"
    judge "$1" 4
}

# The spellings of one frame.
alter "$low"
sent 'low byte first, microseconds' 1 "$emitted"
alter "$high"
sent 'high byte first, nanoseconds' 1 "$emitted"
alter "$emitted"
sent 'low byte first, nanoseconds' 1 "$emitted"
alter "$high" 2 '\303\324' 28 '\000\000\000\002'
sent 'high byte first, microseconds' 1 "$emitted"

# Torn captures.
cut "$low" 55
refuse 'a byte of the frame is missing' 'torn 24'
cut "$high" 39
refuse 'a byte of the head is missing' 'torn 24'
cut "$low" 23
refuse 'a byte of the header is missing' 'torn 0'
cut "$low" 0
refuse 'an empty file' 'torn 0'

# Headers, of whose faults the first is told.
alter "$low" 0 '\262\241\324\303' 4 '\003' 20 '\145'
refuse 'the beginning of no spelling' magic
alter "$low" 4 '\003' 20 '\145'
refuse 'another version, and another link type' version
alter "$high" 4 '\002\000\004\000'
refuse 'the version low byte first' version
alter "$high" 20 '\001\000\000\000'
refuse 'the link type low byte first' link

# Heads, of whose faults the first is told.
alter "$low" 32 '\001\000\004\000' 28 '\377\377\377\377'
refuse 'a byte too many, and a fraction too large' 'too-long 24 262145'
alter "$high" 32 '\000\004\000\001'
refuse 'a byte too many, high byte first' 'too-long 24 262145'
alter "$low" 28 '\100\102\017\000'
refuse '1,000,000 microseconds' 'fraction 24'
alter "$high" 28 '\073\232\312\000'
refuse '1,000,000,000 nanoseconds' 'fraction 24'

# The largest fractions.
alter "$emitted" 28 '\030\306\232\073'
cp "$room/capture" "$room/wanted"
alter "$low" 28 '\077\102\017\000'
sent '999,999 microseconds' 1 "$room/wanted"
alter "$emitted" 28 '\377\311\232\073'
cp "$room/capture" "$room/wanted"
alter "$high" 28 '\073\232\311\377'
sent '999,999,999 nanoseconds' 1 "$room/wanted"

# Many frames.
empty_frames "$low" 262144 "$room/capture"
empty_frames "$emitted" 262144 "$room/wanted"
sent 'as many frames as a port takes' 262144 "$room/wanted"
empty_frames "$high" 262145 "$room/capture"
refuse 'a frame more' too-many

# large_frame BYTES: the header of the emitted spelling, and a frame of so many bytes, all 0, at second 0.
# BYTES stands as four bytes low byte first in $length.
large_frame() {
    head -c 24 "$emitted"
    printf '\0\0\0\0\0\0\0\0'
    # shellcheck disable=SC2059
    printf "$length$length"
    head -c "$1" /dev/zero
}

length='\000\000\004\000'
large_frame 262144 >"$room/capture"
cp "$room/capture" "$room/wanted"
sent 'the largest frame' 1 "$room/wanted"
length='\001\000\004\000'
large_frame 262145 >"$room/capture"
refuse 'a frame of a byte more' 'too-long 24 262145'

# tenfold FILE TO: ten copies of a file, one behind the other.
tenfold() {
    cat "$1" "$1" "$1" "$1" "$1" "$1" "$1" "$1" "$1" "$1" >"$2"
}

# A thousand frames of 1,514 bytes on each of two ports, as tcpdump writes them: TCP over IPv4 from
# 10.0.0.1 port 40000 to 192.0.2.80 port 80, at second 0.
{
    printf '\0\0\0\0\0\0\0\0\352\005\0\0\352\005\0\0'
    printf '\002\0\0\0\0\001\002\0\0\0\0\002\010\0'
    printf '\105\0\005\334\0\001\0\0\100\006\250\312\012\0\0\001\300\0\002\120'
    printf '\234\100\0\120\0\0\0\001\0\0\0\001\120\020\040\0\0\0\0\0'
    head -c 1460 /dev/zero
} >"$room/1"
tenfold "$room/1" "$room/10"
tenfold "$room/10" "$room/100"
tenfold "$room/100" "$room/1000"
head -c 24 "$low" | cat - "$room/1000" >"$room/thousand"
head -c 24 "$emitted" | cat - "$room/1000" "$room/1000" >"$room/wanted"
chain=examples/37-two-made-ports/chain.json
run "$room/thousand" "$room/thousand"
summary 2000 >"$room/line"
judge 'a thousand frames on each of two ports' 0 "$room/wanted"

# Half as many, below every mark and size: the same is emitted without --serial.
head -c $((24 + 500 * 1530)) "$room/thousand" >"$room/half"
head -c $((24 + 1000 * 1530)) "$room/wanted" >"$room/wanted_half"
rm -f "$room/out"
./onvm "$chain" "$room/out" "$room/half" "$room/half" >"$room/report"
status=$?
head -n 2 "$room/report" >"$room/said"
summary 1000 | head -n 2 >"$room/line"
judge 'five hundred frames on each of two ports, without --serial' 0 "$room/wanted_half"

# Chain files of the largest size, which white space fills up, and of a byte more.
# spaces COUNT: the first example's chain file, and so much white space.
spaces() {
    cat examples/01-one-frame/chain.json
    head -c "$1" /dev/zero | tr '\0' ' '
}

cp "$low" "$room/capture"
chain=$room/chain
spaces $((1048576 - 155)) >"$chain"
sent 'the largest chain file' 1 "$emitted"
spaces $((1048577 - 155)) >"$chain"
run "$room/capture"
echo 'fault plan limit file' >"$room/line"
judge 'a chain file of a byte more' 3

# 32,769 brackets, where 32,768 are read: of so many lists in each other it is no JSON.
head -c 32769 /dev/zero | tr '\0' '[' >"$chain"
run "$room/capture"
judge 'a bracket too many' 3
head -c 32768 /dev/zero | tr '\0' '[' >"$chain"
run "$room/capture"
echo 'fault plan json file' >"$room/line"
judge 'as many brackets as are read' 3

echo "captures: $passed passed, $wrong failed"
[ "$passed" -gt 0 ] && [ "$wrong" -eq 0 ]
