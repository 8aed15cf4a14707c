# To be read by a check at its begin: goes to the repository's top, builds what is old, makes a folder
# of its own, $room, and counts from 0 what passed and what is wrong. Where ONVM_PROGRAM names a
# program, ./onvm becomes that one, and nothing is built.
cd "$(dirname "$0")/.." || exit 1
if [ -z "${ONVM_PROGRAM:-}" ]; then
    make --no-print-directory -s build || exit 1
    # so that ./onvm doesn't look for newer sources in each run
    export ONVM_PROGRAM="$PWD/crates/onvm_main/out/onvm_main"
fi
room=$(mktemp -d) || exit 1
trap 'rm -rf "$room"' EXIT
passed=0
wrong=0

# summary COUNT: the report of a run of so many frames, all of which were sent, with one tick.
summary() {
    printf '%s %s\n' frames "$1" sent "$1" asked 0 chain-end 0 no-service 0 no-port 0 hops 0 \
        throttled 0 ring-full 0 pool-empty 0 posts 0 ticks 1 lost 0 yields 0
}
