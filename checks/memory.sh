#!/bin/bash
# What the program does where memory is refused: bash checks/memory.sh
#
# Runs `sim 3`, `timing 3`, `pipe` and words that aren't accepted on the counter, `read` on its module, `watch 3` on both, `equiv` on the counter with its module twice, and
# `debug` on an example with its script. Each is run once for each call for memory that it makes, and that call fails in this run (checks/memory.c).
# Each run must end with status 5 and nothing written, or with the status and the text of a run in which no call fails. The line of each command
# says how many runs did the one and the other, and how many neither. The status is 0 where none did neither, and 77 where there is no C compiler.
# KP names another program than ./kp.
. "$(dirname "$0")/common.sh"
need cc
cc -O1 -shared -fPIC -o "$work/memory.so" "$top/checks/memory.c" -ldl || exit 70

# run REFUSE WORD.. runs the program on $work/input, and leaves what it wrote in $work/written
run() {
    local refused=$1
    shift
    REFUSE=$refused COUNT=$work/calls LD_PRELOAD=$work/memory.so "$kp" "$@" < "$work/input" > "$work/written" 2> "$work/errors"
}

all=0
# each WORD.. refuses each call in turn
each() {
    local status n calls none=0 same=0 other=0
    run 0 "$@"
    status=$?
    calls=$(cat "$work/calls")
    cp "$work/written" "$work/expected"
    for ((n = 1; n <= calls; n++)); do
        run "$n" "$@"
        case $? in
            5) if [ -s "$work/written" ]; then other=$((other + 1)); else none=$((none + 1)); fi ;;
            "$status") if cmp -s "$work/written" "$work/expected"; then same=$((same + 1)); else other=$((other + 1)); fi ;;
            *) other=$((other + 1)) ;;
        esac
    done
    echo "$*: $calls calls for memory: without one of them $none runs end with status 5 and write nothing, $same write the expected text, $other do neither"
    all=$((all + calls))
    wrong=$((wrong + other))
}

cp "$top/examples/acc3.kp" "$work/input"
each sim 3
each timing 3
each pipe
each sim 3 4
"$kp" pipe < "$top/examples/acc3.kp" > "$work/module"
cp "$work/module" "$work/input"
each read
cat "$top/examples/acc3.kp" "$work/module" > "$work/input"
each watch 3
cat "$top/examples/acc3.kp" "$work/module" "$work/module" > "$work/input"
each equiv
cat "$top/examples/guess3.kp" "$top/examples/rollback.script" > "$work/input"
each debug
echo "$all calls refused, $wrong runs wrong"
[ "$wrong" -eq 0 ]
