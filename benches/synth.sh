#!/bin/sh
# Synthesises the netlists of a few machines, and prints how many nodes each has, the bound on that number, and the seconds and the
# memory: sh benches/synth.sh
#
# The large machines have 12 stages, 64 registers, 128 pipes, 256 reads and 8 guesses, and expressions of three sizes.
set -eu
. "$(dirname "$0")/common.sh"
cd "$top/crates/kp_test_cases" && rt run -- < "$top/examples/acc3.kp" > "$work/built" 2>&1 || true

nodes() {
    { echo "==== netlist nodes $1"; cat "$2"; } > "$work/case"
    "$kp" check < "$2"
    measured "synthesis of $1" "$top/crates/kp_test_cases/out/kp_test_cases" < "$work/case"
}
for name in acc3 near unk4 smp3 dlx5; do
    nodes "$name" "$top/examples/$name.kp"
done
for size in 25000 50000 100000; do
    large "$size" > "$work/large"
    nodes "expressions of $size" "$work/large"
done
