#!/bin/sh
# Assembles texts of 16 MiB, and prints the seconds and the memory: sh benches/asm.sh
#
# Two texts are assembled: comments alone, and a label on every line. KP names another program than ./kp.
set -eu
. "$(dirname "$0")/../checks/common.sh"
yes "; a comment line that says nothing at all" | head -c 16777216 > "$work/comments"
awk 'BEGIN { for (i = 0; i < 1100000; i++) printf "label_%07d:\n", i }' > "$work/labels"
for text in comments labels; do
    measured "asm of $text, $(wc -c < "$work/$text") bytes" "$kp" asm < "$work/$text" > "$work/out"
done
