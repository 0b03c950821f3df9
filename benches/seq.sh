#!/bin/sh
# Runs 100,000 instructions of the sample processor, checks descriptions of 16 MiB, and prints the seconds and the memory: sh benches/seq.sh
#
# The processor runs an endless loop. Of the two descriptions one has 90,000 statements with long comments, and is accepted; the
# other has as many statements as fit, which are too many, and is rejected near its end. KP names another program than ./kp.
set -eu
. "$(dirname "$0")/common.sh"

looping "$work/processor"

# a machine whose first stage has the lines of standard input
around() {
    printf 'machine large;\nstages 2;\nreg X : 8 = 8%sh01;\nresult C : 8 -> X at 1;\nstage 0 {\n' "'"
    cat
    printf '}\nstage 1 { }\nend\n'
}
seq 90000 | awk '{ printf "let name_%d = 8'"'"'h01; // %140s\n", $1, "a comment that is long enough" }' | around > "$work/accepted"
seq 600000 | awk '{ printf "let n%06d = 8'"'"'h01 + 8'"'"'h02;\n", $1 }' | head -c 16777000 | sed '$d' | around > "$work/refused"

measured "seq 100000 of the sample processor" "$kp" seq 100000 < "$work/processor" | head -n 3
for text in accepted refused; do
    measured "check of $(wc -c < "$work/$text") bytes" "$kp" check < "$work/$text" || true
done
