#!/bin/sh
# Runs 100,000 cycles by `sim`, and as many of the module that `pipe` writes by `watch`: a machine with a file of 65,536 words, which is only
# read, one that writes a word of two such files in each cycle, and the pipelined sample processor. Prints the seconds and the memory:
# sh benches/watch.sh
#
# KP names another program than ./kp.
set -eu
. "$(dirname "$0")/common.sh"
cycles=100000

looping "$work/processor"
cat > "$work/writing" << 'END'
machine writing;
stages 3;
reg N : 16 = 16'h0000;
file F : 16 [16];
file G : 16 [16];
pipe A : 16;
pipe B : 16;
result CN : 16 -> N at 1;
result CF : 16 -> F[A] at 2;
result CG : 16 -> G[B] at 2;
stage 0 {
  read n = N;
  read f = F[n];
  set CN = n + 16'h0001;
  put A = n * 16'h0005;
  put B = f + n;
  set CF = f ^ n;
  set CG = n;
}
stage 1 { }
stage 2 { }
end
END

for job in "$top/examples/big.kp" "$work/writing" "$work/processor"; do
    name=$(basename "$job")
    "$kp" pipe < "$job" | cat "$job" - > "$work/both"
    measured "sim $cycles of $name" "$kp" sim $cycles < "$job" > "$work/rows"
    measured "watch $cycles of $name" "$kp" watch $cycles < "$work/both" > "$work/written"
    cmp -s "$work/rows" "$work/written" && echo "watch: the text of sim" || echo "watch: ANOTHER TEXT"
done
