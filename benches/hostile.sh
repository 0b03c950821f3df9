#!/bin/sh
# Runs the commands on large inputs that are neither a job nor a module, and prints the seconds and the memory of each: sh benches/hostile.sh
#
# Each command gets inputs of 16 MiB, and of one byte more, which violates E3: random bytes, one line of letters, brackets, digits; and a job and
# a module with a correct prefix, then brackets. Each run is to take at most 5 seconds and 1 GiB. The last line counts those that took more. The
# text that is written is no matter here: the stored runs of crates/kp_test_cases test it. Needs Python 3 and GNU time.
set -eu
. "$(dirname "$0")/../checks/common.sh"

[ -x /usr/bin/time ] || { echo "hostile: GNU time isn't installed" >&2; exit 1; }
python3 - "$work" "$top/examples/acc3.kp" <<'P'
import random
import sys

work, acc3 = sys.argv[1], open(sys.argv[2], "rb").read()
size = 1 << 24
module = b"module m_cnt(input wire clk, input wire [1:0] ext, output wire [1:0] full, output wire [1:0] ue, output wire [3:0] back);\n  assign full = "
begun = acc3[: acc3.index(b"A + ")]
texts = {
    "random": random.Random(7).randbytes(size),
    "letters": b"a" * size,
    "brackets": b"(" * size,
    "digits": b"1" * size,
    "begun": begun + b"(" * (size - len(begun)),
    "module": module + b"(" * (size - len(module)),
    "words": (b".word 1\n" * (size // 8))[:size],
    "end": acc3 + b"(" * (size - len(acc3)),
}
for name, text in texts.items():
    with open(f"{work}/{name}", "wb") as it:
        it.write(text)
    with open(f"{work}/{name}+1", "wb") as it:
        it.write(text + b"(")
P

late=0
printf '%-10s %-9s %7s %9s  %s\n' input command seconds MiB written
for text in random letters brackets digits begun module words end; do
    for more in '' +1; do
        for words in check 'seq 1' 'sim 1' 'vcd 1' 'timing 1' pipe read 'watch 1' asm; do
            status=0
            /usr/bin/time -o "$work/took" -f '%e %M' "$kp" $words < "$work/$text$more" > "$work/written" || status=$?
            tail -n 1 "$work/took" > "$work/last"
            read -r seconds memory < "$work/last"
            printf '%-10s %-9s %7s %9s  %s %s\n' "$text$more" "$words" "$seconds" "$((memory / 1024))" "$status" "$(head -c 40 "$work/written" | head -n 1)"
            awk -v s="$seconds" -v m="$memory" 'BEGIN { exit s > 5 || m > 1048576 }' || late=$((late + 1))
        done
    done
done
echo "$late took more than 5 seconds or 1 GiB"
