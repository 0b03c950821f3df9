# What the scripts of this folder share, with all of checks/common.sh.
. "$(dirname "$0")/../checks/common.sh"

# looping FILE: writes the sample processor dlx5 with a program that loops for ever
looping() {
    printf 'loop: addi r1, r1, 1\n sw r1, 0(r2)\n lw r3, 0(r2)\n add r4, r4, r3\n j loop\n nop\n' > "$work/loop.dlx"
    KP=$kp "$top/examples/with-program" dlx5.kp "$work/loop.dlx" > "$1"
}

# large SIZE: prints a machine with 12 stages, 64 registers, 128 pipes, 256 reads, 8 guesses, and expressions of about SIZE units
large() {
    awk -v size="$1" 'BEGIN {
        q = sprintf("%c", 39)
        print "machine large;\nstages 12;"
        for (i = 0; i < 64; i++) printf "reg R%d : 32 = 32%sh%x;\n", i, q, i
        for (i = 0; i < 128; i++) printf "pipe P%d : 32;\n", i
        for (i = 0; i < 64; i++) printf "result C%d : 32 -> R%d at 11;\n", i, i
        print "stage 0 {"
        for (i = 0; i < 256; i++) {
            if (i < 8) printf "  read x%d = R%d guess 32%sh%x;\n", i, i, q, i
            else printf "  read x%d = R%d;\n", i, i % 64
        }
        for (i = 0; i < 128; i++) printf "  put P%d = x%d + x%d;\n", i, i, i + 128
        for (i = 0; i * 5 + 2000 < size; i++) printf "  let y%d = (x%d + x%d) ^ 32%sh%x;\n", i, i % 256, (i * 7 + 3) % 256, q, i
        print "}"
        for (k = 1; k < 12; k++) {
            printf "stage %d {\n", k
            if (k == 10) for (i = 0; i < 64; i++) printf "  set C%d = P%d + P%d;\n", i, i, i + 64
            print "}"
        }
        print "end"
    }'
}
