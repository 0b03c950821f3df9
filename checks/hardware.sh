#!/bin/bash
# Prints how large and how slow the Verilog of `pipe` is in hardware: bash checks/hardware.sh [--outside] [JOB.kp|MODULE.v ..]
#
# The designs are those named, or the examples. Yosys maps each to look-up tables with four inputs, with the files left as memories: LUT4 and FF count
# tables and flip-flops, and `path` is the number of tables on the longest path between registers and memories. It does so twice: by its default script, and
# `balanced`, with chains of choices, sums and comparisons made level first, which has a shorter path in more tables. Where the files of a design have at
# most 8,192 bits, Yosys maps it to the iCE40 family too, with the files in block RAM or in flip-flops, and nextpnr-ice40 places it on an HX8K and
# prints the clock that it reaches, in MHz.
#
# A file of more than 131,072 bits, as the memories of the RISC-V machines, is outside: its words are inputs of the design, and its addresses and what it is
# written outputs. For nextpnr such a design is placed between registers, from which a word comes at once: a real memory adds its time to the clock.
# With --outside all files are outside, and nothing is placed, as checks/depth.py needs it.
#
# Where benches/by-hand has a pipeline of the same name as a job, it follows the job, and a line `beside` with what the module of `pipe` has for
# each 1 of the pipeline by hand. Another order of the same cells moves LUT4 by some percent, `path` by one and the clock by a tenth, so small
# differences say nothing.
#
# A synthesiser deletes what no output depends on, and a module of `pipe` has no output for its values. So the registers r_R and the write ports of
# the files are made outputs first, and in a module by hand what its line `// expose:` names. Bits of a file that is never written, as an instruction
# memory, and that are the same in all its words, are constants for Yosys; so such a file gets random words, and the numbers of a processor don't
# depend on the program in its image.
#
# Needs Yosys; nextpnr-ice40 is left out where it isn't installed. The status is 0 where each design went through, and 77 without Yosys. Yosys and
# nextpnr have MOST seconds each, 200 by default. KP names another program than ./kp.
. "$(dirname "$0")/common.sh"
seconds=${MOST:-200}
most=131072 places=yes
[ "${1:-}" = --outside ] && { most=0 places=; shift; }
need yosys
[ -z "$places" ] || has nextpnr-ice40 || places=

# The wires of a module that become outputs.
exposed() {
    sed -n 's/^\/\/ expose://p' "$1"
    sed -n -E 's/^  reg \[[0-9]+:0\] (r_[A-Za-z0-9_]+);$/\1/p' "$1"
    sed -n -E 's/^ +if \((n[0-9]+)\) f_[A-Za-z0-9_]+\[(n[0-9]+)\] <= (n[0-9]+);$/\1 \2 \3/p' "$1"
}

# A module with numbers in place of the parameter of the modules by hand, and with random words in each file that it never writes.
filled() {
    sed -e 's/(1 << AW) - 1/1023/; s/(1 << AW)/1024/' "$1" >"$work/plain.v"
    awk '
        function digit() { seed = seed * 16807 % 2147483647; return int(seed / 134217728) }
        function word(bits,  text) {
            text = bits % 4 ? sprintf("%x", digit() % 2 ^ (bits % 4)) : ""
            for (bits = int(bits / 4); bits > 0; bits--) text = text sprintf("%x", digit())
            return text
        }
        function file(line) { match(line, /f_[A-Za-z0-9_]+/); return substr(line, RSTART, RLENGTH) }
        BEGIN { seed = 1 }
        FNR == NR && /^ +reg \[[0-9]+:0\] f_/ { it = $2; gsub(/[^0-9:]/, "", it); width[file($0)] = it + 1 }
        FNR == NR { if (match($0, /f_[A-Za-z0-9_]+\[[^]]*\]+ <= /)) written[file(substr($0, RSTART))] = 1; next }
        { print }
        /^ +for \(i = 0; i < [0-9]+; i = i \+ 1\) f_/ && !(file($0) in written) {
            words = $0; sub(/.* i < /, "", words)
            for (at = 0; at < words + 0; at++) printf "    %s[%d] = %d\047h%s;\n", file($0), at, width[file($0)], word(width[file($0)])
        }' "$work/plain.v" "$work/plain.v"
}

# A module whose large files are outside: a word that is read is an input in_WIRE.
without_large_files() {
    awk -v most="$most" '
        function file(line) { match(line, /f_[A-Za-z0-9_]+/); return substr(line, RSTART, RLENGTH) }
        function wires(line,  text) { text = line; gsub(/f_[A-Za-z0-9_]+|[^n0-9]+/, " ", text); return text }
        FNR == NR && /^ +reg \[[0-9]+:0\] f_/ {
            it = $0; gsub(/^[^[]*\[|:0\].*/, "", it)
            words = $0; sub(/.*:/, "", words)
            if ((it + 1) * (words + 1) > most) large[file($0)] = 1
        }
        FNR == NR && /^ +wire \[/ { it = $2; gsub(/[^0-9:]/, "", it); sub(/:.*/, "", it); width[$3] = it }
        FNR == NR && /^ +assign n[0-9]+ = f_/ && (file($0) in large) { inputs = inputs ", input wire [" width[$2 ";"] ":0] in_" $2 }
        FNR == NR { next }
        /^module / { sub(/\);$/, inputs ");") }
        !/ f_/ || !(file($0) in large) { print; next }
        /^ +assign / { print "  assign " $2 " = in_" $2 ";"; text = $0; sub(/.*\[/, "", text); print "// expose:" wires(text) }
        / <= / { print "// expose:" wires($0) }' "$1" "$1"
}

# between_registers MODULE WIRES: a module `between` whose registers give the module its inputs and take its outputs and these wires
between_registers() {
    awk -v exposed=" $2 " -v from=0 -v to=0 '
        function bits(it) { gsub(/[^0-9:]/, "", it); sub(/:.*/, "", it); return it + 1 }
        function out(name, count) { links = links ", ." name "(o[" to " +: " count "])"; to += count }
        /^module / {
            top = $2; sub(/\(.*/, "", top)
            ports = $0; sub(/^[^(]*\(/, "", ports); sub(/\);$/, "", ports)
            for (at = split(ports, port, /, /); at > 0; at--) {
                count = split(port[at], word, " ")
                if (word[count] == "clk") continue
                if (word[1] == "output") { out(word[count], bits(word[3])); continue }
                many = count > 3 ? bits(word[3]) : 1
                links = links ", ." word[count] "(i[" from " +: " many "])"; from += many
            }
        }
        /^ +(wire|reg) \[[0-9]+:0\] [A-Za-z0-9_]+;$/ { name = $3; sub(/;/, "", name); if (index(exposed, " w:" name " ")) out(name, bits($2)) }
        END {
            printf "module between(input wire clk, input wire d, output wire q);\n  reg [%d:0] i;\n  wire [%d:0] o;\n  reg [%d:0] taken, chain;\n", from - 1, to - 1, to - 1
            printf "  %s it(.clk(clk)%s);\n  assign q = chain[%d];\n", top, links, to - 1
            print "  always @(posedge clk) begin\n    i <= {i, d};\n    taken <= o;\n    chain <= {chain, 1\047h0} ^ taken;\n  end\nendmodule"
        }' "$1"
}

# The bits of all files of a module.
bits_of() {
    awk '
        match($0, /reg \[[0-9]+:0\] f_[A-Za-z0-9_]+ \[0:[0-9]+\]/) {
            it = substr($0, RSTART, RLENGTH)
            gsub(/[^0-9:\[]/, "", it)
            split(it, part, /[:\[]/)
            words = it; sub(/.*:/, "", words)
            bits += (part[2] + 1) * (words + 1)
        }
        END { print bits + 0 }' "$1"
}

# number TYPES FILE: how many cells have a type that the expression matches, in the last statistics of the file
number() {
    awk -v types="$1" '/Number of cells:/ { all = 0; next } NF == 2 && $1 ~ types { all += $2 } END { print all + 0 }' "$2"
}

# path FILE: the length of the longest path
path() { sed -n 's/.*(length=\([0-9]*\)).*/\1/p' "$1" | tail -n 1; }

# The clock of the netlist d.json, placed.
clock() {
    timeout "$seconds" nextpnr-ice40 --hx8k --package ct256 --json "$work/d.json" --pcf-allow-unconstrained --seed 1 --freq 100 --timing-allow-fail \
        >"$work/said" 2>&1
    sed -n -E 's/.*Max frequency for clock.*: ([0-9.]+) MHz.*/\1 MHz/p' "$work/said" | tail -n 1 | grep . || echo "not placed in $seconds s"
}

printf '%s\n' strash balance dch balance 'if -K 4' balance dch 'if -K 4' >"$work/balanced.abc"

# design NAME KIND MODULE: sets `found` to its numbers: LUT4, FF, path, LUT4 and path balanced, and for the iCE40 LUT4, FF and MHz
design() {
    local name=$1 kind=$2 text=$work/filled.v top wires large begin lut ff path mapped clock outside="" ends
    found=
    without_large_files "$3" >"$work/outside.v"
    cmp -s "$3" "$work/outside.v" || outside=yes
    filled "$work/outside.v" >"$text"
    top=$(sed -n -E 's/^module ([A-Za-z0-9_]+).*/\1/p' "$text" | head -n 1)
    wires=$(exposed "$text" | tr ' ' '\n' | sed -n 's/^\(..*\)/w:\1/p' | sort -u | tr '\n' ' ')
    large=$(bits_of "$text")
    if [ "$large" -gt 262144 ]; then
        says "$name" "$kind" "skipped: files of $large bits, whose loops Yosys unrolls for minutes"
        return
    fi
    begin="read_verilog $text; hierarchy -check -top $top; proc; ${wires:+expose $wires;}"
    if ! timeout "$seconds" yosys -q -p "$begin flatten; opt_expr; opt_clean; opt -nodffe -nosdff; fsm; opt; wreduce; peepopt; opt_clean; alumacc; share; opt;
        memory -nomap; opt_clean; opt -fast -full; techmap; opt -fast; design -save gates; abc -lut 4; opt -fast; clean; tee -q -o $work/stat stat;
        tee -q -o $work/path ltp -noff; design -load gates; abc -script $work/balanced.abc -lut 4; opt -fast; clean; tee -q -o $work/stat-balanced stat;
        tee -q -o $work/path-balanced ltp -noff" \
        >"$work/said" 2>&1; then
        says "$name" "$kind" "Yosys fails or takes more than $seconds s: $(tail -n 1 "$work/said")"
        return
    fi
    lut=$(number '^[$]lut$' "$work/stat")
    ff=$(number '^[$]_.*DFF' "$work/stat")
    path=$(path "$work/path")
    ends=$(path "$work/path-balanced")
    found="$lut $ff ${path:-0} $(number '^[$]lut$' "$work/stat-balanced") ${ends:-0}"
    mapped="; balanced: $(number '^[$]lut$' "$work/stat-balanced") LUT4, path ${ends:-?}"
    if [ -n "$outside" ] && [ -n "$places" ]; then
        between_registers "$text" "$wires" >"$work/between.v"
        timeout "$seconds" yosys -q -p "$begin read_verilog $work/between.v; hierarchy -check -top between; synth_ice40 -top between -json $work/d.json" >"$work/said" 2>&1 &&
            mapped="$mapped; iCE40, memories outside: $(clock)"
    elif [ "$large" -le 8192 ] && [ -n "$places" ]; then
        if timeout "$seconds" yosys -q -p "$begin synth_ice40 -top $top -json $work/d.json; tee -q -o $work/stat stat" >"$work/said" 2>&1; then
            found="$found $(number '^SB_LUT4$' "$work/stat") $(number '^SB_DFF' "$work/stat")"
            mapped="$mapped; iCE40: $(number '^SB_LUT4$' "$work/stat") LUT4, $(number '^SB_DFF' "$work/stat") FF, $(number '^SB_RAM' "$work/stat") RAM"
            clock=$(clock)
            found="$found ${clock% MHz}"
            mapped="$mapped, $clock"
        else
            mapped="$mapped; iCE40: not mapped in $seconds s"
        fi
    fi
    says "$name" "$kind" "ok: $lut LUT4, $ff FF, path ${path:-?}$mapped"
}

# beside NAME OURS BY-HAND: the quotients of the numbers that both have
beside() {
    awk -v name="$1" -v ours="$2" -v other="$3" 'BEGIN {
        count = split(ours, a, " "); split(other, b, " ")
        split("LUT4,FF,path,LUT4,path,LUT4,FF,MHz", what, ",")
        for (it = 1; it <= count; it++) if (b[it] > 0) text = text (it == 4 ? "; balanced: " : it == 6 ? "; iCE40: " : it > 1 ? ", " : "") sprintf("%s %.2f", what[it], a[it] / b[it])
        printf "%-12s %-10s %s\n", name, "beside", text
    }'
}

[ $# -gt 0 ] || set -- "$top"/examples/*.kp
for it; do
    [ -f "$it" ] || { echo "hardware: there is no file $it" >&2; exit 1; }
    name=$(basename "$it")
    case $it in
        *.v) design "${name%.v}" module "$it" ;;
        *)
            name=${name%.kp}
            if ! "$kp" pipe <"$it" >"$work/module.v"; then
                says "$name" pipe "$(head -c 80 "$work/module.v")"
                continue
            fi
            design "$name" pipe "$work/module.v"
            hand="$top/benches/by-hand/$name.v"
            if [ -f "$hand" ]; then
                ours=$found
                design "$name" "by hand" "$hand"
                [ -z "$ours" ] || [ -z "$found" ] || beside "$name" "$ours" "$found"
            fi
            ;;
    esac
done
summary
