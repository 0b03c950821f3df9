#!/bin/bash
# Compares the dumps that `vcd` writes with those of Icarus: bash checks/waves.sh [JOB.kp ..]
#
# For each job, or each example, the Verilog that `pipe` writes runs in Icarus under random stalls and samples, and Icarus dumps its changes. In each
# cycle `full`, `ue`, `back` and the registers must have the values in this dump that the dump of `vcd 200` contains at that time, and the registers
# also after the last cycle. `vcd2fst`, of GTKWave, must accept each dump of `vcd` without a message. After the examples, examples/system runs in Icarus: it
# must print lights that are one more than the keys, and its dump must have the signals that its list for GTKWave names. A tool that isn't installed is
# left out, and the last line names it. That line is `N checked, M wrong`, and the status is 0 where M is 0, and 77 where nothing could be checked. KP
# and KPCORE name other programs than ./kp and ./kpcore, CYCLES another number of cycles.
. "$(dirname "$0")/common.sh"
cycles=${CYCLES:-200}
kpcore=${KPCORE:-$top/crates/kpcore/out/kpcore}

# shaken JOB SEED: the job without its stalls and inputs, and with random ones for all stages and samples.
shaken() {
    awk -v cycles="$cycles" -v seed="$2" '
        /^(stalls|inputs)[ {]/ { skipping = 1 }
        skipping { if (/}/) skipping = 0; next }
        /^stages / { n = $2 + 0 }
        /^sample / { split($0, w, /[ :]+/); name[++samples] = w[2]; width[samples] = w[3] + 0 }
        /^end/ { exit }
        { print }
        END {
            srand(seed)
            print "stalls {"
            for (t = 0; t < cycles; t++) for (k = 0; k < n; k++) if (rand() < 0.25) printf "  %d from %d to %d;\n", k, t, t
            print "}"
            if (samples) {
                print "inputs {"
                for (t = 0; t < cycles; t++) for (s = 1; s <= samples; s++) if (rand() < 0.4)
                    printf "  %s = %d%sd%d from %d to %d;\n", name[s], width[s], "\047", int(rand() * 2 ^ (width[s] < 30 ? width[s] : 30)), t, t
                print "}"
            }
            print "end"
        }' "$1"
}

# The values that a dump contains, a line `TIME NAME BITS` each: all signals at each time, but only the registers after the last cycle.
held() {
    awk -v cycles="$cycles" '
        function tell(until) {
            for (; printed < until; printed++) for (s = 0; s < signals; s++) if (printed < cycles || isreg[s]) print printed + 0, name[s], value[s]
        }
        $1 == "$var" { isreg[signals] = $2 == "reg"; name[signals++] = $5 }
        /^#/ { tell(substr($1, 2) + 0) }
        /^b/ { value[substr($2, 2) + 0] = substr($1, 2) }
        /^[01]s/ { value[substr($1, 3) + 0] = substr($1, 1, 1) }
        END { tell(cycles + 1) }' "$1"
}

# The same of the dump that Icarus wrote of the bench below: cycle t is read at 3 t + 1 units from the start. Icarus leaves out leading zeros.
dumped() {
    awk -v cycles="$cycles" '
        function tell(until,  s, v) {
            for (; printed <= cycles && 3 * printed + 1 < until; printed++) for (s = 0; s < signals; s++) if (printed < cycles || isreg[s]) {
                v = value[id[(s < 3 ? "" : "dut.") name[s]]]
                while (length(v) < width[s]) v = "0" v
                print printed + 0, name[s], v
            }
        }
        BEGIN { signals = 0 }
        FNR == NR { if ($1 == "$var") { isreg[signals] = $2 == "reg"; width[signals] = $3; name[signals++] = $5 } next }
        $1 == "$scope" { scope[++depth] = $3 }
        $1 == "$upscope" { depth-- }
        $1 == "$var" && depth == 1 { id[$5] = $4 }
        $1 == "$var" && depth == 2 && scope[2] == "dut" { id["dut." $5] = $4 }
        /^#/ { tell(substr($1, 2) + 0) }
        /^b/ { value[$2] = substr($1, 2) }
        /^[01xz]/ { value[substr($1, 2)] = substr($1, 1, 1) }
        END { tell(3 * cycles + 2) }' "$1" "$2"
}

# A test bench that drives the module as the sections of the job say, and has its changes dumped.
bench() {
    awk -v cycles="$cycles" -v dump="$work/icarus.vcd" '
        FNR == 1 { file++ }
        file == 1 && /^stages / { n = $2 + 0 }
        file == 1 && /^(stalls|inputs)/ { part = $1 }
        file == 1 && part == "stalls" && / from / { stall[$3 + 0, $1 + 0] = 1 }
        file == 1 && part == "inputs" && / from / { input[$5 + 0, $1] = $3 }
        file == 2 && /^module / { match($0, /m_[A-Za-z0-9_]+/); module = substr($0, RSTART, RLENGTH)
            ports = $0
            while (match(ports, /\[[0-9]+:0\] s_[A-Za-z0-9_]+/)) {
                split(substr(ports, RSTART, RLENGTH), p, " "); range[substr(p[2], 3)] = p[1]
                ports = substr(ports, RSTART + RLENGTH)
            }
            reset = /input wire rst/ }
        END {
            print "module bench;\n  reg clk;\n  reg rst;"
            printf "  reg [%d:0] ext;\n  wire [%d:0] full;\n  wire [%d:0] ue;\n  wire [3:0] back;\n", n - 1, n - 1, n - 1
            for (s in range) printf "  reg %s s_%s;\n", range[s], s
            printf "  %s dut(.clk(clk)%s, .ext(ext), .full(full), .ue(ue), .back(back)", module, reset ? ", .rst(rst)" : ""
            for (s in range) printf ", .s_%s(s_%s)", s, s
            print ");\n  task cycle; begin\n    #2 clk = 1; #1 clk = 0;\n  end endtask\n  initial begin"
            print "    $dumpfile(\"" dump "\");\n    $dumpvars(2, bench);\n    clk = 0; rst = 0;"
            for (t = 0; t < cycles; t++) {
                word = ""
                for (k = n - 1; k >= 0; k--) word = word ((t, k) in stall ? 1 : 0)
                printf "    ext = %d\047b%s;", n, word
                for (s in range) { v = ((t, s) in input) ? input[t, s] : "0;"; sub(/;.*/, "", v); printf " s_%s = %s;", s, v }
                print " cycle;"
            }
            print "    #2 $finish;\n  end\nendmodule"
        }' "$1" "$2"
}

# The module in Icarus beside the dump.
run() {
    has iverilog || return
    "$kp" pipe <"$work/shaken.kp" >"$work/shaken.v"
    held "$work/shaken.vcd" >"$work/expected"
    bench "$work/shaken.kp" "$work/shaken.v" >"$work/bench.v"
    { iverilog -g2005 -o "$work/run.vvp" "$work/bench.v" "$work/shaken.v" && timeout 120 vvp -n "$work/run.vvp"; } >"$work/said" 2>&1 || { says "$1" iverilog "$(head -n 1 "$work/said")"; return; }
    dumped "$work/shaken.vcd" "$work/icarus.vcd" >"$work/given"
    if [ -s "$work/expected" ] && cmp -s "$work/expected" "$work/given"; then
        says "$1" iverilog "ok: $(wc -l <"$work/given") values"
    else
        says "$1" iverilog "$(diff "$work/expected" "$work/given" | head -n 2 | tr '\n' ' ')"
    fi
}

convert() {
    has vcd2fst || return
    vcd2fst "$work/shaken.vcd" "$work/shaken.fst" >"$work/said" 2>&1 || echo "status $?" >>"$work/said"
    if [ -s "$work/said" ]; then says "$1" vcd2fst "$(head -n 1 "$work/said")"; else says "$1" vcd2fst ok; fi
}

# The signals of a dump, as GTKWave names them.
signals() {
    awk '
        $1 == "$scope" { path = path $3 "." }
        $1 == "$upscope" { sub(/[^.]*[.]$/, "", path) }
        $1 == "$var" { print path $5 ($6 == "$end" ? "" : $6) }' "$1"
}

# The system of examples/system, as docs/VERILOG.md runs it.
system() {
    local from="$top/examples/system"
    has iverilog && has "$kpcore" || return
    (
        cd "$work" || exit
        cat "$from/bus4.kp" "$from/bus4.ports" | "$kpcore" >core.v &&
            iverilog -g2005 -o system.vvp "$from/bench.v" "$from/system.v" core.v && timeout 120 vvp -n system.vvp
    ) >"$work/said" 2>&1 || echo "status $?" >>"$work/said"
    if [ "$(awk '$2 == "lights" { printf "%s ", $3 }' "$work/said")" = '11 21 ' ]; then
        says system iverilog ok
    else
        says system iverilog "$(tail -n 1 "$work/said")"
        return
    fi
    grep -v '^[][*@-]' "$from/system.gtkw" | sort >"$work/listed"
    signals "$work/system.vcd" | sort >"$work/dumped"
    comm -23 "$work/listed" "$work/dumped" >"$work/said"
    [ -s "$work/listed" ] || echo 'lists no signal' >>"$work/said"
    quiet system gtkw "$work/said"
}

all=
[ $# -gt 0 ] || { all=1; set -- "$top"/examples/*.kp; }
seed=0
for job; do
    [ -f "$job" ] || { echo "waves: there is no file $job" >&2; exit 1; }
    "$kp" check <"$job" >"$work/checked" || { says "$(basename "$job")" check "$(head -n 1 "$work/checked")"; continue; }
    name=$(awk '{ print $2 }' "$work/checked")
    seed=$((seed + 1))
    shaken "$job" "$seed" >"$work/shaken.kp"
    "$kp" vcd "$cycles" <"$work/shaken.kp" >"$work/shaken.vcd"
    run "$name" "$job"
    convert "$name"
done
[ -z "$all" ] || system
summary
