#!/bin/bash
# Puts the Verilog that `pipe` writes to other tools: bash checks/verilog.sh [JOB.kp ..] [random N]
#
# The jobs are those named and N random ones (checks/random_job.py), or else the examples and 20 random ones. For each module
#
#     iverilog   -Wall prints nothing
#     verilator  --lint-only -Wall prints nothing, but for signals that aren't used and comparisons that the job makes constant, as in x < 8'h00
#     yosys      reads it, and `check -assert` finds nothing
#     run        CYCLES cycles in Icarus, 200 by default, under random stall words, samples and resets have the rows of `sim`, and the values of `seq`
#                after as many instructions as the update enables count. After each reset both begin again with the words in the files of the
#                circuit (checks/resets.py). Needs Python 3.
#     gates      what `synth` of Yosys makes of it has the same `full`, `ue` and `back` in such a run of CYCLES cycles (checks/gates.py). Needs
#                Python 3, Yosys and Icarus.
#     ports      the module that kpcore writes for the same job, with ports of each kind, shows through these ports what `sim` and `seq` print, over
#                the words that are loaded under resets (checks/ports.py), in Icarus, and in Verilator for the first two jobs. Needs Python 3, Icarus
#                and the program kpcore. Icarus and Verilator print nothing of it, as above: ports-i and ports-v.
#     named      the module of `kpcore --named` without its names is that of `pipe`. Icarus and Verilator print nothing of it (named-i, named-v), and Yosys makes
#                the same cells of both (named-c).
#     comments   the module of `kpcore --comments` without its comments is that of `pipe`. Icarus and Verilator print nothing of it (comments-i, comments-v).
#
# Where acc3 is among the jobs, Yosys has to make as many flip-flops of its module, with ports and without, as the widths of its values say (cells).
#
# A tool that isn't installed is left out, and the last line names it. That line is `N checked, M wrong`, and the status is 0 where M is 0, and 77
# where nothing could be checked. Yosys has MOST seconds for a module, and again for its gates, 60 by default: it unrolls the loops over large files
# and makes flip-flops of their words, and is skipped where that takes longer. KP and KPCORE name other programs than ./kp and ./kpcore, SEED the first random job, 1 by default.
. "$(dirname "$0")/common.sh"
cycles=${CYCLES:-200}
seconds=${MOST:-60}
seed=${SEED:-1}
kpcore=${KPCORE:-$top/crates/kpcore/out/kpcore}
verilated=2

fail() {
    echo "verilog: $*" >&2
    exit 1
}

# lint NAME MODULE WORD WORD: what Icarus and Verilator say of a module, under these words
lint() {
    if has iverilog; then
        iverilog -Wall -g2005 -o "$work/lint.vvp" "$2" >"$work/said" 2>&1 || echo "status $?" >>"$work/said"
        quiet "$1" "$3" "$work/said"
    fi
    if has verilator; then
        verilator --lint-only -Wall -Wno-UNUSEDSIGNAL -Wno-UNUSED -Wno-UNSIGNED -Wno-CMPCONST "$2" >"$work/said" 2>&1 || echo "status $?" >>"$work/said"
        quiet "$1" "$4" "$work/said"
    fi
}

# ports NAME JOB SEED MODULE
ports() {
    local tools=iverilog
    if [ "$verilated" -gt 0 ] && has verilator; then
        tools="iverilog verilator"
        verilated=$((verilated - 1))
    fi
    : >"$4"
    says "$1" ports "$(python3 "$top/checks/ports.py" "$kp" "$kpcore" "$2" "$3" "$cycles" "$4" $tools 2>&1 | tail -n 1)"
    if [ -s "$4" ]; then lint "$1" "$4" ports-i ports-v; fi
}

# cells MODULE: the cells that Yosys makes of a module, by kind
cells() { timeout "$seconds" yosys -q -p "read_verilog $1; hierarchy -check -auto-top; proc; opt_clean; tee -q -o $work/stat stat" && sed -n '/umber of cells\| cells$/,$p' "$work/stat"; }

# named NAME JOB MODULE
named() {
    "$kpcore" --named "$2" >"$work/named.v"
    sed '/^  \/\/ Names for viewers/,/^  \/\* verilator lint_on UNUSEDSIGNAL/d' "$work/named.v" | cmp - "$3" >"$work/said" 2>&1
    quiet "$1" named "$work/said"
    lint "$1" "$work/named.v" named-i named-v
    if has yosys; then
        cells "$3" >"$work/cells"
        cells "$work/named.v" | cmp - "$work/cells" >"$work/said" 2>&1
        quiet "$1" named-c "$work/said"
    fi
}

# comments NAME JOB MODULE
comments() {
    "$kpcore" --comments "$2" >"$work/comments.v"
    sed 's,  //.*,,' "$work/comments.v" | cmp - "$3" >"$work/said" 2>&1
    quiet "$1" comments "$work/said"
    lint "$1" "$work/comments.v" comments-i comments-v
}

# verilog NAME JOB SEED
verilog() {
    local name=$1 job=$2 module="$work/m_$1.v"
    if ! "$kp" pipe <"$job" >"$module"; then
        says "$name" pipe "$(head -c 200 "$module")"
        return
    fi
    lint "$name" "$module" iverilog verilator
    if has yosys; then
        timeout "$seconds" yosys -q -p "read_verilog $module; hierarchy -check -auto-top; proc; check -assert" >"$work/said" 2>&1
        case $? in
            0) quiet "$name" yosys "$work/said" ;;
            124) says "$name" yosys "skipped: more than $seconds s" ;;
            *) says "$name" yosys "$(tail -n 1 "$work/said")" ;;
        esac
    fi
    if has iverilog && has python3; then
        says "$name" run "$(python3 "$top/checks/resets.py" "$kp" "$job" "$3" "$cycles" 2>&1 | tail -n 1)"
    fi
    if has yosys && has iverilog && has python3; then
        says "$name" gates "$(python3 "$top/checks/gates.py" "$kp" "$job" "$3" "$cycles" "$seconds" 2>&1 | tail -n 1)"
    fi
    if has "$kpcore"; then
        named "$name" "$job" "$module"
        comments "$name" "$job" "$module"
    fi
    if has "$kpcore" && has iverilog && has python3; then ports "$name" "$job" "$3" "$module"; fi
    if [ "$name" = acc3 ] && has "$kpcore" && has yosys && has python3; then
        says "$name" cells "$(python3 "$top/checks/ports.py" cells "$kp" "$kpcore" 2>&1 | tail -n 1)"
    fi
    rm -f "$module"
}

# The name of the machine, or nothing where the description is rejected.
name_of() { "$kp" check <"$1" | sed -n 's/^accepted \([^ ]*\) .*/\1/p'; }

jobs=()
count=
while [ $# -gt 0 ]; do
    if [ "$1" = random ]; then
        case ${2:-} in '' | *[!0-9]*) fail "after the word random comes a number of jobs" ;; esac
        count=$2
        shift
    else
        [ -f "$1" ] || fail "there is no file $1"
        jobs+=("$1")
    fi
    shift
done
if [ ${#jobs[@]} -eq 0 ] && [ -z "$count" ]; then
    jobs=("$top"/examples/*.kp)
    count=20
fi

for job in "${jobs[@]}"; do
    name=$(name_of "$job")
    if [ -n "$name" ]; then verilog "$name" "$job" "$seed"; else says "$(basename "$job")" check "$("$kp" check <"$job")"; fi
done
if [ "${count:-0}" -gt 0 ] && has python3; then
    for ((it = seed; it < seed + count; it++)); do
        python3 "$top/checks/random_job.py" "$it" >"$work/random.kp"
        verilog "random_$it" "$work/random.kp" "$it"
    done
fi
summary
