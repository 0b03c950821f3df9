#!/bin/bash
# Runs GCC's torture tests on the RISC-V machines, and compares registers and memory with QEMU: bash checks/torture.sh [all] [MACHINE ..]
#
# The tests are gcc.c-torture/execute of GCC's source, some 1,700 programs. 20 of them, at equal distances, or with the word `all` all of them, are run on rv32i, or
# on the machines that are named. For each `kp seq` has to end with QEMU's program counter, registers and complete data memory, and so has the module of `pipe`, in
# Verilator or else in Icarus, once without stalls and once with random stalls of all stages. Programs that don't link, need more memory than the machines have, or
# take more than 100,000 instructions are left out, and a line says why.
#
# TORTURE names the folder of the tests. Without it they are fetched once, into out/torture, by `apt-get source gcc-12` from where apt has its packages: some 90 MB. Nothing
# of apt's own is changed, and where it fails the check is skipped. It needs GCC for RISC-V and QEMU; without picolibc more tests are left out. LEVEL is that of optimisation, O2
# by default, SEED that of the stalls, and JOBS the number of runs at a time. KP names another program than ./kp. The last line is
# `programs: N, left out: L, runs: R, different: M`, and the status is 0 where M is 0.
. "$(dirname "$0")/common.sh"
need python3
need riscv64-unknown-elf-gcc
need qemu-riscv32
sample=(--sample 20)
if [ "${1:-}" = all ]; then
    sample=()
    shift
fi
[ $# -gt 0 ] || set -- rv32i
tests=gcc/testsuite/gcc.c-torture/execute
folder=${TORTURE:-$top/out/torture/$tests}

# fetch: stores the tests, which are in an archive in the archive of Debian's source package
fetch() {
    need apt-get
    mkdir -p "$top/out/torture" "$work/source" "$work/parts" "$work/lists/partial" "$work/cache/archives/partial"
    cat /etc/apt/sources.list /etc/apt/sources.list.d/*.list 2> "$work/said" | sed -n 's/^deb /deb-src /p' > "$work/parts/all.list"
    for it in /etc/apt/sources.list.d/*.sources; do
        [ ! -f "$it" ] || sed 's/^Types:.*/Types: deb-src/' "$it" > "$work/parts/$(basename "$it")"
    done
    apt=(apt-get -q -o Dir::Etc::SourceList=/dev/null -o Dir::Etc::SourceParts="$work/parts" -o Dir::State::Lists="$work/lists" -o Dir::Cache="$work/cache")
    (cd "$work/source" && { "${apt[@]}" update || true; } && "${apt[@]}" source --download-only gcc-12) > "$work/said" 2>&1 || {
        echo "the source of GCC can't be had: $(grep -m 1 '^E:' "$work/said")"
        exit 77
    }
    tar -C "$work/source" -xzf "$work"/source/gcc-12_*.orig.tar.gz --wildcards '*/gcc-12*.tar.xz' || exit 70
    tar -C "$top/out/torture" --strip-components=1 -xJf "$(echo "$work"/source/gcc-12-*/gcc-12*.tar.xz)" --wildcards "*/$tests" || exit 70
}

[ -d "$folder" ] || fetch
verilog=
{ has iverilog || has verilator; } && verilog=--verilog
KP=$kp python3 "$top/examples/riscv/check" --suite "$folder" "${sample[@]}" $verilog --level "${LEVEL:-O2}" --seed "${SEED:-1}" --jobs "${JOBS:-1}" "$@"
