#!/bin/bash
# Compares the RISC-V machines with QEMU: bash checks/riscv.sh
#
# `examples/riscv/check` runs stored programs on each machine by `seq` and `sim`, and the Verilog that `pipe` writes in Icarus Verilog or Verilator where
# one is installed, and compares the program counter, the registers and all words of memory with the state that QEMU printed. Here it runs the test of
# each instruction and one C program on the machines, and their Verilog. NAMES names other programs and machines (as `examples/riscv/check` does), or `all`.
# The last line is `runs: N, different: M`, and the status is 0 where M is 0. KP names another program than ./kp.
. "$(dirname "$0")/common.sh"
names=${NAMES:-rv32i rv32ib rv32ip rv32i3 rv32i_fast rv32im each fib}
[ "$names" = all ] && names=
verilog=
{ has iverilog || has verilator; } && verilog=--verilog
# shellcheck disable=SC2086
KP=$kp "$top/examples/riscv/check" $verilog $names
