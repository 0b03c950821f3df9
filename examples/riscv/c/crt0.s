# Start code: sets the stack pointer, calls main, stores the registers that hold something, and ends the run.
#
# The end is a system call. The machines stop at an ecall, so memory is then what the program left. Under qemu-riscv32 the call
# is write(1, _data, _top - _data), which prints the complete data memory, and exit follows.
    .section .text.start, "ax"
    .globl _start
_start:
    la   sp, _top
    .option push
    .option norelax
    la   gp, _data
    .option pop
    call main
    la   t0, registers
    sw   a0, 0(t0)
    sw   s0, 4(t0)
    sw   s1, 8(t0)
    sw   s2, 12(t0)
    sw   s3, 16(t0)
    sw   sp, 20(t0)
    sw   ra, 24(t0)
    la   a1, _data
    la   a2, _top
    sub  a2, a2, a1
    li   a0, 1
    li   a7, 64
    .globl _stop
_stop:
    ecall
    li   a0, 0
    li   a7, 93
    ecall

    .section .results, "aw"
registers:
    .zero 32
