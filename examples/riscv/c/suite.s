# Start code for programs that end by exit(), abort() or a return of main, as those of test suites. It sets the stack and thread pointers, calls the constructors and
# main, and ends the run as crt0.s does: by the system call write(1, _data, _top - _data), at which the machines stop, and by which qemu-riscv32 prints the
# data memory. The word `ending` says how the program ended: 600d0000 and the status of exit, or deadbeef for abort.
    .section .text.start, "ax"
    .globl _start
_start:
    la   sp, _top
    la   tp, _tls
    la   s0, __init_array_start
    la   s1, __init_array_end
next:
    beq  s0, s1, run
    lw   t0, 0(s0)
    jalr t0
    addi s0, s0, 4
    j    next
run:
    li   a0, 0
    li   a1, 0
    call main
    .globl exit, _exit
exit:
_exit:
    li   t0, 0x600d0000
    or   t0, t0, a0
    j    ends
    .globl abort
abort:
    li   t0, 0xdeadbeef
ends:
    la   t1, ending
    sw   t0, 0(t1)
    la   a1, _data
    la   a2, _top
    sub  a2, a2, a1
    li   a0, 1
    li   a7, 64
    .globl _stop
_stop:
    ecall
    li   a0, 0
    li   a7, 93
    ecall

    .section .results, "aw"
    .globl ending
ending:
    .zero 16
