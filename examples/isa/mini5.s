; The program of examples/mini5.kp: 3 + 2 + 1, stored, loaded and doubled. r3 is -1 at the start, by the image of the job.
        addi r1, r0, 3
        addi r2, r0, 0
loop:   add  r2, r2, r1
        add  r1, r1, r3
        bnz  r1, loop
        st   r2, 0(r0)
        ld   r4, 0(r0)
        add  r5, r4, r4
