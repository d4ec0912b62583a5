# a0: rounds. Fills 512 words at 0x00011000, copies them byte by byte to 0x00012000, and sorts the copy.
again:  lui t0, 0x11
        addi t1, zero, 512
        lui t2, 0x12345
        addi t2, t2, 0x678
fill:   slli t3, t2, 13
        xor t2, t2, t3
        srli t3, t2, 17
        xor t2, t2, t3
        slli t3, t2, 5
        xor t2, t2, t3
        sw t2, 0(t0)
        addi t0, t0, 4
        addi t1, t1, -1
        bne t1, zero, fill
        lui t0, 0x11
        lui t1, 0x12
        addi t2, zero, 2047
        addi t2, t2, 1
copy:   lbu t3, 0(t0)
        sb t3, 0(t1)
        addi t0, t0, 1
        addi t1, t1, 1
        addi t2, t2, -1
        bne t2, zero, copy
        addi t4, zero, 511
outer:  lui t0, 0x12
        addi t1, t4, 0
inner:  lw t2, 0(t0)
        lw t3, 4(t0)
        bge t3, t2, kept
        sw t3, 0(t0)
        sw t2, 4(t0)
kept:   addi t0, t0, 4
        addi t1, t1, -1
        bne t1, zero, inner
        addi t4, t4, -1
        bne t4, zero, outer
        addi a0, a0, -1
        bne a0, zero, again
        lui t0, 0x12
        lw a0, 0(t0)
        addi a7, zero, 93
        ecall
