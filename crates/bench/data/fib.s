# a0: which number
        jal ra, fib
        addi a7, zero, 93
        ecall
fib:    addi t0, zero, 2
        blt a0, t0, done
        addi sp, sp, -12
        sw ra, 0(sp)
        sw s0, 4(sp)
        sw s1, 8(sp)
        addi s0, a0, 0
        addi a0, s0, -1
        jal ra, fib
        addi s1, a0, 0
        addi a0, s0, -2
        jal ra, fib
        add a0, a0, s1
        lw ra, 0(sp)
        lw s0, 4(sp)
        lw s1, 8(sp)
        addi sp, sp, 12
done:   jalr zero, 0(ra)
