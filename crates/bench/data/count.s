# Counts a0 down to 0.
_start: li   a0, 10
loop:   addi a0, a0, -1
        bnez a0, loop
        li   a7, 93
        ecall
        .word loop, 0x12345678
