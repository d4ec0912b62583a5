# Puts 0, 4, 8 and 12 into an array of four words on the stack, and ends with the exit code 0. Or so it should: it does not end.
_start: call fours
        li   a0, 0
        li   a7, 93
        ecall                   # ends

fours:  addi sp, sp, -20        # four words, and ra above them
        sw   ra, 16(sp)
        mv   t0, sp             # where the next word goes
        li   t1, 0              # how many there are
        li   t2, 4              # how many there are to be
next:   slli t3, t1, 2
        sw   t3, 0(t0)
        addi t0, t0, 4
        addi t1, t1, 1
        ble  t1, t2, next       # once more while t1 <= t2
        lw   ra, 16(sp)
        addi sp, sp, 20
        ret
