# Prints the squares of 1, 2 and 3, and ends with the exit code 0.
_start: li   s0, 1              # the number
        li   s1, 4              # where the loop ends
loop:   mv   a0, s0
        call square             # a0 = s0 * s0
        li   a7, 1
        ecall                   # prints a0
        addi s0, s0, 1
        blt  s0, s1, loop       # once more while s0 < s1
        li   a0, 0
        li   a7, 93
        ecall                   # ends

# a0 = a0 * a0, by adding: RV32I does not multiply. It uses t0 and t1.
square: mv   t0, a0             # how many are still to be added
        mv   t1, a0
        li   a0, 0
again:  beqz t0, done
        add  a0, a0, t1
        addi t0, t0, -1
        j    again
done:   ret
