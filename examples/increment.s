# Adds 1 to 5 in a function, and exits with the sum.
_start:
    li   a0, 5
    call f
    li   a7, 93          # exit, with a0 as the status
    ecall

f:  addi a0, a0, 1
    ret
