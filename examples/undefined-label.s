# Calls a function that is nowhere: the assembler says so, with the line of the call.
_start:
    li   a0, 5
    call g
    li   a7, 93
    ecall

f:  addi a0, a0, 1
    ret
