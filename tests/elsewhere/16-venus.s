# sum of 1 to 10 (Venus: the number of a call is in a0, what it prints in a1)
.data
n:  .word 10
.text
main:
    la   t0, n
    lw   t0, 0(t0)
    addi s0, x0, 0
loop:
    beq  t0, x0, exit
    add  s0, s0, t0
    addi t0, t0, -1
    jal  x0, loop
exit:
    addi a0, x0, 1
    addi a1, s0, 0
    ecall
    addi a0, x0, 10
    ecall
