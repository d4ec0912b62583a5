    .file   "bubble.s"
    .option nopic
    .section .data
    .balign 4
numbers:
    .long   5, -3, 9, 0, 2
    .equ    COUNT, (. - numbers) / 4
    .section .text
    .globl  _start
    .type   _start, @function
_start:
    la      s0, numbers
    li      s1, COUNT - 1
0:  li      t0, 0
    mv      t1, s0
1:  bge     t0, s1, 3f
    lw      t2, 0(t1)
    lw      t3, 4(t1)
    ble     t2, t3, 2f
    sw      t3, 0(t1)
    sw      t2, 4(t1)
2:  addi    t0, t0, 1
    addi    t1, t1, 4
    j       1b
3:  addi    s1, s1, -1
    bgtz    s1, 0b
    li      s1, COUNT
4:  lw      a0, 0(s0)
    li      a7, 1
    ecall
    addi    s0, s0, 4
    addi    s1, s1, -1
    bnez    s1, 4b
    li      a0, 0
    li      a7, 93
    ecall
    .size   _start, . - _start
