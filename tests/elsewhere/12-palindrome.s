        .data
word:   .string "racecar"
        .text
        .globl main
main:
        la   t0, word
        mv   t1, t0
find:   lbu  t2, 0(t1)
        beqz t2, found
        addi t1, t1, 1
        j    find
found:  addi t1, t1, -1
        li   a0, 1
check:  bgeu t0, t1, show
        lbu  t2, 0(t0)
        lbu  t3, 0(t1)
        bne  t2, t3, differs
        addi t0, t0, 1
        addi t1, t1, -1
        j    check
differs:
        li   a0, 0
show:   li   a7, 1
        ecall
        li   a7, 10
        ecall
