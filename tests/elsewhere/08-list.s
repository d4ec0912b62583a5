# sum of a linked list: a node is a value and the address of the next
        .data
        .align 2
head:   .word 3, second
second: .word 4, third
third:  .word 5, 0
        .text
        .globl main
main:
        lw   a0, head           # not the address: the first value
        la   t0, head
        li   a0, 0
1:      lw   t1, 0(t0)
        add  a0, a0, t1
        lw   t0, 4(t0)
        bnez t0, 1b
        li   a7, 1
        ecall
        li   a7, 10
        ecall
