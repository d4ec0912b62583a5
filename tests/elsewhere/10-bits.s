# how many bits are 1
        .text
        .globl main
main:
        li   t0, 0b10110111
        li   a0, 0
loop:
        and  t1, t0, 1
        add  a0, a0, t1
        srl  t0, t0, 1
        bne  t0, x0, loop
        li   a7, 1
        ecall
        li   a7, 10
        ecall
