# Fibonacci numbers below 50, in a loop (RARS)
        .data
limit:  .word 50
        .text
        .globl main
main:
        li   t0, 0
        li   t1, 1
        lw   t2, limit
next:
        bge  t0, t2, done
        move a0, t0
        li   a7, 1
        ecall
        add  t3, t0, t1
        move t0, t1
        move t1, t3
        b    next
done:
        li   a7, 10
        ecall
