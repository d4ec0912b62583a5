/* Primes below 20: a byte for each number, 1 where it is a multiple.
   As GNU as has it. */
        .set    LIMIT, 20
        .bss
        .align  2
marks:  .zero   LIMIT
        .text
        .globl  _start
_start:
        li      s0, 2               // the number
        la      s1, marks
outer:  li      t0, LIMIT
        bge     s0, t0, done
        add     t1, s1, s0
        lbu     t2, 0(t1)
        bnez    t2, skip            // a multiple
        mv      a0, s0
        li      a7, 1
        ecall
        mv      t3, s0
inner:  add     t3, t3, s0
        bge     t3, t0, skip
        add     t1, s1, t3
        li      t2, 1
        sb      t2, 0(t1)
        j       inner
skip:   addi    s0, s0, 1
        j       outer
done:   li      a0, 0
        li      a7, 93
        ecall
