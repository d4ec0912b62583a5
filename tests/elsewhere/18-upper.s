# to upper case, and the code of the first letter
        .data
text:   .asciz "abc XYZ!\n"
        .text
        .globl main
main:
        la   t0, text
loop:   lb   t1, 0(t0)
        beqz t1, end
        li   t2, 'a'
        blt  t1, t2, keep
        li   t2, 'z'
        bgt  t1, t2, keep
        addi t1, t1, 'A' - 'a'
        sb   t1, 0(t0)
keep:   addi t0, t0, 1
        j    loop
end:    la   t0, text
        lbu  a0, 0(t0)
        li   a7, 1
        ecall
        li   a7, 10
        ecall
