# Three functions, each called by the one before. Each keeps ra on the stack by itself, and none has a frame pointer.
        .globl _start
_start: call outer
        li   a7, 93              # exit, with a0 as the status
        ecall

outer:  addi sp, sp, -16
        sw   ra, 12(sp)
        li   a0, 5
        call middle
        addi a0, a0, 1           # 13
        lw   ra, 12(sp)
        addi sp, sp, 16
        ret

middle: addi sp, sp, -16
        sw   ra, 12(sp)
        call inner
        addi a0, a0, 2           # 12
        lw   ra, 12(sp)
        addi sp, sp, 16
        ret

inner:  addi sp, sp, -16
        sw   ra, 12(sp)
        slli a0, a0, 1           # 10
        lw   ra, 12(sp)
        addi sp, sp, 16
        ret
