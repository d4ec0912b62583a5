# a character to a serial port, on hart 0 alone
        .equ UART, 0x10000000
        .section .text
        .globl _start
_start:
        csrr t0, mhartid
        bnez t0, wait
        li   t1, UART
        li   t2, 'H'
        sb   t2, 0(t1)
wait:
        wfi
        j    wait
