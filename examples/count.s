# Counts the numbers below 0 in a table, puts the count into memory, and prints it.
        .data
table:  .word 3, -1, 4, -1, 5
end:
count:  .byte 0
        .align 2                # what follows is at a multiple of 4
        .text
_start: la   t0, table          # where the next number is
        la   t1, end
        li   t2, 0              # how many are below 0 so far
next:   lw   t3, 0(t0)
        sltz t4, t3             # 1 if t3 < 0, else 0
        add  t2, t2, t4
        addi t0, t0, 4
        bltu t0, t1, next       # addresses compare as unsigned numbers
        la   t0, count
        sb   t2, 0(t0)
        lbu  a0, 0(t0)
        li   a7, 1
        ecall                   # prints a0
        li   a0, 0
        li   a7, 93
        ecall                   # ends
