# Sorts an array of four words on the stack by a function that calls itself, and prints them.
_start:
    addi sp, sp, -16         # the array: 30, 10, 40, 20
    li   t0, 30
    sw   t0, 0(sp)
    li   t0, 10
    sw   t0, 4(sp)
    li   t0, 40
    sw   t0, 8(sp)
    li   t0, 20
    sw   t0, 12(sp)
    mv   a0, sp
    li   a1, 4
    call sort                # sort(array, 4)
    mv   s0, sp              # s0: the word to print, s1: the end of the array
    addi s1, sp, 16
print:
    lw   a0, 0(s0)
    li   a7, 1               # print a0
    ecall
    addi s0, s0, 4
    bltu s0, s1, print
    li   a0, 0
    li   a7, 93              # exit, with a0 as the status
    ecall

# sort(a0: where the words begin, a1: how many): puts the smallest word first, and sorts the others.
sort:
    li   t0, 2
    bltu a1, t0, sorted
    addi sp, sp, -12
    sw   ra, 8(sp)
    sw   a0, 4(sp)
    sw   a1, 0(sp)
    call least
    lw   t0, 4(sp)           # t0: where the first word is, a0: where the smallest is
    lw   t1, 0(t0)
    lw   t2, 0(a0)
    sw   t2, 0(t0)           # they change places
    sw   t1, 0(a0)
    addi a0, t0, 4
    lw   a1, 0(sp)
    addi a1, a1, -1
    call sort                # sort(words + 1, number - 1)
    lw   ra, 8(sp)
    addi sp, sp, 12
sorted:
    ret

# least(a0: where the words begin, a1: how many): a0 is where the smallest of them is.
least:
    slli t0, a1, 2
    add  t0, a0, t0          # t0: the end
    mv   t1, a0              # t1: the word to look at
look:
    lw   t2, 0(a0)
    lw   t3, 0(t1)
    bge  t3, t2, further
    mv   a0, t1
further:
    addi t1, t1, 4
    bltu t1, t0, look
    ret
