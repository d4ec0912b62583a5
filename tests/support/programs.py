"""Programs that tests debug, each a text of one statement a line; and one of the examples, with its listing."""
import os

from support.program import TOP

# Exits with 6 after 6 instructions.
CALLS = b"_start: li a0, 5\ncall f\nli a7, 93\necall\nf: addi a0, a0, 1\nret\n"
# Prints 7, and stops at its ebreak, the fourth instruction.
PRINTS = b"li a0, 7\nli a7, 1\necall\nebreak\ne: j e\n"
# Exits with 0 after 24 instructions, three calls deep.
RECURS = (b"_start: li a0, 2\ncall g\nli a7, 93\necall\ng: beqz a0, d\naddi a0, a0, -1\naddi sp, sp, -4\nsw ra, 0(sp)\ncall g\n"
          b"lw ra, 0(sp)\naddi sp, sp, 4\nd: ret\n")
# Runs for ever, and counts its calls in a0.
COUNTS = b"_start: call f\nj _start\nf: addi a0, a0, 1\nret\n"
# The store at p becomes an instruction that adds 1, which is run until a0 is 3: 15 instructions with the ebreak.
WRITES_ITSELF = b"_start: la t0, n\nlw t1, 0(t0)\nla t2, p\nli t3, 3\np: sw t1, 0(t2)\nblt a0, t3, p\nebreak\nn: addi a0, a0, 1\n"
# Exits with 0 after 300,004 instructions, more than three slices.
LONG = b"_start: li t0, 150000\nl: addi t0, t0, -1\nbnez t0, l\nli a7, 93\necall\n"
# Runs for ever.
CIRCLES = b"e: j e\n"

INCREMENT = os.path.join(TOP, "examples", "increment.s")
INCREMENT_LISTING = b"""\
00010000 00500513 addi a0, zero, 5
00010004 00000097 auipc ra, 0x0
00010008 010080e7 jalr ra, 16(ra)
0001000c 05d00893 addi a7, zero, 93
00010010 00000073 ecall
00010014 00150513 addi a0, a0, 1
00010018 00008067 jalr zero, 0(ra)
"""
