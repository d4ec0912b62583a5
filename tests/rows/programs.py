"""A whole program, step by step as another simulator ran it."""
from rows.steps import BASE, hart, memory, pc, registers, steps
from support.players import Row

PLAYER = "test_machine"

SIMULATOR = "words of GNU as and ld 2.40; pc and registers after so many steps, and memory, of qemu-riscv32 7.2.22 with -singlestep -d nochain,exec,cpu"

# Fills 24 words, sorts them as signed numbers, calls a function that calls itself, and ends with a sum of what it has. The words lie at
# 0x00010800, and the stack below 0x00011000.
TEXT = b"""\
.globl _start
_start: li sp, 0x11000
        li s0, 0x10800
        li s1, 24
        li a0, 0x12345678
        mv t0, s0
        mv t1, s1
fill:   slli t2, a0, 2
        add a0, a0, t2
        li t3, 0x3039
        add a0, a0, t3
        sw a0, 0(t0)
        addi t0, t0, 4
        addi t1, t1, -1
        bnez t1, fill
        li t0, 1
outer:  bge t0, s1, sorted
        slli t1, t0, 2
        add t1, t1, s0
        lw t2, 0(t1)
inner:  beq t1, s0, place
        lw t3, -4(t1)
        bge t2, t3, place
        sw t3, 0(t1)
        addi t1, t1, -4
        j inner
place:  sw t2, 0(t1)
        addi t0, t0, 1
        j outer
sorted: li a0, 11
        jal fib
        mv s2, a0
        li t0, 0
        slli t1, s1, 2
        add t1, t1, s0
        mv t2, s0
sum:    lbu t3, 0(t2)
        lh t4, 2(t2)
        lb t5, 1(t2)
        slli t6, t0, 5
        srli t0, t0, 27
        or t0, t0, t6
        xor t0, t0, t3
        add t0, t0, t4
        sub t0, t0, t5
        sltu t6, t3, t5
        add t0, t0, t6
        addi t2, t2, 4
        bltu t2, t1, sum
        sb t0, 0(t2)
        srai t3, t0, 7
        sh t3, 2(t2)
        andi a0, t0, 127
        li a7, 93
        ecall
fib:    slti t0, a0, 2
        bnez t0, base
        addi sp, sp, -12
        sw ra, 8(sp)
        sw s3, 4(sp)
        sw a0, 0(sp)
        addi a0, a0, -1
        jal fib
        mv s3, a0
        lw a0, 0(sp)
        addi a0, a0, -2
        jal fib
        add a0, a0, s3
        lw ra, 8(sp)
        lw s3, 4(sp)
        addi sp, sp, 12
base:   ret
"""

WORDS = (
    0x00011137, 0x00011437, 0x80040413, 0x01800493, 0x12345537, 0x67850513, 0x00040293, 0x00048313,
    0x00251393, 0x00750533, 0x00003e37, 0x039e0e13, 0x01c50533, 0x00a2a023, 0x00428293, 0xfff30313,
    0xfe0310e3, 0x00100293, 0x0292da63, 0x00229313, 0x00830333, 0x00032383, 0x00830c63, 0xffc32e03,
    0x01c3d863, 0x01c32023, 0xffc30313, 0xfedff06f, 0x00732023, 0x00128293, 0xfd1ff06f, 0x00b00513,
    0x064000ef, 0x00050913, 0x00000293, 0x00249313, 0x00830333, 0x00040393, 0x0003ce03, 0x00239e83,
    0x00138f03, 0x00529f93, 0x01b2d293, 0x01f2e2b3, 0x01c2c2b3, 0x01d282b3, 0x41e282b3, 0x01ee3fb3,
    0x01f282b3, 0x00438393, 0xfc63e8e3, 0x00538023, 0x4072de13, 0x01c39123, 0x07f2f513, 0x05d00893,
    0x00000073, 0x00252293, 0x02029e63, 0xff410113, 0x00112423, 0x01312223, 0x00a12023, 0xfff50513,
    0xfe5ff0ef, 0x00050993, 0x00012503, 0xffe50513, 0xfd5ff0ef, 0x01350533, 0x00812083, 0x00412983,
    0x00c10113, 0x00008067,
)

# How many steps were made, and then pc and the registers that are not 0.
STATES = (
    (500, 0x1005c, dict(x2=0x11000, x5=0xb, x6=0x10810, x7=0x827f2eec, x8=0x10800, x9=0x18, x10=0x3ca333a0, x28=0x1f5167ea)),
    (1000, 0x1005c, dict(x2=0x11000, x5=0x12, x6=0x10830, x7=0x85a1782f, x8=0x10800, x9=0x18, x10=0x3ca333a0, x28=0x3976a4bd)),
    (1500, 0x10118, dict(x1=0x10114, x2=0x10f94, x5=0x1, x6=0x10840, x7=0x3ca333a0, x8=0x10800, x9=0x18, x10=0x1, x19=0x1, x28=0x3976a4bd)),
    (2000, 0x1011c, dict(x1=0x10104, x2=0x10fa0, x5=0x1, x6=0x10840, x7=0x3ca333a0, x8=0x10800, x9=0x18, x10=0x1, x19=0x1, x28=0x3976a4bd)),
    (2500, 0x100f0, dict(x1=0x10104, x2=0x10fb8, x6=0x10840, x7=0x3ca333a0, x8=0x10800, x9=0x18, x10=0x5, x19=0x22, x28=0x3976a4bd)),
    (3000, 0x100e8, dict(x1=0x10104, x2=0x10fb8, x6=0x10840, x7=0x3ca333a0, x8=0x10800, x9=0x18, x10=0x2, x19=0x3, x28=0x3976a4bd)),
    (3500, 0x10120, dict(x1=0x10114, x2=0x10fac, x5=0x1, x6=0x10840, x7=0x3ca333a0, x8=0x10800, x9=0x18, x10=0x1, x19=0x2, x28=0x3976a4bd)),
    (4000, 0x100e8, dict(x1=0x10104, x2=0x10fb8, x6=0x10840, x7=0x3ca333a0, x8=0x10800, x9=0x18, x10=0x2, x19=0x5, x28=0x3976a4bd)),
    (4500, 0x100a0, dict(x1=0x10084, x2=0x11000, x5=0x3b00b586, x6=0x10860, x7=0x10850, x8=0x10800, x9=0x18, x10=0x59, x18=0x59, x28=0x57,
                         x29=0x4d4c, x30=0xffffff94, x31=0x1)),
    (4555, 0x100e0, dict(x1=0x10084, x2=0x11000, x5=0x809bbd35, x6=0x10860, x7=0x10860, x8=0x10800, x9=0x18, x10=0x35, x17=0x5d, x18=0x59,
                         x28=0xff01377a, x29=0x75dc, x30=0x15, x31=0x1)),
)

# The words at the end, of which the last has parts of the sum.
SORTED = (
    0x827f2eec, 0x85a1782f, 0x8c7c1ad5, 0x989ef0e8, 0x9c278924, 0x9c9737cb, 0xb81fc023, 0xbe6cb662,
    0xc71d930e, 0xe3940f7f, 0xe786a7fe, 0xfb1ae4c1, 0x0cc5dded, 0x0ef44730, 0x1f5167ea, 0x3976a4bd,
    0x3ca333a0, 0x3f53cd7b, 0x3fdd85da, 0x4ac59429, 0x4d4c9957, 0x5b05e091, 0x71e47db4, 0x75dc1506,
    0x377a0035,
)


def stepped():
    """Steps from each state to the next."""
    made = 0
    for count, address, values in STATES:
        yield from [steps("Retired")] * (count - made)
        yield from (pc(address), registers(**values))
        made = count


ROWS = [
    Row("a program fills sorts and sums", [
        *memory(*WORDS), hart(BASE, 0), *stepped(),
        steps("Exit(53)"), pc(STATES[-1][1]), registers(**STATES[-1][2]),
        ("memory read %d %s" % (0x10800, "00" * 4 * len(SORTED)), "ok " + b"".join(word.to_bytes(4, "little") for word in SORTED).hex()),
    ], SIMULATOR),
]
