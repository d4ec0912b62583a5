"""Programs that write themselves, held against other simulators of RV32I: one of Python (tests/support/simulator.py), and qemu-riscv32 where
it is installed.

A text has 512 programs at random, of 64 words each. A program goes six times through twenty instructions, of which many store into these, or
into those of the program that lies 65,536 bytes away; then it prints a number that comes of its registers, and of both programs as they are.
All are run twice. A store writes a whole instruction, or the upper half or a byte of it where there is one with an immediate, so that what it
makes is always an instruction, and leads on.

    BATCHES=40 tests/run --no-gate own_code     # 20,480 programs
"""
import os
import random
import shutil
import struct
import subprocess
import tempfile

from support.elf import elf_of, image_of
from support.files import file_of
from support.machine import BASE
from support.program import PROGRAM, expect
from support.simulator import Hart, signed

BATCHES = int(os.environ.get("BATCHES", 1))
SECONDS = 120
PROGRAMS, WORDS, SLOTS, POOL, ROUNDS = 512, 64, 20, 8, 6
# The programs that lie 65,536 bytes from each other.
AWAY = 65536 // (4 * WORDS)

# Registers that programs compute with; s2 to s9 hold instructions, of which the first four have an immediate, s10 is where a program's own
# instructions are, and s1 where the other's are.
VALUES = "t0 t1 t2 t3 t4 a0 a1 a2 a3 a4".split()
HELD = ["s%d" % number for number in range(2, 2 + POOL)]
IMMEDIATES = "addi slti sltiu xori ori andi".split()
REGISTERS = "add sub sll slt sltu xor srl sra or and".split()
BRANCHES = "beq bne blt bge bltu bgeu".split()
LOADS = (("lb", 1), ("lbu", 1), ("lh", 2), ("lhu", 2), ("lw", 4))

# qemu translates each instruction by itself, by the names that its versions have for that: else a store into the next few is met too late.
ANEW = {"QEMU_SINGLESTEP": "1", "QEMU_ONE_INSN_PER_TB": "1"}

# What prints a0, in eight words: for rvdap, and as a word on standard output for Linux (system call 64).
PRINTS = "li a7, 1\necall\n" + 6 * "nop\n"
WRITES = "la a1, out\nsw a0, 0(a1)\nli a0, 1\nli a2, 4\nli a7, 64\necall\nnop\n"

START = """_start: lui sp, 1
lui gp, 2
lui tp, 3
li s0, 2
j again
out: nop
show: li a5, 0
%(registers)smv t6, s10
addi a6, t6, 80
own: lw t5, 0(t6)
slli a7, a5, 5
sub a5, a7, a5
add a5, a5, t5
addi t6, t6, 4
bne t6, a6, own
mv t6, s1
addi a6, t6, 80
other: lw t5, 0(t6)
slli a7, a5, 5
sub a5, a7, a5
add a5, a5, t5
addi t6, t6, 4
bne t6, a6, other
mv a0, a5
%(prints)sli a1, 0
li a2, 0
li a7, 0
ret
done: addi s0, s0, -1
bnez s0, again
li a7, 93
li a0, 0
ecall
again: nop
"""
HASHES = "".join("slli t5, a5, 5\nsub a5, t5, a5\nadd a5, a5, %s\n" % register for register in VALUES)


def has_immediate(slot):
    """Whether there is always an instruction with an immediate at a place."""
    return slot % 3 == 0


def store(chance):
    """A store into an instruction, of this program or of the other."""
    base, slot = chance.choice(("s10", "s10", "s1")), chance.randrange(SLOTS)
    if has_immediate(slot) and chance.random() < 0.6:
        mnemonic, offset = chance.choice((("sb", 2), ("sb", 3), ("sh", 2)))
        return "%s %s, %d(%s)" % (mnemonic, chance.choice(VALUES), 4 * slot + offset, base)
    return "sw %s, %d(%s)" % (chance.choice(HELD[:4] if has_immediate(slot) else HELD), 4 * slot, base)


def instruction(chance, here, is_immediate):
    """An instruction at random, or one with an immediate. here names the place of it."""
    rd, rs1, rs2 = chance.choices(VALUES, k=3)
    kind = chance.random()
    if is_immediate:
        return "%s %s, %s, %d" % (chance.choice(IMMEDIATES), rd, rs1, chance.randrange(-2048, 2048))
    if kind < 0.4:
        return store(chance)
    if kind < 0.55:
        mnemonic, size = chance.choice(LOADS)
        return "%s %s, %d(%s)" % (mnemonic, rd, chance.randrange(4 * SLOTS // size) * size, chance.choice(("s10", "s1")))
    if kind < 0.75:
        return "%s %s, %s, %s" % (chance.choice(BRANCHES), rs1, rs2, "%s_%d" % (here[0], here[1] + chance.choice((1, 2, 3))))
    if kind < 0.8:
        return "jal %s, %s_%d" % (chance.choice((rd, "zero", "ra")), here[0], here[1] + chance.choice((1, 2)))
    return "%s %s, %s, %s" % (chance.choice(REGISTERS), rd, rs1, rs2)


def program(chance, number):
    """The lines of a program: 64 words."""
    own, pool = "c%d" % number, "p%d" % number
    yield "la s10, %s_0\nla s1, c%d_0\nla t0, %s_0" % (own, number ^ AWAY, pool)
    yield from ("lw %s, %d(t0)" % (register, 4 * place) for place, register in enumerate(HELD))
    yield from ("li %s, %d" % (register, chance.randrange(-2048, 2048)) for register in VALUES)
    yield "li s11, %d" % ROUNDS
    yield from ("%s_%d: %s" % (own, slot, instruction(chance, (own, slot), has_immediate(slot))) for slot in range(SLOTS))
    yield from ("%s_%d: nop" % (own, SLOTS + place) for place in range(2))
    yield "%s_%d: addi s11, s11, -1\nbnez s11, %s_0\ncall show\nj n%d" % (own, SLOTS + 2, own, number)
    yield from ("%s_%d: %s" % (pool, place, instruction(chance, (pool, place), place < 4)) for place in range(POOL))
    yield from ("%s_%d: nop" % (pool, POOL + place) for place in range(3))
    yield "n%d: nop" % number


def text_of(seed, prints):
    """A text of programs."""
    chance = random.Random(seed)
    programs = "\n".join(line for number in range(PROGRAMS) for line in program(chance, number))
    return START % {"registers": HASHES, "prints": prints} + programs + "\nj done\n"


def printed_by_rvdap(path):
    ran = subprocess.run([PROGRAM, "run", path], capture_output=True, timeout=SECONDS)
    expect((ran.stderr, ran.returncode), (b"", 0), "the end of the programs")
    return [int(line) for line in ran.stdout.split()]


def printed_by_qemu(image):
    """The numbers that the same programs write under Linux."""
    with tempfile.TemporaryDirectory() as folder:
        path = os.path.join(folder, "programs")
        with open(path, "wb") as file:
            file.write(elf_of(image))
        os.chmod(path, 0o700)
        ran = subprocess.run(["qemu-riscv32", path], env={**os.environ, **ANEW}, capture_output=True, timeout=SECONDS)
    expect((ran.stderr, ran.returncode), (b"", 0), "the end of the programs in qemu")
    return [signed(word) for word, in struct.iter_unpack("<I", ran.stdout)]


def run_as_in(simulator):
    """A check that the programs of each seed print the same numbers here as in a simulator, which is given the seed and the path of their text."""
    def runs():
        for seed in range(BATCHES):
            with file_of(text_of(seed, PRINTS)) as path:
                printed = printed_by_rvdap(path)
                wanted = simulator(seed, path)
            expect(len(wanted), 2 * PROGRAMS, "how many numbers the programs of seed %d print" % seed)
            wrong = [number for number, pair in enumerate(zip(printed, wanted)) if pair[0] != pair[1]]
            expect((len(printed), wrong), (len(wanted), []), "the programs of seed %d that print another number" % seed)
    return runs


def in_python(_, path):
    hart = Hart(image_of(path), BASE, 1 << 20)
    expect(hart.run(), 0, "the code of the end")
    return hart.printed


def in_qemu(seed, _):
    with file_of(text_of(seed, WRITES)) as path:
        return printed_by_qemu(image_of(path))


def checks():
    """Each check with its name."""
    simulators = [("the simulator of Python", in_python)]
    if shutil.which("qemu-riscv32"):
        simulators.append(("qemu", in_qemu))
    return [("programs that write themselves run as in " + name, run_as_in(simulator)) for name, simulator in simulators]
