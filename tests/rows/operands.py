"""Each instruction stepped with operands at their edges: 0, 1, -1, the greatest and the least number, each sign of an immediate, branches
taken and not taken."""
from rows.steps import BASE, MANUAL, PROFILE, go, hart, holds, memory, pc, registers, sets, steps, x
from support.players import Row

PLAYER = "test_machine"

SIMULATOR = "words of GNU as 2.40, values of qemu-riscv32 7.2.22, which ran each of them"

EDGES = (0, 1, 0xffffffff, 0x7fffffff, 0x80000000)
IMMEDIATES = (0, 1, -1, 2047, -2048)
AMOUNTS = (0, 1, 31)

# OPERATION a0, a1, a2, its word, and a line for each a1 of EDGES: the values for each a2 of EDGES.
OF_REGISTERS = {
    ("add", 0x00c58533): (
        (0, 1, 0xffffffff, 0x7fffffff, 0x80000000),
        (1, 2, 0, 0x80000000, 0x80000001),
        (0xffffffff, 0, 0xfffffffe, 0x7ffffffe, 0x7fffffff),
        (0x7fffffff, 0x80000000, 0x7ffffffe, 0xfffffffe, 0xffffffff),
        (0x80000000, 0x80000001, 0x7fffffff, 0xffffffff, 0),
    ),
    ("sub", 0x40c58533): (
        (0, 0xffffffff, 1, 0x80000001, 0x80000000),
        (1, 0, 2, 0x80000002, 0x80000001),
        (0xffffffff, 0xfffffffe, 0, 0x80000000, 0x7fffffff),
        (0x7fffffff, 0x7ffffffe, 0x80000000, 0, 0xffffffff),
        (0x80000000, 0x7fffffff, 0x80000001, 1, 0),
    ),
    ("sll", 0x00c59533): (
        (0, 0, 0, 0, 0),
        (1, 2, 0x80000000, 0x80000000, 1),
        (0xffffffff, 0xfffffffe, 0x80000000, 0x80000000, 0xffffffff),
        (0x7fffffff, 0xfffffffe, 0x80000000, 0x80000000, 0x7fffffff),
        (0x80000000, 0, 0, 0, 0x80000000),
    ),
    ("slt", 0x00c5a533): (
        (0, 1, 0, 1, 0),
        (0, 0, 0, 1, 0),
        (1, 1, 0, 1, 0),
        (0, 0, 0, 0, 0),
        (1, 1, 1, 1, 0),
    ),
    ("sltu", 0x00c5b533): (
        (0, 1, 1, 1, 1),
        (0, 0, 1, 1, 1),
        (0, 0, 0, 0, 0),
        (0, 0, 1, 0, 1),
        (0, 0, 1, 0, 0),
    ),
    ("xor", 0x00c5c533): (
        (0, 1, 0xffffffff, 0x7fffffff, 0x80000000),
        (1, 0, 0xfffffffe, 0x7ffffffe, 0x80000001),
        (0xffffffff, 0xfffffffe, 0, 0x80000000, 0x7fffffff),
        (0x7fffffff, 0x7ffffffe, 0x80000000, 0, 0xffffffff),
        (0x80000000, 0x80000001, 0x7fffffff, 0xffffffff, 0),
    ),
    ("srl", 0x00c5d533): (
        (0, 0, 0, 0, 0),
        (1, 0, 0, 0, 1),
        (0xffffffff, 0x7fffffff, 1, 1, 0xffffffff),
        (0x7fffffff, 0x3fffffff, 0, 0, 0x7fffffff),
        (0x80000000, 0x40000000, 1, 1, 0x80000000),
    ),
    ("sra", 0x40c5d533): (
        (0, 0, 0, 0, 0),
        (1, 0, 0, 0, 1),
        (0xffffffff, 0xffffffff, 0xffffffff, 0xffffffff, 0xffffffff),
        (0x7fffffff, 0x3fffffff, 0, 0, 0x7fffffff),
        (0x80000000, 0xc0000000, 0xffffffff, 0xffffffff, 0x80000000),
    ),
    ("or", 0x00c5e533): (
        (0, 1, 0xffffffff, 0x7fffffff, 0x80000000),
        (1, 1, 0xffffffff, 0x7fffffff, 0x80000001),
        (0xffffffff, 0xffffffff, 0xffffffff, 0xffffffff, 0xffffffff),
        (0x7fffffff, 0x7fffffff, 0xffffffff, 0x7fffffff, 0xffffffff),
        (0x80000000, 0x80000001, 0xffffffff, 0xffffffff, 0x80000000),
    ),
    ("and", 0x00c5f533): (
        (0, 0, 0, 0, 0),
        (0, 1, 1, 1, 0),
        (0, 1, 0xffffffff, 0x7fffffff, 0x80000000),
        (0, 1, 0x7fffffff, 0x7fffffff, 0),
        (0, 0, 0x80000000, 0, 0x80000000),
    ),
}

# OPERATION a0, a1, 0, its word, and a line for each a1 of EDGES: the values for each immediate of IMMEDIATES.
OF_IMMEDIATES = {
    ("addi", 0x00058513): (
        (0, 1, 0xffffffff, 0x000007ff, 0xfffff800),
        (1, 2, 0, 0x00000800, 0xfffff801),
        (0xffffffff, 0, 0xfffffffe, 0x000007fe, 0xfffff7ff),
        (0x7fffffff, 0x80000000, 0x7ffffffe, 0x800007fe, 0x7ffff7ff),
        (0x80000000, 0x80000001, 0x7fffffff, 0x800007ff, 0x7ffff800),
    ),
    ("slti", 0x0005a513): (
        (0, 1, 0, 1, 0),
        (0, 0, 0, 1, 0),
        (1, 1, 0, 1, 0),
        (0, 0, 0, 0, 0),
        (1, 1, 1, 1, 1),
    ),
    ("sltiu", 0x0005b513): (
        (0, 1, 1, 1, 1),
        (0, 0, 1, 1, 1),
        (0, 0, 0, 0, 0),
        (0, 0, 1, 0, 1),
        (0, 0, 1, 0, 1),
    ),
    ("xori", 0x0005c513): (
        (0, 1, 0xffffffff, 0x000007ff, 0xfffff800),
        (1, 0, 0xfffffffe, 0x000007fe, 0xfffff801),
        (0xffffffff, 0xfffffffe, 0, 0xfffff800, 0x000007ff),
        (0x7fffffff, 0x7ffffffe, 0x80000000, 0x7ffff800, 0x800007ff),
        (0x80000000, 0x80000001, 0x7fffffff, 0x800007ff, 0x7ffff800),
    ),
    ("ori", 0x0005e513): (
        (0, 1, 0xffffffff, 0x000007ff, 0xfffff800),
        (1, 1, 0xffffffff, 0x000007ff, 0xfffff801),
        (0xffffffff, 0xffffffff, 0xffffffff, 0xffffffff, 0xffffffff),
        (0x7fffffff, 0x7fffffff, 0xffffffff, 0x7fffffff, 0xffffffff),
        (0x80000000, 0x80000001, 0xffffffff, 0x800007ff, 0xfffff800),
    ),
    ("andi", 0x0005f513): (
        (0, 0, 0, 0, 0),
        (0, 1, 1, 1, 0),
        (0, 1, 0xffffffff, 0x000007ff, 0xfffff800),
        (0, 1, 0x7fffffff, 0x000007ff, 0x7ffff800),
        (0, 0, 0x80000000, 0, 0x80000000),
    ),
}

# SHIFT a0, a1, 0, its word, and a line for each a1 of EDGES: the values for each amount of AMOUNTS.
SHIFTS = {
    ("slli", 0x00059513): (
        (0, 0, 0),
        (1, 2, 0x80000000),
        (0xffffffff, 0xfffffffe, 0x80000000),
        (0x7fffffff, 0xfffffffe, 0x80000000),
        (0x80000000, 0, 0),
    ),
    ("srli", 0x0005d513): (
        (0, 0, 0),
        (1, 0, 0),
        (0xffffffff, 0x7fffffff, 1),
        (0x7fffffff, 0x3fffffff, 0),
        (0x80000000, 0x40000000, 1),
    ),
    ("srai", 0x4005d513): (
        (0, 0, 0),
        (1, 0, 0),
        (0xffffffff, 0xffffffff, 0xffffffff),
        (0x7fffffff, 0x3fffffff, 0),
        (0x80000000, 0xc0000000, 0xffffffff),
    ),
}

# SHIFT a0, a1, a2 of 0x80000001, where only the lower 5 bits of a2 count: a2 and the value.
BY_LOWER_BITS = {
    ("sll", 0x00c59533): ((0x0000001f, 0x80000000), (0x00000020, 0x80000001), (0x00000021, 2), (0xffffffe1, 2)),
    ("srl", 0x00c5d533): ((0x0000001f, 1), (0x00000020, 0x80000001), (0x00000021, 0x40000000), (0xffffffe1, 0x40000000)),
    ("sra", 0x40c5d533): ((0x0000001f, 0xffffffff), (0x00000020, 0x80000001), (0x00000021, 0xc0000000), (0xffffffe1, 0xc0000000)),
}

# BRANCH a1, a2 on by 8 bytes and back by 8, and a line for each a1: whether the branch is taken, for each a2.
BRANCHES = {
    ("beq", 0x00c58463, 0xfec58ce3): ("10000", "01000", "00100", "00010", "00001"),
    ("bne", 0x00c59463, 0xfec59ce3): ("01111", "10111", "11011", "11101", "11110"),
    ("blt", 0x00c5c463, 0xfec5cce3): ("01010", "00010", "11010", "00000", "11110"),
    ("bge", 0x00c5d463, 0xfec5dce3): ("10101", "11101", "00101", "11111", "00001"),
    ("bltu", 0x00c5e463, 0xfec5ece3): ("01111", "00111", "00000", "00101", "00100"),
    ("bgeu", 0x00c5f463, 0xfec5fce3): ("10000", "11000", "11111", "11010", "11011"),
}

# Two words in memory, for loads.
LOADED = (0x80ff7f01, 0x7f018081)

# LOAD a0, IMM(a1) from so many bytes on in LOADED, and the value.
LOADS = (
    ("lb", 0x00058503, 0, 1),
    ("lb", 0x00058503, 1, 0x0000007f),
    ("lb", 0x00058503, 2, 0xffffffff),
    ("lb", 0x00058503, 3, 0xffffff80),
    ("lh", 0x00059503, 0, 0x00007f01),
    ("lh", 0x00059503, 2, 0xffff80ff),
    ("lw", 0x0005a503, 0, 0x80ff7f01),
    ("lw", 0x0005a503, 4, 0x7f018081),
    ("lbu", 0x0005c503, 0, 1),
    ("lbu", 0x0005c503, 1, 0x0000007f),
    ("lbu", 0x0005c503, 2, 0x000000ff),
    ("lbu", 0x0005c503, 3, 0x00000080),
    ("lhu", 0x0005d503, 0, 0x00007f01),
    ("lhu", 0x0005d503, 2, 0x000080ff),
)

# STORE a2, IMM(a1): its name, how many bytes it stores, and its words with immediates.
STORES = (
    ("sb", 1, ((0, 0x00c58023), (-1, 0xfec58fa3), (2047, 0x7ec58fa3))),
    ("sh", 2, ((0, 0x00c59023), (-2, 0xfec59f23), (2046, 0x7ec59f23))),
    ("sw", 4, ((0, 0x00c5a023), (-4, 0xfec5ae23), (2044, 0x7ec5ae23))),
)

# UPPER a0, IMMEDIATE: its words with immediates.
LUI = ((0, 0x00000537), (1, 0x00001537), (0x7ffff, 0x7ffff537), (0x80000, 0x80000537), (0xfffff, 0xfffff537))
AUIPC = ((0, 0x00000517), (1, 0x00001517), (0x7ffff, 0x7ffff517), (0x80000, 0x80000517), (0xfffff, 0xfffff517))


def with_immediate(word, immediate):
    """The word of an instruction of format I with another immediate than 0."""
    return word | (immediate & 0xfff) << 20


def places(word, at=BASE):
    return "memory write_word %d %d" % (at, word), "ok"


def into_a0(value, **operands):
    """A step at BASE with these registers, which retires and leaves this value in a0."""
    return [go(BASE), *(sets(int(name[1:]), operand) for name, operand in operands.items()), steps("Retired"), pc(BASE + 4), x(10, value)]


def of_registers(word, table):
    return memory(word) + [hart(BASE, 0)] + [
        step for first, values in zip(EDGES, table) for second, value in zip(EDGES, values) for step in into_a0(value, x11=first, x12=second)]


def of_immediates(word, table, immediates):
    return memory() + [hart(BASE, 0)] + [
        step for first, values in zip(EDGES, table) for immediate, value in zip(immediates, values)
        for step in (places(with_immediate(word, immediate)), *into_a0(value, x11=first))]


def by_lower_bits(word, pairs):
    return memory(word) + [hart(BASE, 0)] + [step for amount, value in pairs for step in into_a0(value, x11=0x80000001, x12=amount)]


def of_branches(on, back, table):
    """The branch on at BASE, and the one back at BASE + 16."""
    return memory(on, 0, 0, 0, back) + [hart(BASE, 0)] + [
        step for first, line in zip(EDGES, table) for second, taken in zip(EDGES, line) for step in (
            sets(11, first), sets(12, second),
            go(BASE), steps("Retired"), pc(BASE + 8 if taken == "1" else BASE + 4),
            go(BASE + 16), steps("Retired"), pc(BASE + 8 if taken == "1" else BASE + 20),
        )]


def of_load(word, place, value):
    """A load with an immediate of 0 and of each end, of the bytes at BASE + 64."""
    address = BASE + 64 + place
    return memory(*LOADED, at=BASE + 64) + [hart(BASE, 0)] + [
        step for immediate in (0, 2047, -2048)
        for step in (places(with_immediate(word, immediate)), *into_a0(value, x11=address - immediate))]


def of_store(size, words):
    """A store with each immediate, at BASE + 68, of bytes that are all above 0x80; the bytes beside them stay."""
    value = 0x84838281
    stored = (value & (1 << 8 * size) - 1).to_bytes(size, "little")
    return [step for immediate, word in words for step in (
        *memory(0x11111111, 0x11111111, 0x11111111, at=BASE + 64), places(word),
        hart(BASE, 0), sets(11, BASE + 68 - immediate), sets(12, value), steps("Retired"), pc(BASE + 4),
        ("memory read %d %s" % (BASE + 64, "00" * 12), "ok " + (b"\x11" * 4 + stored.ljust(8, b"\x11")).hex()),
    )]


def at_the_ends(word, size, cause):
    """An access at the last address that it has, at the first, and beyond them; misaligned comes first."""
    last = BASE + 4096
    faults = [(BASE - size, "Outside"), (last, "Outside"), (-size & 0xffffffff, "Outside")]
    if size > 1:
        faults += [(BASE + 1, "Misaligned"), (last - size // 2, "Misaligned"), (last + 1, "Misaligned"), (0xffffffff, "Misaligned")]
    return memory(word) + [hart(BASE, 0)] + [
        step for address, answer in [(BASE, "Retired"), (last - size, "Retired")] + [(at, "Trap(%s%s)" % (cause, fault)) for at, fault in faults]
        for step in (places(word), go(BASE), sets(11, address), sets(12, word), steps(answer), pc(BASE + 4 if answer == "Retired" else BASE))]


# FENCEs, of which the last two have fields that are reserved.
FENCES = (0x0ff0000f, 0x8330000f, 0x0330808f, 0xffff8f8f)
NUMBERS = ((0, "0"), (1, "1"), (0xffffffff, "-1"), (0x7fffffff, "2147483647"), (0x80000000, "-2147483648"))

ROWS = [
    *(Row("%s of registers at the edges" % name, of_registers(word, table), SIMULATOR) for (name, word), table in OF_REGISTERS.items()),
    *(Row("%s of a register and an immediate at the edges" % name, of_immediates(word, table, IMMEDIATES), SIMULATOR)
      for (name, word), table in OF_IMMEDIATES.items()),
    *(Row("%s by amounts at the edges" % name, of_immediates(word, table, AMOUNTS), SIMULATOR) for (name, word), table in SHIFTS.items()),
    *(Row("%s by the lower 5 bits of a register" % name, by_lower_bits(word, pairs), SIMULATOR) for (name, word), pairs in BY_LOWER_BITS.items()),
    *(Row("%s on and back taken and not taken" % name, of_branches(on, back, table), SIMULATOR) for (name, on, back), table in BRANCHES.items()),
    *(Row("%s of the bytes from %d on" % (name, place), of_load(word, place, value), SIMULATOR) for name, word, place, value in LOADS),
    *(Row("%s at each sign of an immediate" % name, of_store(size, words), MANUAL) for name, size, words in STORES),
    *(Row("%s at the ends of memory" % name, at_the_ends(word, size, "Load"), PROFILE) for name, word, size in (
        ("lb", 0x00058503, 1), ("lh", 0x00059503, 2), ("lw", 0x0005a503, 4), ("lbu", 0x0005c503, 1), ("lhu", 0x0005d503, 2))),
    *(Row("%s at the ends of memory" % name, at_the_ends(words[0][1], size, "Store"), PROFILE) for name, size, words in STORES),
    Row("lui at each sign", memory() + [hart(BASE, 0)] + [
        step for upper, word in LUI for step in (places(word), *into_a0(upper << 12))], MANUAL),
    Row("auipc at each sign", memory() + [hart(BASE, 0)] + [
        step for upper, word in AUIPC for step in (places(word), *into_a0((BASE + (upper << 12)) % 2 ** 32))], MANUAL),
    # jal a0, .+8; jal a0, .-8; jal zero, .+16; jal a0, .+2; jal a0, .-1048576
    Row("jal goes on and back", memory(0x0080056f, 0, 0, 0, 0xff9ff56f, 0x0100006f, 0x0020056f, 0x8000056f) + [
        hart(BASE, 0), steps("Retired"), pc(BASE + 8), registers(x10=BASE + 4),
        go(BASE + 16), steps("Retired"), pc(BASE + 8), registers(x10=BASE + 20),
        go(BASE + 20), steps("Retired"), pc(BASE + 36), registers(x10=BASE + 20),
        go(BASE + 24), steps("Trap(JumpMisaligned)"), pc(BASE + 24), registers(x10=BASE + 20),
        go(BASE + 28), steps("Retired"), pc(0xfff1001c), registers(x10=BASE + 32), steps("Trap(FetchOutside)"),
    ], MANUAL),
    # jalr a0, 0(a1); jalr a0, -4(a1); jalr a0, 2047(a1); jalr a0, -2048(a1); jalr zero, 0(a1); jalr a1, 8(a1)
    Row("jalr goes to each sign of an immediate", memory(0x00058567, 0xffc58567, 0x7ff58567, 0x80058567, 0x00058067, 0x008585e7) + [
        step for at, first, target, link in (
            (BASE, BASE + 64, BASE + 64, BASE + 4),
            (BASE, BASE + 65, BASE + 64, BASE + 4),
            (BASE, 0xfffffffd, 0xfffffffc, BASE + 4),
            (BASE + 4, BASE + 4, BASE, BASE + 8),
            (BASE + 4, 0, 0xfffffffc, BASE + 8),
            (BASE + 8, BASE + 1, BASE + 2048, BASE + 12),
            (BASE + 8, 0xfffffff9, 0x7f8, BASE + 12),
            (BASE + 12, BASE + 2048, BASE, BASE + 16),
        ) for step in (hart(at, 0), sets(11, first), steps("Retired"), pc(target), registers(x10=link, x11=first))
    ] + [
        hart(BASE + 16, 0), sets(11, BASE), steps("Retired"), pc(BASE), registers(x11=BASE),
        hart(BASE + 20, 0), sets(11, BASE), steps("Retired"), pc(BASE + 8), registers(x11=BASE + 24),
        hart(BASE, 0), sets(11, BASE + 2), steps("Trap(JumpMisaligned)"), pc(BASE), registers(x11=BASE + 2),
    ], MANUAL),
    Row("a branch to no multiple of 4 traps only where it is taken", [
        # beq a1, a2, .+2
        step for first, answer, at in ((0, "Trap(JumpMisaligned)", BASE), (1, "Retired", BASE + 4))
        for step in (*memory(0x00c58163), hart(BASE, 0), sets(11, first), steps(answer), pc(at))
    ], PROFILE),
    Row("a fence does nothing", [step for word in FENCES for step in (*memory(word), hart(BASE, 0), steps("Retired"), pc(BASE + 4), registers())],
        PROFILE),
    Row("ecall prints each number", memory(0x00000073) + [step for value, shown in NUMBERS for step in (
        hart(BASE, 0), sets(10, value), sets(17, 1), steps("Printed(%s)" % shown), pc(BASE + 4), registers(x10=value, x17=1))], PROFILE),
    Row("ecall ends with each code", memory(0x00000073) + [step for value, shown in NUMBERS for step in (
        hart(BASE, 0), sets(10, value), sets(17, 93), steps("Exit(%s)" % shown), pc(BASE), registers(x10=value, x17=93))], PROFILE),
    Row("ecall of another number traps", memory(0x00000073) + [step for call in (0, 2, 92, 94, 0xffffffff) for step in (
        hart(BASE, 0), sets(17, call), steps("Trap(UnknownCall)"), pc(BASE), registers(x17=call))], PROFILE),
    Row("ebreak moves on", memory(0x00100073, 0x00100073) + [
        hart(BASE, 0), steps("Break"), pc(BASE + 4), steps("Break"), pc(BASE + 8), registers()], PROFILE),
    # add zero, a1, a2; addi zero, a1, 1; lui zero, 0x12345; lw zero, 0(a1); jal zero, .+16
    Row("what is put into x0 is lost", memory(0x00c58033, 0x00158013, 0x12345037, 0x0005a003, 0x0100006f) + [
        hart(BASE, 0), sets(11, BASE), sets(12, 1),
        *(step for at in (4, 8, 12, 16, 32) for step in (steps("Retired"), pc(BASE + at), registers(x11=BASE, x12=1))),
    ], MANUAL),
    Row("a hart fetches what it stored", [
        # sw a2, 4(a1) puts addi a0, zero, 5 after itself
        *memory(0x00c5a223, 0), hart(BASE, 0), sets(11, BASE), sets(12, 0x00500513),
        steps("Retired"), holds(BASE + 4, 0x00500513), steps("Retired"), x(10, 5),
    ], MANUAL),
]
