"""Steps of a hart, and steps back: what each answers, and where it leaves pc, the registers and memory."""
from support.players import NO_MEMORY, Row, alike, tried

PLAYER = "test_machine"
TAKES_NONE = {"undo_of": "hart keep", "undo_at": "hart keep_at", "Undo::of_pc": "hart keep_pc", "Undo::stored": "hart stored",
              "Hart::undo": "hart undo"}
BASE = 0x10000
SP = BASE + 0x800

PROFILE = "docs/MACHINE.md, \"Traps\" and \"Calls of the environment\""
MANUAL = "RISC-V Unprivileged ISA 20191213, chapter 2, by hand"
BACK = "docs/MACHINE.md, \"Going back\", and " + MANUAL


def memory(*words, at=BASE):
    """New memory of 4,096 bytes, with these words from an address on."""
    return [("memory new 4096", "ok")] + [("memory write_word %d %d" % (at + 4 * i, word), "ok") for i, word in enumerate(words)]


def holds(address, word):
    return "memory word %d" % address, str(word)


def hart(entry, sp):
    return "hart new %d %d" % (entry, sp), "ok"


def sets(number, value):
    return "hart set %d %d" % (number, value), "ok"


def go(address):
    return "hart go %d" % address, "ok"


def steps(wanted):
    return "hart step", wanted


def pc(address):
    return "hart pc", str(address)


def x(number, value):
    return "hart x %d" % number, str(value)


def registers(**values):
    """All registers: those that are named x1 to x31 have these values, and the others are 0."""
    return "hart registers", " ".join(str(values.get("x%d" % number, 0)) for number in range(32))


def undoes(address, register=0, value=0, place=0, stored=()):
    """What undoes the move of an instruction at an address: the value that a register had, or the bytes that stood at a place."""
    return "Undo { pc: %d, value: %d, address: %d, bytes: %s, register: Reg { number: %d }, count: %d }" % (
        address, value, place, [*stored, 0, 0, 0, 0][:4], register, len(stored))


def keeps(*wanted, **more):
    """What undoes the next move is kept."""
    return "hart keep", undoes(*wanted, **more)


def keeps_at(word, *wanted, **more):
    return "hart keep_at %d %d" % (word, wanted[0]), undoes(*wanted, **more)


def puts_back(count):
    return "hart stored", str(count)


UNDO = ("hart undo", "ok")

TRAPS = (
    (0x00000163, "JumpMisaligned"),
    (0x00202503, "LoadMisaligned"),
    (0x00101503, "LoadMisaligned"),
    (0x00002503, "LoadOutside"),
    (0x00002003, "LoadOutside"),
    (0x00000003, "LoadOutside"),
    (0x00002123, "StoreMisaligned"),
    (0x00002023, "StoreOutside"),
    (0x00000000, "Illegal"),
    (0x00000073, "UnknownCall"),
)

# a1 is 0x80000081, at sp - 4; then each instruction into a0.
INTO_A0 = (
    (0xffc10503, 0xffffff81),
    (0xffc14503, 0x81),
    (0xffe11503, 0xffff8000),
    (0xffe15503, 0x8000),
    (0xffc12503, 0x80000081),
    (0x4045d513, 0xf8000008),
    (0x0045d513, 0x08000008),
    (0x00459513, 0x00000810),
    (0x0005a513, 1),
    (0xfff5b513, 1),
    (0x0005b513, 0),
    (0x40000533, 0),
    (0x40b00533, 0x7fffff7f),
    (0x00b58533, 0x00000102),
)

# Into a hart at BASE with 0x11223344 at sp, 7 in a0, 0x8899aabb in a1 and 5 in ra: an instruction; what a step answers; what undoes its
# move; and where it leads, with the register that it changes, or the word at sp.
WORD = 0x11223344
UNDONE = (
    (0x00550513, "Retired", dict(register=10, value=7), BASE + 4, (10, 12), WORD),                           # addi a0, a0, 5
    (0x00b50533, "Retired", dict(register=10, value=7), BASE + 4, (10, 0x8899aac2), WORD),                   # add a0, a0, a1
    (0x00012503, "Retired", dict(register=10, value=7), BASE + 4, (10, WORD), WORD),                         # lw a0, 0(sp)
    (0x000015b7, "Retired", dict(register=11, value=0x8899aabb), BASE + 4, (11, 0x1000), WORD),              # lui a1, 1
    (0x00100013, "Retired", dict(), BASE + 4, (0, 0), WORD),                                                 # addi zero, zero, 1
    (0x00012003, "Retired", dict(), BASE + 4, (0, 0), WORD),                                                 # lw zero, 0(sp)
    (0x008000ef, "Retired", dict(register=1, value=5), BASE + 8, (1, BASE + 4), WORD),                       # jal ra, .+8
    (0x0080006f, "Retired", dict(), BASE + 8, (0, 0), WORD),                                                 # jal zero, .+8
    (0x01010567, "Retired", dict(register=10, value=7), SP + 16, (10, BASE + 4), WORD),                      # jalr a0, 16(sp)
    (0x01010167, "Retired", dict(register=2, value=SP), SP + 16, (2, BASE + 4), WORD),                       # jalr sp, 16(sp)
    (0x00000463, "Retired", dict(), BASE + 8, (0, 0), WORD),                                                 # beq zero, zero, .+8
    (0x00001463, "Retired", dict(), BASE + 4, (0, 0), WORD),                                                 # bne zero, zero, .+8
    (0x00b100a3, "Retired", dict(place=SP + 1, stored=(0x33,)), BASE + 4, (0, 0), 0x1122bb44),               # sb a1, 1(sp)
    (0x00b11123, "Retired", dict(place=SP + 2, stored=(0x22, 0x11)), BASE + 4, (0, 0), 0xaabb3344),          # sh a1, 2(sp)
    (0x00b12023, "Retired", dict(place=SP, stored=(0x44, 0x33, 0x22, 0x11)), BASE + 4, (0, 0), 0x8899aabb),  # sw a1, 0(sp)
    (0x0330000f, "Retired", dict(), BASE + 4, (0, 0), WORD),                                                 # fence rw, rw
    (0x00100073, "Break", dict(), BASE + 4, (0, 0), WORD),                                                   # ebreak
)

# What traps, from the same hart, and what is kept of it: an instruction that has not retired has changed nothing that is put back.
NOT_UNDONE = (
    (0x00000163, "JumpMisaligned", dict()),                                                     # beq zero, zero, .+2
    (0x002000ef, "JumpMisaligned", dict(register=1, value=5)),                                  # jal ra, .+2
    (0x00212503, "LoadMisaligned", dict(register=10, value=7)),                                 # lw a0, 2(sp)
    (0x00002503, "LoadOutside", dict(register=10, value=7)),                                    # lw a0, 0(zero)
    (0x00b12123, "StoreMisaligned", dict(place=SP + 2, stored=(0x22, 0x11, 0, 0))),             # sw a1, 2(sp)
    (0x00b02023, "StoreOutside", dict(place=0, stored=(0, 0, 0, 0))),                           # sw a1, 0(zero): no bytes are there
    (0x00000000, "Illegal", dict()),
    (0x00000073, "UnknownCall", dict()),                                                        # ecall, with 0 in a7
)


def begins_at(word):
    """The hart that both tables speak of, before an instruction."""
    return [*memory(word), ("memory write_word %d %d" % (SP, WORD), "ok"), hart(BASE, SP), sets(10, 7), sets(11, 0x8899aabb), sets(1, 5)]


def as_it_began():
    return [pc(BASE), registers(x1=5, x2=SP, x10=7, x11=0x8899aabb), holds(SP, WORD)]


ROWS = [
    Row("a hart begins at its entry", [hart(BASE, 0x110000), pc(BASE), registers(x2=0x110000)], PROFILE),
    Row("what cannot be done traps and changes nothing", [step for word, cause in TRAPS for step in (
        *memory(word),
        hart(BASE, 0x110000),
        steps("Trap(%s)" % cause),
        pc(BASE),
        registers(x2=0x110000),
        holds(BASE, word),
    )], PROFILE),
    Row("a branch that is not taken retires", memory(0x00001163) + [hart(BASE, 0), steps("Retired"), pc(BASE + 4)], MANUAL),
    Row("a jump reads its register before it writes it", memory(0x010080e7, at=BASE + 8) + [
        hart(BASE + 8, 0), sets(1, BASE + 4), steps("Retired"), pc(0x10014), x(1, 0x1000c),
    ], MANUAL),
    Row("a pc without a word traps", memory() + [
        hart(BASE + 4096, 0), steps("Trap(FetchOutside)"),
        go(BASE + 2), steps("Trap(JumpMisaligned)"), pc(BASE + 2),
    ], PROFILE),
    # li a0, -7; li a7, 1; ecall; ebreak; li a7, 93; ecall
    Row("a program prints breaks and ends", memory(0xff900513, 0x00100893, 0x00000073, 0x00100073, 0x05d00893, 0x00000073) + [
        hart(BASE, 0),
        steps("Retired"), pc(BASE + 4),
        steps("Retired"), pc(BASE + 8),
        steps("Printed(-7)"), pc(BASE + 12),
        steps("Break"), pc(BASE + 16),
        steps("Retired"), pc(BASE + 20),
        steps("Exit(-7)"), pc(BASE + 20),
        steps("Exit(-7)"), pc(BASE + 20),
    ], PROFILE),
    Row("numbers are extended shifted and compared by their signs", [step for word, value in INTO_A0 for step in (
        *memory(word),
        hart(BASE, BASE + 4096), sets(11, 0x80000081),
        ("memory write_word %d %d" % (BASE + 4092, 0x80000081), "ok"),
        steps("Retired"), x(10, value), x(0, 0),
    )], MANUAL),
    *(Row("a move that is undone leaves nothing: 0x%08x" % word, [
        *begins_at(word), keeps(BASE, **kept), puts_back(len(kept.get("stored", ()))), *as_it_began(),
        steps(answer), pc(after), x(*changed), holds(SP, there), UNDO, *as_it_began(), holds(BASE, word), steps(answer), pc(after), x(*changed), UNDO,
    ], BACK) for word, answer, kept, after, changed, there in UNDONE),
    Row("what trapped changed nothing, and to undo it changes nothing", [step for word, cause, kept in NOT_UNDONE for step in (
        *begins_at(word), keeps(BASE, **kept), steps("Trap(%s)" % cause), *as_it_began(), UNDO, *as_it_began())], BACK),
    # li a0, -7; li a7, 1; ecall; li a7, 93; ecall
    Row("a call that printed is undone by its pc, and one that ended the program has nothing to undo",
        memory(0xff900513, 0x00100893, 0x00000073, 0x05d00893, 0x00000073) + [
            hart(BASE, SP), steps("Retired"), steps("Retired"), keeps(BASE + 8), steps("Printed(-7)"), pc(BASE + 12), UNDO, pc(BASE + 8),
            registers(x2=SP, x10=0xfffffff9, x17=1), steps("Printed(-7)"), keeps(BASE + 12, register=17, value=1), steps("Retired"),
            steps("Exit(-7)"), pc(BASE + 16), UNDO, pc(BASE + 12), registers(x2=SP, x10=0xfffffff9, x17=1)], BACK),
    Row("a move that is undone leaves those before it", memory(0x00b12023, 0x00550513, 0x00a10023) + [
        hart(BASE, SP), sets(10, 7), sets(11, WORD), steps("Retired"), steps("Retired"), keeps(BASE + 8, place=SP, stored=(0x44,)), steps("Retired"),
        holds(SP, 0x1122330c), UNDO, pc(BASE + 8), x(10, 12), holds(SP, WORD)], BACK),
    Row("what undoes an instruction at another address leads there", [
        *begins_at(0x00000013), keeps_at(0x00550513, BASE + 64, register=10, value=7), sets(10, 8), UNDO, pc(BASE + 64), x(10, 7),
        keeps_at(0x00b11123, 0xfffffffc, place=SP + 2, stored=(0x22, 0x11)), ("memory write_word %d 0" % SP, "ok"), UNDO, pc(0xfffffffc), holds(SP, 0x11220000),
        ("hart keep_pc 4", undoes(4)), puts_back(0), UNDO, pc(4), keeps_at(0x00000f93, 8, register=31), sets(31, 9), UNDO, pc(8), x(31, 0),
        keeps_at(0x00000013, 12), UNDO, registers(x1=5, x2=SP, x10=7, x11=0x8899aabb)], BACK),
    Row("a store that found no memory is made again, and then undone without any", [
        ("memory new 8192", "ok"), ("memory write_word %d %d" % (BASE, 0x00b12023), "ok"), hart(BASE, BASE + 4096), sets(11, WORD),
        keeps(BASE, place=BASE + 4096, stored=(0, 0, 0, 0)), puts_back(4), steps("Retired"), holds(BASE + 4096, WORD), UNDO, holds(BASE + 4096, 0), pc(BASE),
        keeps_at(0x00550513, BASE + 4, register=10), UNDO, ("hart keep_pc 4", undoes(4)), UNDO,
        keeps_at(0x00000113, 8, register=2, value=BASE + 4096), UNDO, pc(8)], BACK, refused=True),
    tried("bytes that found no memory to be put back leave hart and memory", BACK,
          alike(("memory new 8192", "ok"), hart(BASE, BASE + 4096), sets(11, WORD), keeps_at(0x00b12023, BASE + 4, place=BASE + 4096, stored=(0, 0, 0, 0))),
          [("hart once undo", "ok", NO_MEMORY), ("hart pc", str(BASE + 4), str(BASE)), *alike(holds(BASE + 4096, 0), UNDO, pc(BASE + 4))]),
]
