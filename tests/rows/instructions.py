"""Words of RV32I as they are read and written, their texts, and the names of registers."""
from support.machine import REGISTERS
from support.players import Row

PLAYER = "test_machine"
TAKES_NONE = {"decode": "word decode", "encode": "word encode", "destination": "word destination", "reg_name": "register name", "reg_of": "register of"}

ASSEMBLER = "GNU as 2.40, riscv64-unknown-elf-as -march=rv32i -mabi=ilp32"
MANUAL = "the tables of RISC-V Unprivileged ISA 20191213, chapter 24, by hand"
HANDBOOK = "RISC-V Unprivileged ISA 20191213, chapter 25"
PROFILE = "docs/MACHINE.md, \"Disassembly\""

# The fields of an instruction are shown as the structures that they are: Reg { number: 10 }.
FIELDS = {
    "rd": "Reg { number: %d }",
    "rs1": "Reg { number: %d }",
    "rs2": "Reg { number: %d }",
    "imm": "Imm { bits: %d }",
    "upper": "Upper { bits: %d }",
    "shamt": "Shamt { amount: %d }",
    "branch": "BranchOffset { bits: %d }",
    "jump": "JumpOffset { bits: %d }",
    "fm": "FenceSet { bits: %d }",
    "before": "FenceSet { bits: %d }",
    "after": "FenceSet { bits: %d }",
}
NAMES = {"upper": "imm", "branch": "offset", "jump": "offset"}


def instruction(name, **fields):
    """An instruction as it is shown, its fields in order. An offset is named by its format."""
    shown = ", ".join("%s: %s" % (NAMES.get(field, field), FIELDS[field] % value) for field, value in fields.items())
    return "%s { %s }" % (name, shown) if fields else name


def decoded(word, wanted):
    return "word decode %d" % word, wanted


def encoded(word, wanted):
    return "word encode %d" % word, str(wanted)


def writes(word, wanted):
    """The register that a word's instruction writes."""
    return "word destination %d" % word, str(wanted)


def text(word, address, wanted):
    return "word text %d %d" % (word, address), wanted


def word_text(word, address, wanted):
    return "word word_text %d %d" % (word, address), wanted


def digits(before, word, wanted):
    return "word digits %s %d" % (before, word), wanted


def name(number, wanted):
    return "register name %d" % number, wanted


def register(text, wanted):
    return "register of " + text.encode().hex(), str(wanted)


def each_others(word, name, **fields):
    """A word and an instruction are each other's."""
    return [decoded(word, instruction(name, **fields)), encoded(word, word)]


# Words, their addresses and their texts. GNU as made the words of the texts, in this order, from 0x00010000 on; there each jump and
# branch was given as a distance, `.+8`; here it is the address that the distance leads to. Each mnemonic stands here at least once,
# and each kind of immediate at its ends.
ASSEMBLED = (
    (0x12345537, 0x10000, "lui a0, 0x12345"),
    (0xfffff097, 0x10004, "auipc ra, 0xfffff"),
    (0x001000ef, 0x10008, "jal ra, 0x00010808"),
    (0x8000006f, 0x1000c, "jal zero, 0xfff1000c"),
    (0x7ffff2ef, 0x10010, "jal t0, 0x0011000e"),
    (0x010080e7, 0x10014, "jalr ra, 16(ra)"),
    (0x800f8067, 0x10018, "jalr zero, -2048(t6)"),
    (0x00b50463, 0x1001c, "beq a0, a1, 0x00010024"),
    (0x80941063, 0x10020, "bne s0, s1, 0x0000f020"),
    (0x7e62cfe3, 0x10024, "blt t0, t1, 0x00011022"),
    (0x00d650e3, 0x10028, "bge a2, a3, 0x00010828"),
    (0xfef76fe3, 0x1002c, "bltu a4, a5, 0x0001002a"),
    (0x01187163, 0x10030, "bgeu a6, a7, 0x00010032"),
    (0xfff10503, 0x10034, "lb a0, -1(sp)"),
    (0x7ff19583, 0x10038, "lh a1, 2047(gp)"),
    (0x80022603, 0x1003c, "lw a2, -2048(tp)"),
    (0x0003c683, 0x10040, "lbu a3, 0(t2)"),
    (0x00195703, 0x10044, "lhu a4, 1(s2)"),
    (0xff3a0fa3, 0x10048, "sb s3, -1(s4)"),
    (0x7f5b1fa3, 0x1004c, "sh s5, 2047(s6)"),
    (0x817c2023, 0x10050, "sw s7, -2048(s8)"),
    (0x80058513, 0x10054, "addi a0, a1, -2048"),
    (0x7ffe8e13, 0x10058, "addi t3, t4, 2047"),
    (0xfff6a613, 0x1005c, "slti a2, a3, -1"),
    (0x0017b713, 0x10060, "sltiu a4, a5, 1"),
    (0xfff8c813, 0x10064, "xori a6, a7, -1"),
    (0x555d6c93, 0x10068, "ori s9, s10, 1365"),
    (0xaaae7d93, 0x1006c, "andi s11, t3, -1366"),
    (0x01f51513, 0x10070, "slli a0, a0, 31"),
    (0x0015d593, 0x10074, "srli a1, a1, 1"),
    (0x41065613, 0x10078, "srai a2, a2, 16"),
    (0x00c58533, 0x1007c, "add a0, a1, a2"),
    (0x40f706b3, 0x10080, "sub a3, a4, a5"),
    (0x01499933, 0x10084, "sll s2, s3, s4"),
    (0x017b2ab3, 0x10088, "slt s5, s6, s7"),
    (0x007332b3, 0x1008c, "sltu t0, t1, t2"),
    (0x01eece33, 0x10090, "xor t3, t4, t5"),
    (0x0088d833, 0x10094, "srl a6, a7, s0"),
    (0x419c54b3, 0x10098, "sra s1, s8, s9"),
    (0x01fded33, 0x1009c, "or s10, s11, t6"),
    (0x0020f033, 0x100a0, "and zero, ra, sp"),
    (0x0330000f, 0x100a4, "fence rw, rw"),
    (0x0f10000f, 0x100a8, "fence iorw, w"),
    (0x0840000f, 0x100ac, "fence i, o"),
    (0x00000073, 0x100b0, "ecall"),
    (0x00100073, 0x100b4, "ebreak"),
)

FENCES = (
    (0x0330000f, "fence rw, rw"),
    (0x0ff0000f, "fence iorw, iorw"),
    (0x0030000f, ".word 0x0030000f"),
    (0x0300000f, ".word 0x0300000f"),
    (0x0330008f, ".word 0x0330008f"),
    (0x0330800f, ".word 0x0330800f"),
    (0xffff8f8f, ".word 0xffff8f8f"),
)

# The registers that the instructions write, by their texts above: 0 where one writes none.
DESTINATIONS = tuple(zip((word for word, _, _ in ASSEMBLED), (
    10, 1, 1, 0, 5, 1, 0,           # lui auipc jal jalr
    0, 0, 0, 0, 0, 0,               # branches
    10, 11, 12, 13, 14,             # loads
    0, 0, 0,                        # stores
    10, 28, 12, 14, 16, 25, 27,     # with an immediate
    10, 11, 12,                     # shifts by a number
    10, 13, 18, 21, 5, 28, 16, 9, 26, 0,
    0, 0, 0, 0, 0,                  # fences, ecall and ebreak
), strict=True))

ILLEGAL = (
    0x02351513, 0x0000100f, 0x00000000, 0xffffffff, 0x02000033, 0x02005013, 0x40001013, 0x40001033,
    0x00002063, 0x00003003, 0x00003023, 0x00001067, 0x00200073, 0x00001073, 0x10500073, 0x00000001,
)

SOME_REGISTERS = ((0, "zero"), (1, "ra"), (2, "sp"), (8, "s0"), (10, "a0"), (17, "a7"), (18, "s2"), (27, "s11"), (28, "t3"), (31, "t6"))

ROWS = [
    Row("words of the assembler have their texts", [step for word, address, wanted in ASSEMBLED for step in (
        encoded(word, word),
        text(word, address, wanted),
    )], ASSEMBLER),
    Row("a shift is read", each_others(0x00351513, "Slli", rd=10, rs1=10, shamt=3), MANUAL),
    Row("what is not in the profile is illegal", [decoded(word, "none") for word in ILLEGAL], MANUAL),
    Row("each instruction writes its rd, and a branch, a store, a fence and a call none", [writes(word, number) for word, number in DESTINATIONS]
        + [writes(word, "none") for word in ILLEGAL], MANUAL),
    Row("a fence keeps all its fields", [
        *each_others(0x8330000f, "Fence", fm=8, before=3, after=3, rd=0, rs1=0),
        text(0x8330000f, 0, ".word 0x8330000f"),
        *(step for word, wanted in FENCES for step in (encoded(word, word), text(word, 0, wanted))),
    ], PROFILE),
    Row("immediates at their ends keep their sign", [
        *each_others(0x7ff08093, "Addi", rd=1, rs1=1, imm=0x7ff),
        *each_others(0x80008093, "Addi", rd=1, rs1=1, imm=0xfffff800),
        *each_others(0xfff08093, "Addi", rd=1, rs1=1, imm=0xffffffff),
        *each_others(0x7e108fe3, "Beq", rs1=1, rs2=1, branch=0xffe),
        *each_others(0x80108063, "Beq", rs1=1, rs2=1, branch=0xfffff000),
        *each_others(0xfe108fe3, "Beq", rs1=1, rs2=1, branch=0xfffffffe),
        *each_others(0x001080e3, "Beq", rs1=1, rs2=1, branch=0x800),
        *each_others(0x7ffff0ef, "Jal", rd=1, jump=0xffffe),
        *each_others(0x800000ef, "Jal", rd=1, jump=0xfff00000),
        *each_others(0xfffff0ef, "Jal", rd=1, jump=0xfffffffe),
        *each_others(0x001000ef, "Jal", rd=1, jump=0x800),
        *each_others(0xfffff0b7, "Lui", rd=1, upper=0xfffff000),
    ], MANUAL),
    Row("targets wrap", [text(0x8000006f, 0x10000, "jal zero, 0xfff10000")], PROFILE),
    Row("each register has its name", [step for number, text in SOME_REGISTERS for step in (name(number, text), register(text, number))], HANDBOOK),
    Row("registers have other names too", [
        register("fp", 8),
        register("x0", 0),
        register("x9", 9),
        register("x31", 31),
        *(register(text, "none") for text in ("", "x", "x32", "x00", "x01", "X1", "A0", "a8", "s12", "t7", "pc", " ra", "zero ")),
    ], HANDBOOK),
    Row("any word has a text", [word_text(word, address, wanted) for word, address, wanted in ASSEMBLED]
        + [word_text(word, 0x10000, ".word 0x%08x" % word) for word in ILLEGAL], ASSEMBLER + "; docs/MACHINE.md, \"Disassembly\""),
    Row("an illegal word has no instruction", [step for word in ILLEGAL for step in (encoded(word, "none"), text(word, 0, "none"))], MANUAL),
    Row("digits are put after a text", [
        digits("a", 0, "a00000000"),
        digits("", 0x89abcdef, "89abcdef"),
        digits("0x", 0xffffffff, "0xffffffff"),
        digits("word", 0x01234567, "word01234567"),
    ], "worked by hand"),
    Row("each register is named and found", [step for number, text in enumerate(REGISTERS) for step in (
        name(number, text), register(text, number), register("x%d" % number, number))], HANDBOOK),
    Row("texts that found no memory are made again", [
        text(0x12345537, 0, "lui a0, 0x12345"),
        text(0x001000ef, 0x10008, "jal ra, 0x00010808"),
        text(0x00b50463, 0x1001c, "beq a0, a1, 0x00010024"),
        text(0xfff10503, 0, "lb a0, -1(sp)"),
        text(0x80058513, 0, "addi a0, a1, -2048"),
        text(0x01f51513, 0, "slli a0, a0, 31"),
        text(0x40f706b3, 0, "sub a3, a4, a5"),
        text(0x0f10000f, 0, "fence iorw, w"),
        text(0x8330000f, 0, ".word 0x8330000f"),
        text(0x00000073, 0, "ecall"),
        word_text(0, 0, ".word 0x00000000"),
        digits("aaaaaaaaaaaaaaaa", 0x89abcdef, "aaaaaaaaaaaaaaaa89abcdef"),
        *each_others(0x00351513, "Slli", rd=10, rs1=10, shamt=3), encoded(0x02351513, "none"), writes(0x00351513, 10), name(10, "a0"), register("fp", 8), register("x32", "none"),
    ], ASSEMBLER, refused=True),
]
