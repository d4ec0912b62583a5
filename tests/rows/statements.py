"""Lines of assembly: what they say, how they may be spelled, and what is wrong with them."""
from support.players import Row

PLAYER = "test_assembler"

ASSEMBLER = "GNU as 2.40, riscv64-unknown-elf-as -march=rv32i -mabi=ilp32"
PROFILE = "docs/MACHINE.md, \"The assembly language\""


def says(line, wanted):
    """What a line says: each label with a colon, and its statement; or what is wrong with it."""
    return "line read " + (line if isinstance(line, bytes) else line.encode()).hex(), wanted


def towards(line, word):
    """The word of a jump or a branch where it goes 8 bytes on."""
    return "line towards " + line.encode().hex(), str(word)


# Words that need no address.
ONE = (
    (0x80058513, "addi a0, a1, -2048"),
    (0x7ff40f93, "addi x31, fp, 2047"),
    (0xfff6a613, "slti a2, a3, -1"),
    (0x0017b713, "sltiu a4, a5, 1"),
    (0x8004c413, "xori s0, s1, -0x800"),
    (0x7ffeee13, "ori t3, t4, 0x7ff"),
    (0x000fff13, "andi t5, t6, 0"),
    (0x01f51513, "slli a0, a0, 31"),
    (0x0005d513, "srli a0, a1, 0"),
    (0x4116d613, "srai a2, a3, 17"),
    (0x01498933, "add s2, s3, s4"),
    (0x417b0ab3, "sub s5, s6, s7"),
    (0x01ac9c33, "sll s8, s9, s10"),
    (0x0062adb3, "slt s11, t0, t1"),
    (0x0041b3b3, "sltu t2, gp, tp"),
    (0x00a140b3, "xor ra, sp, a0"),
    (0x00c5d533, "srl a0, a1, a2"),
    (0x40f756b3, "sra a3, a4, a5"),
    (0x0008e833, "or a6, a7, zero"),
    (0x0020f033, "and zero, ra, sp"),
    (0xfff10503, "lb a0, -1(sp)"),
    (0x7ff19583, "lh a1, 2047(gp)"),
    (0x80022603, "lw a2, -2048(tp)"),
    (0x0003c683, "lbu a3, (t2)"),
    (0x00195703, "lhu a4, 1 ( s2 )"),
    (0xff3a0fa3, "sb s3, -1(s4)"),
    (0x7f5b1fa3, "sh s5, 2047(s6)"),
    (0x017c2023, "sw s7, (s8)"),
    (0x010080e7, "jalr ra, 16(ra)"),
    (0xffc58567, "jalr a0, a1, -4"),
    (0x000300e7, "jalr t1"),
    (0x00038067, "jr t2"),
    (0xfffff537, "lui a0, 0xfffff"),
    (0x000015b7, "lui a1, 1"),
    (0x12345097, "auipc ra, 0x12345"),
    (0x00500513, "li a0, 5"),
    (0x80000593, "li a1, -2048"),
    (0x00001637, "li a2, 4096"),
    (0xfffff6b7, "li a3, 0xfffff000"),
    (0x00000013, "nop"),
    (0x00058513, "mv a0, a1"),
    (0xfff6c613, "not a2, a3"),
    (0x40f00733, "neg a4, a5"),
    (0x0018b813, "seqz a6, a7"),
    (0x006032b3, "snez t0, t1"),
    (0x000e23b3, "sltz t2, t3"),
    (0x01e02eb3, "sgtz t4, t5"),
    (0x00008067, "ret"),
    (0x00000073, "ecall"),
    (0x00100073, "ebreak"),
    (0x0ff0000f, "fence"),
    (0x0310000f, "fence rw, w"),
    (0x0840000f, "fence i, o"),
    (0x0f20000f, "fence iorw, r"),
    (0xfff00693, "li a3, 4294967295"),
    (0x800007b7, "li a5, -2147483648"),
)

# Constants of two instructions.
TWO = (
    (0x00001537, 0x80050513, "li a0, 2048"),
    (0xfffff5b7, 0x7ff58593, "li a1, -2049"),
    (0x80000637, 0xfff60613, "li a2, 0x7fffffff"),
    (0x12345737, 0x67870713, "li a4,0x12345678"),
)

# Words with a target. GNU as was given it as a distance, `.+8`; here it is a label, and the word is made for that distance.
TOWARDS = (
    (0x00b50463, "beq a0, a1, there"),
    (0x00941463, "bne s0, s1, there"),
    (0x0062c463, "blt t0, t1, there"),
    (0x00d65463, "bge a2, a3, there"),
    (0x00f76463, "bltu a4, a5, there"),
    (0x01187463, "bgeu a6, a7, there"),
    (0x00a5c463, "bgt a0, a1, there"),
    (0x0084d463, "ble s0, s1, there"),
    (0x00536463, "bgtu t0, t1, there"),
    (0x00c6f463, "bleu a2, a3, there"),
    (0x00070463, "beqz a4, there"),
    (0x00079463, "bnez a5, there"),
    (0x01005463, "blez a6, there"),
    (0x0008d463, "bgez a7, there"),
    (0x00094463, "bltz s2, there"),
    (0x01304463, "bgtz s3, there"),
    (0x008000ef, "jal ra, there"),
    (0x008002ef, "jal t0, there"),
    (0x0080006f, "j there"),
    (0x008000ef, "jal there"),
)

# The first thing that is wrong with a line.
WRONG = (
    ("Syntax", "5x: nop"),
    ("Syntax", "add a0, a1,"),
    ("Syntax", "add a0,, a1"),
    ("Syntax", "add ,"),
    ("Syntax", "lw(sp)"),
    ("Syntax", ": nop"),
    ("Syntax", "a b: 5 nop,"),
    ("UnknownInstruction", "f : nop"),
    ("UnknownInstruction", "ADD a0, a1, a2"),
    ("UnknownInstruction", "mul a0, a1, a2"),
    ("UnknownInstruction", "fence.i"),
    ("UnknownInstruction", ".ascii 5"),
    ("UnknownInstruction", "ble.s a0"),
    ("BadOperand", "add a0, a1"),
    ("BadOperand", "add a0, a1, a2, a3"),
    ("BadOperand", "add a0, a1, 5"),
    ("BadOperand", "add a0, a1, A2"),
    ("BadOperand", "addi a0, a1, a2"),
    ("BadOperand", "addi a0, 99999, 99999"),
    ("BadOperand", "addi a0, x32, 0"),
    ("BadOperand", "addi a0, a1, +5"),
    ("BadOperand", "addi a0, a1, - 5"),
    ("BadOperand", "addi a0, a1, 0X5"),
    ("BadOperand", "addi a0, a1, 0x"),
    ("BadOperand", "addi a0, a1, 5a"),
    ("BadOperand", "addi a0, a1, %hi(x)"),
    ("BadOperand", "slli a0, a1, %lo(x)"),
    ("BadOperand", "auipc a0, %hi(x)"),
    ("BadOperand", "lui a0, %lo(x)"),
    ("BadOperand", "lui a0, %hi(5)"),
    ("BadOperand", "lw a0, 8"),
    ("BadOperand", "lw a0, 8(sp"),
    ("BadOperand", "lw a0, 8sp)"),
    ("BadOperand", "lw a0, 99999(x)"),
    ("BadOperand", "nop a0"),
    ("BadOperand", "fence rw"),
    ("BadOperand", "fence wr, rw"),
    ("BadOperand", ".word"),
    ("BadOperand", ".byte 256, x"),
    ("BadOperand", ".half x"),
    ("BadOperand", ".globl 5"),
    ("BadOperand", ".text 5"),
    ("OutOfRange", "addi a0, a1, 2048"),
    ("OutOfRange", "addi a0, a1, -2049"),
    ("OutOfRange", "addi a0, a1, 99999999999999999999999"),
    ("OutOfRange", "slli a0, a1, 32"),
    ("OutOfRange", "slli a0, a1, -1"),
    ("OutOfRange", "lui a0, 1048576"),
    ("OutOfRange", "j -4"),
    ("OutOfRange", "li a0, -2147483649"),
)

# More of them: numbers just outside the ranges of their operands.
OUTSIDE = (
    "li a0, 4294967296",
    "lw a0, 2048(sp)",
    "sw a0, -2049(sp)",
    "lui a0, -1",
    "j 4294967296",
    ".byte 256",
    ".byte -129",
    ".half 65536",
    ".half -32769",
    ".word 4294967296",
    ".space 16777217",
    ".align 13",
)

# Lines that say the same, with their labels.
SAME = (
    ("lw a0, 8(sp)", ""),
    ("\tlw\ta0,8(sp)", ""),
    ("  lw   a0 ,\t8 ( sp )  ", ""),
    ("lw x10, 0x8(x2)", ""),
    ("lw a0, 008(sp) # the third word", ""),
    ("here: there:lw a0, 8(sp)", "here: there: "),
    ("lw: a0: lw a0, 8(sp)#", "lw: a0: "),
)

MANY = [str(i % 256) for i in range(65536)]
LABELS = ["l%d" % n for n in range(100)]

ROWS = [
    Row("lines of one instruction have their words", [says(line, "One %d" % word) for word, line in ONE], ASSEMBLER),
    Row("constants of two instructions have their words", [says(line, "Two %d %d" % (first, second)) for first, second, line in TWO], ASSEMBLER),
    Row("jumps and branches have their words", [towards(line, word) for word, line in TOWARDS], ASSEMBLER),
    Row("what is wrong with a line is reported", [says(line, error) for error, line in WRONG], PROFILE),
    Row("numbers outside their ranges are reported", [says(line, "OutOfRange") for line in OUTSIDE], PROFILE),
    Row("a byte that is no text is no operand", [says(b"add a0, a1, \xff", "BadOperand")], PROFILE),
    Row("blanks comments and labels change nothing", [says(line, "%sOne %d" % (labels, 0x00812503)) for line, labels in SAME], ASSEMBLER),
    Row("labels stand before a statement or alone", [
        says("", "none"),
        says(" \t # x: nop", "none"),
        says("a:_b: .c1$ : nop", "UnknownInstruction"),
        says("a:_b: .c1$: nop", "a: _b: .c1$: One %d" % 0x00000013),
        says("a:", "a: none"),
    ], PROFILE),
    Row("a label has its name", [says(" first: second: ret", "first: second: One %d" % 0x00008067)], PROFILE),
    Row("parts of addresses name their labels", [says("sw a0, %lo ( x ) ( sp )", "Lower Sw 2 10 x")], PROFILE),
    Row("data is a list of items", [
        says(".byte 255, -128", "Data Byte 255 %d" % 0xffffff80),
        says(".half 0xffff , -0", "Data Half 65535 0"),
        says(".word sp, 4294967295", "Data Word sp 4294967295"),
    ], PROFILE),
    Row("directives reserve bytes or do nothing", [
        says(".space 16777216", "Space 16777216"),
        says(".align 12", "Align 12"),
        says(".globl main", "Nothing"),
        says(".text", "Nothing"),
    ], PROFILE),
    Row("a line has 65536 items", [says(".byte " + ", ".join(MANY), "Data Byte " + " ".join(MANY))], PROFILE),
    Row("a line has 100 labels", [says(":".join(LABELS) + ":ret", ": ".join(LABELS) + ": One %d" % 0x00008067)], PROFILE),
    Row("each kind of statement is read", [
        says("jal t0, there", "Jump 5 there"),
        says("j 0x10000", "Jump 0 65536"),
        says("bltu a0, s1, there", "Branch LessThanUnsigned 10 9 there"),
        says("bgez a0, 65536", "Branch GreaterOrEqual 10 0 65536"),
        says("beqz a0, there", "Branch Equal 10 0 there"),
        says("bnez a0, there", "Branch NotEqual 10 0 there"),
        says("bgtz a0, there", "Branch LessThan 0 10 there"),
        says("bleu a0, a1, there", "Branch GreaterOrEqualUnsigned 11 10 there"),
        says("lui a0, %hi(x)", "Upper 10 x"),
        says("addi a0, a1, %lo(x)", "Lower Addi 10 11 x"),
        says("lhu a0, %lo(x)(a1)", "Lower Lhu 10 11 x"),
        says("jalr a0, %lo(x)(a1)", "Lower Jalr 10 11 x"),
        says("sb a0, %lo(x)(a1)", "Lower Sb 11 10 x"),
        says("la a0, x", "LoadAddress 10 x"),
        says("call x", "Call x"),
        says(".global x", "Nothing"),
        says(".data", "Nothing"),
    ], PROFILE),
    Row("a line that found no memory is read again", [
        says("first: second: third: fourth: fifth: ret", "first: second: third: fourth: fifth: One %d" % 0x00008067),
        says(".word 1, 2, 3, 4, 5, a, b, c, d", "Data Word 1 2 3 4 5 a b c d"),
        says("a: .half 1, 65536", "OutOfRange"),
        says("a: b: foo", "UnknownInstruction"),
    ], PROFILE, refused=True),
]
