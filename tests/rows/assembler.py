"""Whole texts and their images, and what is wrong with a text."""
from rows import programs
from support.line_table import LineTable
from support.players import Row

PLAYER = "test_assembler"
IMAGE = LineTable("image")
TAKES_NONE = {"LineTable::line_of": "image line_of", "LineTable::address_of": "image address_of", "LineTable::bind": "image bind",
              "LineTable::starts": "image starts", "LineTable::label_at": "image label_at",
              "LineTable::label_address": "image label_address"}
# The line table is made by the call that assembles.
ALSO_MADE = {"LineTable::new": "assemble"}
BASE = 0x10000

ASSEMBLER = "GNU as and ld 2.40, riscv64-unknown-elf-as -march=rv32i -mabi=ilp32 -mno-relax, \
riscv64-unknown-elf-ld -m elf32lriscv --no-relax -Ttext=0x10000"
PROFILE = "docs/MACHINE.md, \"The assembly language\""
BY_HAND = "worked by hand from docs/MACHINE.md, \"The assembly language\""


def assemble(text, wanted="ok", size=4096):
    return "assemble %d %s" % (size, text.hex()), wanted


def fails(text, line, kind, size=4096):
    return assemble(text, "line %d: %s" % (line, kind), size)


def has_bytes(wanted):
    return "image bytes", wanted.hex()


def entry(address):
    return "image entry", str(address)


def text_of(listing):
    """The text of a listing: lines, each with its address and the words there."""
    return b"".join(line.encode() + b"\n" for _, line, *_ in listing)


def bytes_of(listing):
    """All bytes of a listing: its words at their addresses, and zeros between."""
    image = b""
    for address, _, *words in listing:
        image = image.ljust(address - BASE, b"\0") + b"".join(word.to_bytes(4, "little") for word in words)
    return image


def listed(listing, size=8192):
    return [assemble(text_of(listing), size=size), has_bytes(bytes_of(listing))]


# Each branch, jump, call and load of an address, on and back.
BRANCHES = (
    (0x10000, "back: beq a0, a1, on", 0x04b50063),
    (0x10004, "bne s0, s1, back", 0xfe941ee3),
    (0x10008, "blt t0, t1, on", 0x0262cc63),
    (0x1000c, "bge a2, a3, back", 0xfed65ae3),
    (0x10010, "bltu a4, a5, on", 0x02f76863),
    (0x10014, "bgeu a6, a7, back", 0xff1876e3),
    (0x10018, "bgt s2, s3, on", 0x0329c463),
    (0x1001c, "ble s4, s5, back", 0xff4ad2e3),
    (0x10020, "bgtu s6, s7, on", 0x036be063),
    (0x10024, "bleu s8, s9, back", 0xfd8cfee3),
    (0x10028, "beqz s10, on", 0x000d0c63),
    (0x1002c, "bnez s11, back", 0xfc0d9ae3),
    (0x10030, "blez t2, on", 0x00705863),
    (0x10034, "bgez t3, back", 0xfc0e56e3),
    (0x10038, "bltz t4, on", 0x000ec463),
    (0x1003c, "bgtz t5, back", 0xfde042e3),
    (0x10040, "on: jal ra, back", 0xfc1ff0ef),
    (0x10044, "jal t0, there", 0x03c002ef),
    (0x10048, "jal back", 0xfb9ff0ef),
    (0x1004c, "jal there", 0x034000ef),
    (0x10050, "j back", 0xfb1ff06f),
    (0x10054, "j there", 0x02c0006f),
    (0x10058, "call back", 0x00000097, 0xfa8080e7),
    (0x10060, "call there", 0x00000097, 0x020080e7),
    (0x10068, "la a0, back", 0x00000517, 0xf9850513),
    (0x10070, "la s1, there", 0x00000497, 0x01048493),
    (0x10078, "jal ra, 0x00010080", 0x008000ef),
    (0x1007c, "j 65536", 0xf85ff06f),
    (0x10080, "there: ret", 0x00008067),
)

# The two parts of an address, in each format that takes one; the lower part of `far` is below 0.
PARTS = (
    (0x10000, "_start: lui a0, %hi(near)", 0x00010537),
    (0x10004, "addi a0, a0, %lo(near)", 0x05450513),
    (0x10008, "lui a1, %hi(far)", 0x000115b7),
    (0x1000c, "addi a1, a1, %lo(far)", 0x80458593),
    (0x10010, "lb a2, %lo(far)(a1)", 0x80458603),
    (0x10014, "lh a3, %lo(near)(a0)", 0x05451683),
    (0x10018, "lw a4, %lo(far)(a1)", 0x8045a703),
    (0x1001c, "lbu a5, %lo(near)(a0)", 0x05454783),
    (0x10020, "lhu a6, %lo(far)(a1)", 0x8045d803),
    (0x10024, "sb a2, %lo(near)(a0)", 0x04c50a23),
    (0x10028, "sh a3, %lo(far)(a1)", 0x80d59223),
    (0x1002c, "sw a4, %lo(near)(a0)", 0x04e52a23),
    (0x10030, "jalr ra, %lo(far)(a1)", 0x804580e7),
    (0x10034, "jalr t0, a1, %lo(far)", 0x804582e7),
    (0x10038, "slti t1, t2, %lo(far)", 0x8043a313),
    (0x1003c, "sltiu t1, t2, %lo(near)", 0x0543b313),
    (0x10040, "xori t1, t2, %lo(far)", 0x8043c313),
    (0x10044, "ori t1, t2, %lo(near)", 0x0543e313),
    (0x10048, "andi t1, t2, %lo(far)", 0x8043f313),
    (0x1004c, "lui a7, %hi(_start)", 0x000108b7),
    (0x10050, "addi a7, a7, %lo(_start)", 0x00088893),
    (0x10054, "near: .word near, far, _start, -1", 0x00010054, 0x00010804, 0x00010000, 0xffffffff),
    (0x10064, ".half 0x1234, -2", 0xfffe1234),
    (0x10068, ".byte 1, 2, 0xff, -128", 0x80ff0201),
    (0x1006c, ".space 1944"),
    (0x10804, "far: .word far", 0x00010804),
)

# Calls and loads of addresses that are 2,048 bytes on and back, just farther, and 0.
DISTANCES = (
    (0x10000, "a: la a0, b", 0x00001517, 0x80050513),
    (0x10008, "call c", 0x00001097, 0x800080e7),
    (0x10010, ".space 2032"),
    (0x10800, "b: la a1, a", 0x00000597, 0x80058593),
    (0x10808, "c: la a2, a", 0xfffff617, 0x7f860613),
    (0x10810, "call d", 0x00001097, 0xff8080e7),
    (0x10818, "call a", 0xfffff097, 0x7e8080e7),
    (0x10820, ".space 4072"),
    (0x11808, "d: la a3, d", 0x00000697, 0x00068693),
    (0x11810, "la a4, c", 0xfffff717, 0xff870713),
    (0x11818, "call b", 0xfffff097, 0xfe8080e7),
)

# How far a branch and a jump reach, on and back, to addresses that are given as numbers. (The words are those of the distances
# `.+4094`, `.-4096`, `.+1048574` and `.-1048576`.)
FARTHEST = (
    (0x10000, "beq a0, a1, 0x10ffe", 0x7eb50fe3),
    (0x10004, "bne s0, s1, 0xf004", 0x80941063),
    (0x10008, "jal ra, 1114118", 0x7ffff0ef),
    (0x1000c, "j 0xfff1000c", 0x8000006f),
)

# Adds 1 to 5 by a call, and ends with the sum as its code.
ADDS_ONE = (
    (0x10000, "_start: li a0, 5", 0x00500513),
    (0x10004, "call f", 0x00000097, 0x010080e7),
    (0x1000c, "li a7, 93", 0x05d00893),
    (0x10010, "ecall", 0x00000073),
    (0x10014, "f: addi a0, a0, 1", 0x00150513),
    (0x10018, "ret", 0x00008067),
)

# Counts 2 down to 0 by calls within calls.
COUNTS_DOWN = (
    (0x10000, "_start: li a0, 2", 0x00200513),
    (0x10004, "call g", 0x00000097, 0x010080e7),
    (0x1000c, "li a7, 93", 0x05d00893),
    (0x10010, "ecall", 0x00000073),
    (0x10014, "g: beqz a0, d", 0x02050063),
    (0x10018, "addi a0, a0, -1", 0xfff50513),
    (0x1001c, "addi sp, sp, -4", 0xffc10113),
    (0x10020, "sw ra, 0(sp)", 0x00112023),
    (0x10024, "call g", 0x00000097, 0xff0080e7),
    (0x1002c, "lw ra, 0(sp)", 0x00012083),
    (0x10030, "addi sp, sp, 4", 0x00410113),
    (0x10034, "d: ret", 0x00008067),
)

# Texts, where their programs start, and their bytes.
IMAGES = (
    # Code stands after padding.
    (b".byte 1\n.align 2\nnop", 0x10004, b"\x01\x00\x00\x00\x13\x00\x00\x00"),
    # An address is loaded from its distance.
    (b"d: .word d\nla a0, d\n", 0x10004, b"\x00\x00\x01\x00\x17\x05\x00\x00\x13\x05\xc5\xff"),
    # Jumps go on and back, and carriage returns before line feeds are dropped.
    (b"a: nop\r\nbeq x0, x0, b\nj a\nb: call a\r\n", 0x10000,
     b"\x13\x00\x00\x00\x63\x04\x00\x00\x6f\xf0\x9f\xff\x97\x00\x00\x00\xe7\x80\x40\xff"),
    # The constants round which a lower part carries; the upper part alone is one word.
    (b"li a0, 0xfffff800", 0x10000, b"\x13\x05\x00\x80"),
    (b"li a0, 0x800", 0x10000, b"\x37\x15\x00\x00\x13\x05\x05\x80"),
    (b"li zero, 0x1000\n", 0x10000, b"\x37\x10\x00\x00"),
    # A program starts at `_start`, also where that is data; else at its first code; else at the first address.
    (b"", 0x10000, b""),
    (b".word 1\nnop\n", 0x10004, b"\x01\x00\x00\x00\x13\x00\x00\x00"),
    (b".word 1\nnop\n_start: .half 8", 0x10008, b"\x01\x00\x00\x00\x13\x00\x00\x00\x08\x00"),
    (b".byte 1\nstart:", 0x10000, b"\x01"),
    # Data stands at any address, and so do labels.
    (b"a: .byte 1\nb: .word b\n.half 0xffff, -32768\n", 0x10000, b"\x01\x01\x00\x01\x00\xff\xff\x00\x80"),
    # A label stands before the padding of its line.
    (b".byte 1\na: .align 2\n.word a\n", 0x10000, b"\x01\x00\x00\x00\x01\x00\x01\x00"),
    (b".byte 1\n.align 0\n.byte 2\n", 0x10000, b"\x01\x02"),
    (b".space 0\n.space 3\n.byte -1", 0x10000, b"\x00\x00\x00\xff"),
    # Sections and global names change nothing, and a global name needs no label.
    (b".data\n.globl main\n.word 1\n.text\n.global nowhere\nnop\n", 0x10004, b"\x01\x00\x00\x00\x13\x00\x00\x00"),
    # Labels named as a register and as an instruction.
    (b"a0: j a0\nnop: beqz zero, nop\n.word a0, nop", 0x10000, b"\x6f\x00\x00\x00\x63\x00\x00\x00\x00\x00\x01\x00\x04\x00\x01\x00"),
    # Blanks round each bracket of a part.
    (b"x: lui a0, %hi ( x )\nlw a0, %lo( x )( a0 )\njalr ra , ( a0 )", 0x10000, b"\x37\x05\x01\x00\x03\x25\x05\x00\xe7\x00\x05\x00"),
    # Leading zeros stay decimal, hexadecimal digits are of either case, and -0 is 0.
    (b"addi a0, zero, 010\naddi a0, zero, 0xAb\n", 0x10000, b"\x13\x05\xa0\x00\x13\x05\xb0\x0a"),
    (b"addi a0, zero, -0\nslli a0, a0, -0x0\nlui a0, -0\n", 0x10000, b"\x13\x05\x00\x00\x13\x15\x05\x00\x37\x05\x00\x00"),
    # A target is an address, and -0 is one.
    (b"j -0\nj 0x10000", 0x10000, b"\x6f\x00\x0f\x80\x6f\xf0\xdf\xff"),
    # What a comment says does not matter.
    (b"nop # \xc3\xa9: \r,,\n#\n", 0x10000, b"\x13\x00\x00\x00"),
)

# What is wrong with a text: its line, and the kind.
KINDS = (
    # The line of the first byte that belongs to no character: a stray one, one of a character that is cut off by a
    # line feed or by the end, a surrogate, and one that is written with too many bytes.
    (b"nop\n.byte 1 \xff\n", 2, "NotUtf8"),
    (b"nop # \xc3", 1, "NotUtf8"),
    (b"# \xc3\xa9\n# \xe2\x82\nnop\n", 2, "NotUtf8"),
    (b"\n\n\xed\xa0\x80", 3, "NotUtf8"),
    (b"\n#\xc0\x80\n", 2, "NotUtf8"),
    (b"nop\n\n1 2\n", 3, "Syntax"),
    (b"\xc3\xa9: nop\n", 1, "Syntax"),
    # A carriage return that no line feed follows is no blank.
    (b"nop\r", 1, "Syntax"),
    (b"nop\n\rnop\n", 2, "Syntax"),
    (b"nop\r\r\n", 1, "Syntax"),
    (b"j a\ra:\n", 1, "BadOperand"),
    # A label's colon stands right after it.
    (b"f : nop\n", 1, "UnknownInstruction"),
    (b"nop\nfoo\n", 2, "UnknownInstruction"),
    (b"addi a0, a0\n", 1, "BadOperand"),
    (b"j \xc3\xa9\n", 1, "BadOperand"),
    # Blanks stand round brackets, and nowhere else within an operand.
    (b"x: lw a0, % lo(x)(a0)\n", 1, "BadOperand"),
    (b"lw a0, 8 8(sp)\n", 1, "BadOperand"),
    (b"lw a0, 8(s p)\n", 1, "BadOperand"),
    # A part or a sum where a number or a label stands, and a number where a label stands.
    (b"x: lw a0, %hi(x)(a0)\n", 1, "BadOperand"),
    (b"x: lw a0, x\n", 1, "BadOperand"),
    (b"x: .word %lo(x)\n", 1, "BadOperand"),
    (b"x: j x+4\n", 1, "BadOperand"),
    (b"la a0, 65536\n", 1, "BadOperand"),
    (b"call 65536\n", 1, "BadOperand"),
    # Data with no item.
    (b".half\n", 1, "BadOperand"),
    (b".byte \t\n", 1, "BadOperand"),
    (b".globl a b\n", 1, "BadOperand"),
    # What has the wrong form is not looked at for its range.
    (b"add a0, a1, 4294967296\n", 1, "BadOperand"),
    (b"beq a0, 9999999999, 9999999999\n", 1, "BadOperand"),
    (b"lui 4294967296, 4294967296\n", 1, "BadOperand"),
    (b".word 4294967296, 0x\n", 1, "BadOperand"),
    (b"addi a0, a0, 2048\n", 1, "OutOfRange"),
    # An instruction, or the label `_start`, at no multiple of 4, also where padding follows on its line.
    (b".byte 1\nnop\n", 2, "OutOfRange"),
    (b".half 1\n\na: la a0, a\n", 3, "OutOfRange"),
    (b".byte 1\n_start: .word 1\n", 2, "OutOfRange"),
    (b".byte 1\na: _start:\n", 2, "OutOfRange"),
    (b".byte 1\n_start: .align 2\nnop\n", 2, "OutOfRange"),
    (b"a: nop\nb: a:\n", 2, "TwiceDefined"),
    (b"a: b: a: nop\n", 1, "TwiceDefined"),
    (b"nop\n.space 4092\n.byte 1\n", 3, "TooLarge"),
    (b".space 4088\ncall a\na: nop\n", 3, "TooLarge"),
    (b".space 4095\n.half 1\n", 2, "TooLarge"),
    # Each word that names a label.
    (b"j x\n", 1, "Undefined"),
    (b"bnez a0, x\n", 1, "Undefined"),
    (b"jal ra\n", 1, "Undefined"),
    (b".word 1, ra\n", 1, "Undefined"),
    (b"la a0, x\n", 1, "Undefined"),
    (b"call x\n", 1, "Undefined"),
    (b"lui a0, %hi(x)\n", 1, "Undefined"),
    (b"addi a0, a0, %lo(x)\n", 1, "Undefined"),
    (b"sw a0, %lo(x)(sp)\n", 1, "Undefined"),
    (b".globl x\nX: .word X, x\n", 2, "Undefined"),
    # Distances that a branch and a jump do not reach, and odd ones.
    (b"beq a0, a0, 0x11000\n", 1, "OutOfRange"),
    (b"nop\nj 0x110004\n", 2, "OutOfRange"),
    (b"beq a0, a0, 0xeffe\n", 1, "OutOfRange"),
    (b"j 0xfff0fffe\n", 1, "OutOfRange"),
    (b"jal 0x10001\n", 1, "OutOfRange"),
)

# Which of several errors is reported.
FIRST = (
    # An earlier pass before a later one.
    (b"1 2\nnop \xff\n", 2, "NotUtf8"),
    (b"j x\nfoo\n", 2, "UnknownInstruction"),
    (b"a: a:\naddi a0, a0, 2048\n", 2, "OutOfRange"),
    (b".byte 1\nnop\nadd a0\n", 3, "BadOperand"),
    (b".space 4097\n1\n", 2, "Syntax"),
    (b"j x\na:\na:\n", 3, "TwiceDefined"),
    (b"j x\n.byte 1\nnop\n", 3, "OutOfRange"),
    (b"j x\n.space 4096\n", 2, "TooLarge"),
    # A target that is no address is reported before any address is known, and a distance at the end.
    (b"a: a:\nj 4294967296\n", 2, "OutOfRange"),
    (b"j x\nbeqz a0, -1\n", 2, "OutOfRange"),
    (b"beqz a0, 0\na: a:\n", 2, "TwiceDefined"),
    (b"j 4294967295\nfoo\n", 2, "UnknownInstruction"),
    # An earlier line before a later one, whatever their kinds.
    (b"addi a0, a0, 2048\n1\n", 1, "OutOfRange"),
    (b"foo\n1\n", 1, "UnknownInstruction"),
    (b"add a0\nfoo\n", 1, "BadOperand"),
    (b".byte 1\nnop\na: a:\n", 2, "OutOfRange"),
    (b".space 4097\na: a:\nnop\n", 1, "TooLarge"),
    (b"beqz a0, 0\nj x\n", 1, "OutOfRange"),
    (b"j x\nj y\n", 1, "Undefined"),
    # Within one line.
    (b"foo 5,\n", 1, "Syntax"),
    (b"foo 5, 4294967296\n", 1, "UnknownInstruction"),
    (b".byte 1\na: a: nop\n", 2, "TwiceDefined"),
    (b"a: a: .space 4097\n", 1, "TwiceDefined"),
    (b".space 4095\nnop\n", 2, "OutOfRange"),
)

ROWS = [
    Row("an error has a text", [assemble(b"j x", "line 1: Undefined")], PROFILE),
    Row("branches and jumps go on and back", listed(BRANCHES), ASSEMBLER),
    Row("an address has two parts", listed(PARTS), ASSEMBLER),
    Row("a distance has two parts", listed(DISTANCES), ASSEMBLER),
    Row("branches and jumps reach their farthest", listed(FARTHEST), ASSEMBLER),
    Row("programs have their words", listed(ADDS_ONE) + listed(COUNTS_DOWN), ASSEMBLER),
    Row("a program that sorts has its words", [
        assemble(programs.TEXT), entry(BASE), has_bytes(b"".join(word.to_bytes(4, "little") for word in programs.WORDS)),
    ], ASSEMBLER),
    Row("a program has its lines and labels", [
        assemble(text_of(COUNTS_DOWN)),
        entry(0x10000),
        IMAGE.bind(9, 9, 0x10024),
        IMAGE.line_of(0x10028, 9),
        IMAGE.label_at(0x1002c, "g", 24),
        IMAGE.label_at(0x10008, "_start", 8),
        IMAGE.label_at(0x10034, "d", 0),
    ], BY_HAND),
    Row("small texts have their images", [step for text, start, wanted in IMAGES for step in (assemble(text), entry(start), has_bytes(wanted))],
        BY_HAND),
    Row("lines with code have rows", [
        assemble(b"a: .word 1\n\nb: li a0, 0x12345678 # two\nret"),
        IMAGE.line_of(0x10000, "none"),
        IMAGE.line_of(0x10008, 3),
        IMAGE.address_of(4, 0x1000c),
        IMAGE.label_at(0x1000f, "b", 11),
        IMAGE.label_at(0x10010, "none"),
    ], BY_HAND),
    Row("each error is reported", [fails(*row) for row in KINDS], PROFILE),
    Row("the first error is reported", [fails(*row) for row in FIRST], PROFILE),
    Row("a text has 1048576 bytes at most", [
        assemble(b"\n" * 1048576),
        fails(b"\n" * 1048577, 0, "TooLarge"),
        fails(b"\n" * 1048573 + b"foo", 1048574, "UnknownInstruction"),
        fails(b"\n" * 1048574 + b"foo", 0, "TooLarge"),
        fails(b"\xff" * 1048576, 1, "NotUtf8"),
        fails(b"\xff" * 1048577, 0, "TooLarge"),
    ], PROFILE),
    Row("a text that fits is as long as memory", [
        assemble(b".space 4096"),
        fails(b".byte 1\n.align 12\n", 2, "TooLarge", size=4095),
        assemble(b"a: .text", size=0),
        assemble(b"nop", size=4294967295),
        fails(b".space 16777216\nnop", 2, "TooLarge", size=16777216),
    ], PROFILE),
    Row("an address has 32 bits whatever the size", [fails(b".space 16777216\n" * 256, 256, "TooLarge", size=4294967295)], PROFILE),
    Row("assemble of a call", [
        assemble(text_of(ADDS_ONE)), entry(0x10000), has_bytes(bytes_of(ADDS_ONE)), IMAGE.line_of(0x10010, 4), IMAGE.line_of(0x1001c, "none"),
        IMAGE.address_of(5, 0x10014), IMAGE.address_of(7, "none"), IMAGE.bind(0, 1, 0x10000), IMAGE.label_at(0x10018, "f", 4),
        IMAGE.label_address("f", 0x10014), IMAGE.label_address("g", "none"),
        IMAGE.asks("starts %d" % 0x10014, "true"), IMAGE.asks("starts %d" % 0x10008, "false"),
    ], ASSEMBLER, refused=True),
    Row("assemble of calls within calls", [assemble(text_of(COUNTS_DOWN)), entry(0x10000), has_bytes(bytes_of(COUNTS_DOWN))], ASSEMBLER,
        refused=True),
    Row("assemble of wrong texts", [
        fails(b"a: .word 1, a\nb: nop\na: nop\n", 3, "TwiceDefined"),
        fails(b"a: nop\nla a0, a\nj x\n", 3, "Undefined"),
        fails(b"a: .word a\n.word 4294967296\n", 2, "OutOfRange"),
        fails(b"a: .space 100\n.space 4096\n", 2, "TooLarge"),
    ], PROFILE, refused=True),
    Row("an image has 1 MiB", [
        assemble(b"nop\n" * 262144, size=1048576), has_bytes(b"\x13\0\0\0" * 262144), IMAGE.line_of(0x10ffff, 262144),
        fails(b"nop\n" * 262144, 262144, "TooLarge", size=1048575),
        assemble(b"a: .space 1048575\n.byte 1", size=1048576), has_bytes(bytes(1048575) + b"\1"), IMAGE.label_at(0x10ffff, "a", 1048575),
    ], BY_HAND),
    # Each label's word is the address of the label that is as far from the end.
    Row("a text has ten thousand labels", [
        assemble(b"".join(b"l%d: .word l%d\n" % (n, 9999 - n) for n in range(10000)), size=40000),
        has_bytes(b"".join((BASE + 4 * (9999 - n)).to_bytes(4, "little") for n in range(10000))),
        *(IMAGE.label_at(BASE + 4 * n + 3, "l%d" % n, 3) for n in (0, 1, 4999, 5000, 9998, 9999)),
        fails(b"".join(b"l%d:\n" % (n % 9999) for n in range(10000)), 10000, "TwiceDefined"),
        fails(b"".join(b"l%d: .word l%d\n" % (n, n + 1) for n in range(10000)), 10000, "Undefined", size=40000),
    ], BY_HAND),
    Row("a line has 65536 items and 100 labels", [
        assemble(b"".join(b"l%d: " % n for n in range(100)) + b".byte " + b",".join(b"%d" % (i % 256) for i in range(65536)), size=65536),
        has_bytes(bytes(i % 256 for i in range(65536))),
        IMAGE.label_at(0x1ffff, "l0", 65535),
        fails(b"".join(b"l%d: " % (n % 99) for n in range(100)), 1, "TwiceDefined"),
    ], BY_HAND),
]
