"""Slips, as they are typed, and what `rvdap check` says of each: a line, in which `^` stands before the place that is told, the kind of error,
and the words. What is said was written down before the program said it.

They come from programs that other assemblers take, from a first day with this one, and from the tables of docs/MACHINE.md.
"""

FORM = "not labels and then one statement"
NOT_ALIGNED = "the instruction is not at a multiple of 4: write .align 2 in a line before it"
START_NOT_ALIGNED = "_start is not at a multiple of 4: write .align 2 in a line before it"
TOO_FAR_TO_JUMP = "the target is %d bytes %s it; a jump reaches from 1048576 before to 1048574 after"


def too_far(count, side):
    """What is said of a branch whose target is this many bytes after it, or before it."""
    return "the target is %d bytes %s it; a branch reaches from 4096 before to 4094 after: branch over a j" % (count, side)


# One line each, which is the whole text.
SLIPS = (
    # Strings.
    ('msg: ^.asciiz "hello, world"', "UnknownInstruction", ".asciiz: there are no strings here; write .byte 104, 101, 108, 108, 111, 44, 32, 119, 111, "
     "114, 108, 100, 0"),
    ('^.asciz "x"', "UnknownInstruction", ".asciz: there are no strings here; write .byte 120, 0"),
    ('^.string "RISC-V\\n"', "UnknownInstruction", ".string: there are no strings here; write .byte 82, 73, 83, 67, 45, 86, 10, 0"),
    ('^.ascii "x"', "UnknownInstruction", ".ascii: there are no strings here; write .byte 120"),
    ('^.ascii ""', "UnknownInstruction", ".ascii: there are no strings here; write the bytes with .byte"),
    ('^.asciz "%s"' % ("x" * 65), "UnknownInstruction", ".asciz: there are no strings here; write the bytes with .byte"),
    ('.byte ^"x"', "BadOperand", "no strings: write the bytes as numbers"),
    # Labels.
    ("^1: ret", "Syntax", "1: a label begins with a letter, _ or ."),
    ("^5x: nop", "Syntax", "5x: a label begins with a letter, _ or ."),
    ("^my-label: nop", "Syntax", "my-label: a label has letters, digits, _, . and $ alone"),
    ("bnez t0, ^1b", "BadOperand", "1b: a label begins with a letter, _ or ."),
    ("blt a0, t0, ^1f", "BadOperand", "1f: a label begins with a letter, _ or ."),
    ("^f : nop", "UnknownInstruction", "f: no blank stands before the colon of a label"),
    ("^done nop", "UnknownInstruction", "done: a label has a colon after it"),
    # Numbers.
    ("li t1, ^'+'", "BadOperand", "no characters: 43"),
    ("addi t0, t0, ^-'0'", "BadOperand", "no characters: -48"),
    ("li t1, ^'\\n'", "BadOperand", "no characters: 10"),
    ("andi a0, a0, ^0b101", "BadOperand", "no binary numbers: 5"),
    ("addi a0, a0, ^5000", "OutOfRange", "5000 is not in -2048 to 2047"),
    ("lw a0, ^2048(sp)", "OutOfRange", "2048 is not in -2048 to 2047"),
    ("slli a0, a0, ^32", "OutOfRange", "32 is not in 0 to 31"),
    ("lui a0, ^0x100000", "OutOfRange", "0x100000 is not in 0 to 1048575"),
    ("auipc a0, ^-1", "OutOfRange", "-1 is not in 0 to 1048575"),
    ("li a0, ^4294967296", "OutOfRange", "4294967296 is not in -2147483648 to 4294967295"),
    (".byte 1, ^256", "OutOfRange", "256 is not in -128 to 255"),
    (".half ^65536", "OutOfRange", "65536 is not in -32768 to 65535"),
    (".word ^4294967296", "OutOfRange", "4294967296 is not in -2147483648 to 4294967295"),
    (".space ^16777217", "OutOfRange", "16777217 is not in 0 to 16777216"),
    (".align ^13", "OutOfRange", "13 is not in 0 to 12"),
    ("j ^4294967296", "OutOfRange", "4294967296 is not in 0 to 4294967295"),
    ("li a0, ^0X10", "BadOperand", "operand 2: not a number"),
    ("li a0, ^len - 1", "BadOperand", "no sums here: write the number"),
    ("li a1, ^(. - table) / 4", "BadOperand", "no sums here: write the number"),
    ("la a0, ^x+4", "BadOperand", "no sums here: the label alone, and then addi"),
    ("li t6, ^ROWS", "BadOperand", "operand 2: not a number; write that of ROWS, or la t6, ROWS for its address"),
    ("addi t6, t6, ^ROWS", "BadOperand", "operand 3: not a number; write that of ROWS"),
    # Operands of another form.
    ("lw t0, ^n", "BadOperand", "lw takes imm(reg): la t0, n and then lw t0, 0(t0)"),
    ("lbu a0, ^key", "BadOperand", "lbu takes imm(reg): la a0, key and then lbu a0, 0(a0)"),
    ("sw a0, ^n", "BadOperand", "sw takes imm(reg): la t0, n and then sw a0, 0(t0)"),
    ("sw t0, ^n", "BadOperand", "sw takes imm(reg): la t1, n and then sw t0, 0(t1)"),
    ("lw a0, ^8", "BadOperand", "lw takes imm(reg): 8 and then a register in brackets"),
    ("lw a0, ^sp", "BadOperand", "lw takes imm(reg): 0(sp)"),
    ("lw a0, ^[sp]", "BadOperand", "operand 2: not imm(reg), a number and then a register in brackets"),
    ("jalr ra, ^t1", "BadOperand", "jalr takes imm(reg): 0(t1)"),
    ("jr ^4(a0)", "BadOperand", "operand 1: not a register"),
    ("srl t0, t0, ^1", "BadOperand", "srl takes three registers: with a number srli"),
    ("add a0, a1, ^5", "BadOperand", "add takes three registers: with a number addi"),
    ("sub a0, a1, ^5", "BadOperand", "sub takes three registers: addi with -5"),
    ("addi a0, a1, ^a2", "BadOperand", "addi takes two registers and a number: with a register add"),
    ("li a0, ^a1", "BadOperand", "li takes a register and a number: with a register mv"),
    ("beq a0, ^5, x", "BadOperand", "operand 2: not a register; li t0, 5 and then t0"),
    ("beq t0, ^5, x", "BadOperand", "operand 2: not a register; li t1, 5 and then t1"),
    ("add a0, a1, ^b2", "BadOperand", "operand 3: not a register"),
    ("mv ^A0, a1", "BadOperand", "operand 1: not a register"),
    ("addi ^$t0, $t0, 1", "BadOperand", "$t0: registers have no $: t0"),
    ("call ^5", "BadOperand", "operand 1: not a label"),
    ("fence ^wr, rw", "BadOperand", "operand 1: not letters of iorw in this order"),
    (".word 1, ^-x", "BadOperand", "operand 2: not a number and not a label"),
    ("sw ^\\reg, 0(sp)", "BadOperand", "operand 1: not a register"),
    # Too few and too many.
    ("^li a1 4", "BadOperand", "li takes a register and a number: a comma is missing after a1"),
    ("^addi a0 a1 1", "BadOperand", "addi takes two registers and a number: a comma is missing after a0"),
    ("^add a0, a1", "BadOperand", "add takes three registers: 2 operands stand here"),
    ("^la a0", "BadOperand", "la takes a register and a label: 1 operand stands here"),
    ("^j", "BadOperand", "j takes a label: none stands here"),
    ("^.byte", "BadOperand", ".byte takes numbers: none stands here"),
    ("^ret ra", "BadOperand", "ret takes no operands: 1 operand stands here"),
    ("^jal ra, x, 0", "BadOperand", "jal takes a label, with or without a register before it: 3 operands stand here"),
    ("li a0, ^, 5", "Syntax", "operand 2 is blank: a comma too many"),
    ("li a0, 5,^", "Syntax", "operand 3 is blank: a comma too many"),
    # Comments, and more than one statement.
    ("^// adds", "Syntax", "a comment begins with #"),
    ("^/* adds */", "Syntax", "a comment begins with #"),
    ("^; adds", "Syntax", "a comment begins with #"),
    ("li a7, ^64        // write", "BadOperand", "a comment begins with #"),
    ("^nop // waits", "BadOperand", "a line has one statement, and a comment begins with #"),
    ("^nop /* waits */", "BadOperand", "a line has one statement, and a comment begins with #"),
    ("^nop; nop", "Syntax", "a line has one statement, and a comment begins with #"),
    # Directives of others.
    ("^.section .rodata", "UnknownInstruction", ".section: .data"),
    ("^.section .text", "UnknownInstruction", ".section: .text"),
    ("^.bss", "UnknownInstruction", ".bss: .data"),
    ("^.zero 4", "UnknownInstruction", ".zero: .space"),
    ("^.skip 4", "UnknownInstruction", ".skip: .space"),
    ("jt: ^.long a, b", "UnknownInstruction", ".long: .word"),
    ("^.balign 4", "UnknownInstruction", ".balign: .align 2"),
    ("^.balign 3", "UnknownInstruction", ".balign: .align with the power of 2, as .align 2 for 4"),
    ("^.type fib, @function", "UnknownInstruction", ".type: it means nothing here; leave it out"),
    ("^.size fib, .-fib", "UnknownInstruction", ".size: it means nothing here; leave it out"),
    ("^.option nopic", "UnknownInstruction", ".option: it means nothing here; leave it out"),
    ("^.file \"a.c\"", "UnknownInstruction", ".file: it means nothing here; leave it out"),
    ("^.attribute arch, \"rv32i\"", "UnknownInstruction", ".attribute: it means nothing here; leave it out"),
    ("^.ident \"GCC\"", "UnknownInstruction", ".ident: it means nothing here; leave it out"),
    ("^.equ N, 5", "UnknownInstruction", ".equ: numbers have no names here; write the number"),
    ("^.eqv ROWS, 3", "UnknownInstruction", ".eqv: numbers have no names here; write the number"),
    ("^len = . - hello", "UnknownInstruction", "len: numbers have no names here; write the number"),
    ("^N=5", "Syntax", "numbers have no names here; write the number"),
    ("^.macro push reg", "UnknownInstruction", ".macro: there are no macros here; write out its lines"),
    ("^.endm", "UnknownInstruction", ".endm: there are no macros here; write out its lines"),
    ("^.wrod 5", "UnknownInstruction", ".wrod: .word?"),
    # Instructions of others.
    ("^mul a0, a0, a1", "UnknownInstruction", "RV32I has no mul"),
    ("^rem a0, a0, a1", "UnknownInstruction", "RV32I has no rem"),
    ("^csrr a0, mcycle", "UnknownInstruction", "RV32I has no csrr"),
    ("^wfi", "UnknownInstruction", "RV32I has no wfi"),
    ("^fadd.s f0, f1, f2", "UnknownInstruction", "RV32I has no fadd.s"),
    ("^ld a0, 0(sp)", "UnknownInstruction", "RV32I has no ld"),
    ("L1: ^subi a0, a0, 1", "UnknownInstruction", "subi: addi with -1"),
    ("^subi a0, a0, -1", "UnknownInstruction", "subi: addi with 1"),
    ("^b loop", "UnknownInstruction", "b: j"),
    ("^move a0, a1", "UnknownInstruction", "move: mv"),
    ("^syscall", "UnknownInstruction", "syscall: ecall"),
    ("^sgt a0, a1, a2", "UnknownInstruction", "sgt: slt with its last two registers exchanged"),
    ("^tail f", "UnknownInstruction", "tail: j"),
    # Names that are misspelled.
    ("^ecal", "UnknownInstruction", "ecal: ecall?"),
    ("^addd a0, a0, a1", "UnknownInstruction", "addd: add?"),
    ("^adi a0, a0, 1", "UnknownInstruction", "adi: addi?"),
    ("^ADDI a0, a0, 1", "UnknownInstruction", "ADDI: addi, in small letters"),
    ("^bogus a0", "UnknownInstruction", "no such mnemonic or directive"),
    # What is not seen.
    ("_start: li a0, ^\u20131", "BadOperand", "U+2013 in operand 2: write -"),
    (" add a0,a0,^\u200ba0", "BadOperand", "U+200B, which is not seen, in operand 3: leave it out"),
    ("add a0,^\u00a0a0, a0", "BadOperand", "U+00A0, which is not seen, in operand 2: leave it out"),
    ("li a0, ^\u2018a\u2019", "BadOperand", "U+2018 in operand 2"),
    ("^\u00e9tat nop", "Syntax", "U+00E9 in the mnemonic"),
    ("^li a0\uff0c 5", "BadOperand", "U+FF0C in the operands"),
    ("^\ufeff_start: li a0, 1", "Syntax", "a byte order mark, U+FEFF, stands here: save the text without it"),
    # The rest of a form.
    ("^!", "Syntax", FORM),
)

# Whole texts: the lines that are told, in which `^` stands before the place, each with its kind and its words; all other lines are right.
TEXTS = (
    # All errors of the first pass that has one, and then those of the next.
    (("main:", "    li  a0, 3", "    ^li  a1 4", "    ^addd a0, a0, a1", "    li  a7, 1", "    ^ecal", "    j   exti", "exit:", "    li  a7, 93", "    ecall"),
     (("BadOperand", "li takes a register and a number: a comma is missing after a1"), ("UnknownInstruction", "addd: add?"),
      ("UnknownInstruction", "ecal: ecall?"))),
    (("main: li a0, 3", "    j   ^exti", "exit: beqz a0, ^mian", "    la a0, ^table", "x: .word main, ^y, z"),
     (("Undefined", "no line defines exti: exit?"), ("Undefined", "no line defines mian: main?"), ("Undefined", "no line defines table"),
      ("Undefined", "no line defines y"))),
    (("jal ^ra",), (("Undefined", "no line defines ra, which is a register; jalr ra goes where it says"),)),
    (("j ^end", "End: nop"), (("Undefined", "no line defines end: End?"),)),
    (("f: nop", "g: nop", "^f: nop", "x: ^g: h: h: nop"), (("TwiceDefined", "line 1 defines f before"), ("TwiceDefined", "line 2 defines g before"))),
    (("a: ^a: nop",), (("TwiceDefined", "line 1 defines a before"),)),
    # An address follows from those before it, so one that is wrong is told where it is first. Labels are told also after it.
    (("s: .byte 120, 0", "_main: ^li a0, 1", "li a0, 2"), (("OutOfRange", NOT_ALIGNED),)),
    ((".byte 1", "x: ^j x"), (("OutOfRange", NOT_ALIGNED),)),
    ((".byte 1", "_start: ^.word 5"), (("OutOfRange", START_NOT_ALIGNED),)),
    ((".byte 1", "  ^_start:"), (("OutOfRange", START_NOT_ALIGNED),)),
    ((".space 1048576", "x: ^nop", "nop"), (("TooLarge", "memory ends before this line"),)),
    ((".byte 1", "f: ^nop", "nop", "g: nop", "^f: nop", "h: ^g: nop"),
     (("OutOfRange", NOT_ALIGNED), ("TwiceDefined", "line 2 defines f before"), ("TwiceDefined", "line 4 defines g before"))),
    (("f: nop", "^f: .byte 1", "^nop", "nop", "x: ^f: nop"),
     (("TwiceDefined", "line 1 defines f before"), ("OutOfRange", NOT_ALIGNED), ("TwiceDefined", "line 1 defines f before"))),
    ((".space 1048576", "x: ^nop", "nop", "^x: .byte 1", "nop"),
     (("TooLarge", "memory ends before this line"), ("TwiceDefined", "line 2 defines x before"))),
    # A line has one error: that its address is wrong too is told of no line, and not of those after it.
    ((".byte 1", "f:", "^f: nop", "nop"), (("TwiceDefined", "line 2 defines f before"),)),
    (("f: nop", "^f: .space 16777216", "nop", "^f:"), (("TwiceDefined", "line 1 defines f before"), ("TwiceDefined", "line 1 defines f before"))),
    # Targets: a branch reaches from 4096 bytes before it to 4094 after it, a jump from 1048576 to 1048574.
    (("  ^beq a0, a1, x", ".space 4096", "x: nop", "beq a0, a1, ^nowhere"),
     (("OutOfRange", too_far(4100, "after")), ("Undefined", "no line defines nowhere"))),
    (("begin: ^bne a0, a1, end", "^blt a0, a1, end", "bge a0, a1, begin", "nop", ".space 4096", "^beq a0, a1, begin", "j begin", "end: ^bltu a0, a1, begin"),
     (("OutOfRange", too_far(4120, "after")), ("OutOfRange", too_far(4116, "after")), ("OutOfRange", too_far(4112, "before")),
      ("OutOfRange", too_far(4120, "before")))),
    (("^beq a0, a1, y", "m: beq a0, a1, x", ".space 4088", "y: .half 1", "x: .half 2", "beq a0, a1, m", "^beq a0, a1, m"),
     (("OutOfRange", too_far(4096, "after")), ("OutOfRange", too_far(4100, "before")))),
    (("^j x", ".space 1048572", "x:"), (("OutOfRange", TOO_FAR_TO_JUMP % (1048576, "after")),)),
    (("^j 2000000", "^jal ra, 0xfff00000", "j 0", "^j 65537"),
     (("OutOfRange", TOO_FAR_TO_JUMP % (1934464, "after")), ("OutOfRange", TOO_FAR_TO_JUMP % (1114116, "before")),
      ("OutOfRange", "the target is at an odd address"))),
    (("table: .word table, ^missing", "^beq a0, a0, distant", ".space 4096", "distant: jal ^nowhere"),
     (("Undefined", "no line defines missing"), ("OutOfRange", too_far(4100, "after")), ("Undefined", "no line defines nowhere"))),
    # An error of an earlier pass keeps those of later ones back.
    (("j nowhere", ".byte 1", "^nop"), (("OutOfRange", NOT_ALIGNED),)),
    (("f: nop", "f: nop", ".byte 1", "addi a0, a0, ^5000", "nop"), (("OutOfRange", "5000 is not in -2048 to 2047"),)),
    # A program from elsewhere.
    (("        .data", 'msg:    ^.asciz "hi"', "        ^.section .text", "main:   la a0, msg", "        lw a1, ^key",
      "        ^mul a0, a0, a1", "^1:      ret"),
     (("UnknownInstruction", ".asciz: there are no strings here; write .byte 104, 105, 0"), ("UnknownInstruction", ".section: .text"),
      ("BadOperand", "lw takes imm(reg): la a1, key and then lw a1, 0(a1)"), ("UnknownInstruction", "RV32I has no mul"),
      ("Syntax", "1: a label begins with a letter, _ or ."))),
)


def unmarked(line):
    """A line without its mark, and the column that is marked, in bytes from 1; or none."""
    before, mark, after = line.partition("^")
    return before + after, len(before.encode()) + 1 if mark else None
