"""`rvdap convert`: what a line of RARS, Venus or GNU as becomes, what is told of it, and the bytes that come of it beside those of GNU as."""
import base64
import glob
import os
import re
import subprocess
import tempfile

from support import elsewhere, gnu
from support.allocations import each_refusal
from support.files import file_of
from support.launches import STOPPED, frames, started
from support.program import PROGRAM, SECONDS, TOP, Talk, expect
from support.reading import messages
from support.texts import request

PROGRAMS = os.path.join("tests", "elsewhere")
LONGEST = 1048576
MULTIPLIES = "RV32I has no multiplication: add in a loop, or shift by a power of 2"
DIVIDES = "RV32I has no division: subtract in a loop, or shift by a power of 2"
CONTROLS = "there are no control and status registers here: leave the line out, or count in a register"
MACROS = "there are no macros and no repetitions here: write the lines out where they are used"
EXIT = "call 10 ends a program elsewhere: here call 93 does, with the exit code in a0"
CALL = "there is no such call of the environment: call 1 prints the number in a0, and call 93 ends the program"
VENUS = "the number of a call is in a7 here, and what it prints in a0: Venus has them in a0 and a1"
VALUE = "this has no value here: write the number"
UNKNOWN = "UnknownInstruction: no such mnemonic or directive"

# The lines of a text and what they become, with nothing told. A text that assembles stays as it is, so each has a line that does not.
REWRITTEN = (
    ("strings", ['a: .ascii "Hi"', '.asciz "a#b"', '.string "\\n\\t\\\\\\"\\0\\101"', '.asciiz "", "x"'],
     ['a: .byte 72, 105  # a: .ascii "Hi"', '.byte 97, 35, 98, 0  # .asciz "a#b"', '.byte 10, 9, 92, 34, 0, 65, 0  # .string "\\n\\t\\\\\\"\\0\\101"',
      '.byte 0, 120, 0  # .asciiz "", "x"']),
    ("numeric labels", ["1: nop", "   bnez a0, 1b", "   beqz a0, 1f", "1: j 1b"],
     ["local1_1: nop  # 1: nop", "   bnez a0, local1_1  # bnez a0, 1b", "   beqz a0, local1_2  # beqz a0, 1f", "local1_2: j local1_2  # 1: j 1b"]),
    ("a numeric label 0 and a binary number", ["0: li a0, 0b10", "j 0b"], ["local0_1: li a0, 2  # 0: li a0, 0b10", "j local0_1  # j 0b"]),
    ("characters", ["li a0, 'a'", "addi a0, a0, -'0'", ".byte '\\n', ' ', ',', ':'", "li a0, '#' # one"],
     ["li a0, 97  # li a0, 'a'", "addi a0, a0, -48  # addi a0, a0, -'0'", ".byte 10, 32, 44, 58  # .byte '\\n', ' ', ',', ':'", "li a0, 35  # li a0, '#' # one"]),
    ("numbers of other forms", ["li a0, 0X1F", "li a0, 0B11", "li a0, ~0", "li a0, 1 << 4 | 1", "lw a0, 4*2(sp)", "li a0, 2 + 3 * (4 - 1)", ".word 017 + 0"],
     ["li a0, 31  # li a0, 0X1F", "li a0, 3  # li a0, 0B11", "li a0, -1  # li a0, ~0", "li a0, 17  # li a0, 1 << 4 | 1", "lw a0, 8(sp)  # lw a0, 4*2(sp)",
      "li a0, 11  # li a0, 2 + 3 * (4 - 1)", ".word 15  # .word 017 + 0"]),
    ("loads and stores of a label", ["x: .word 5", "lw a0, x", "\tsb a0, x, t0"],
     ["x: .word 5", "lui a0, %hi(x)  # lw a0, x", "lw a0, %lo(x)(a0)", "\tlui t0, %hi(x)  # sb a0, x, t0", "\tsb a0, %lo(x)(t0)"]),
    ("directives that mean nothing here", ["  .type f, @function", ".size f, .-f", ".file \"a.c\"", ".option nopic", ".cfi_endproc", ".globl f, g", ".section .rodata"],
     ["  # .type f, @function", "# .size f, .-f", "# .file \"a.c\"", "# .option nopic", "# .cfi_endproc", "# .globl f, g", "# .section .rodata"]),
    ("directives of other names", [".zero 8", ".skip 2 * 4", ".space 4, 0", "x: .long 1, x", ".short -1, 2", ".4byte 7", ".balign 8", ".p2align 2,,3"],
     [".space 8  # .zero 8", ".space 8  # .skip 2 * 4", ".space 4  # .space 4, 0", "x: .word 1, x  # x: .long 1, x", ".half -1, 2  # .short -1, 2",
      ".word 7  # .4byte 7", ".align 3  # .balign 8", ".align 2  # .p2align 2,,3"]),
    ("a section at a multiple of 4", [".data", '.ascii "x"', ".text", "nop", ".bss"], [".data", '.byte 120  # .ascii "x"', ".text", "        .align 2", "nop", "# .bss"]),
    ("instructions in other forms", ["l: srl a0, a0, 1", "add a0, a1, -5", "sltu a0, a1, 1", "subi a0, a0, 1", "sub a0, a0, -3", "jalr ra, t1", "b l", "move a0, a1", "lla a0, l",
                                     "sgt a0, a1, a2", "sgtu a0, a1, a2", "zext.b a0, a1", "sbreak", "tail l"],
     ["l: srli a0, a0, 1  # l: srl a0, a0, 1", "addi a0, a1, -5  # add a0, a1, -5", "sltiu a0, a1, 1  # sltu a0, a1, 1", "addi a0, a0, -1  # subi a0, a0, 1",
      "addi a0, a0, 3  # sub a0, a0, -3", "jalr ra, t1, 0  # jalr ra, t1", "j l  # b l", "mv a0, a1  # move a0, a1", "la a0, l  # lla a0, l",
      "slt a0, a2, a1  # sgt a0, a1, a2", "sltu a0, a2, a1  # sgtu a0, a1, a2", "andi a0, a1, 255  # zext.b a0, a1", "ebreak  # sbreak",
      "lui t1, %hi(l)  # tail l", "jalr zero, %lo(l)(t1)"]),
    ("names for numbers", [".equ N, 3", ".eqv M, 4", ".set K, N * M", "L = K - 'a'", "li a0, L", "lw a0, N+1(sp)", ".word K, M", "addi a0, a0, -N", "nop # N"],
     ["# .equ N, 3", "# .eqv M, 4", "# .set K, N * M", "# L = K - 'a'", "li a0, -85  # li a0, L", "lw a0, 4(sp)  # lw a0, N+1(sp)", ".word 12, 4  # .word K, M",
      "addi a0, a0, -3  # addi a0, a0, -N", "nop # N"]),
    ("lengths of data", ["x: .word 1, 2, 3", ".equ N, (. - x) / 4", "len = . - x", "li a0, N", "li a1, len - 1"],
     ["x: .word 1, 2, 3", "# .equ N, (. - x) / 4", "# len = . - x", "li a0, 3  # li a0, N", "li a1, 11  # li a1, len - 1"]),
    ("a name for a place", [".set .LANCHOR0,. + 0", "x: .word 1", "la a0, .LANCHOR0"], [".LANCHOR0:  # .set .LANCHOR0,. + 0", "x: .word 1", "la a0, .LANCHOR0"]),
    ("comments", ["// one", "nop // two", "  /* three */ nop", "nop /* four", "five */ nop", "/* six", "  nop", "*/", "nop # seven /*", "li a0, 8 / 2 // eight"],
     ["# // one", "nop  # // two", "  nop  # /* three */ nop", "nop  # /* four", "nop  # five */ nop", "# /* six", "  # nop", "# */", "nop # seven /*",
      "li a0, 4  # li a0, 8 / 2 // eight"]),
    ("several statements", ["li a0, 1; li a1, 2", "f: nop; g: ret"], ["li a0, 1  # li a0, 1; li a1, 2", "li a1, 2", "f: nop  # f: nop; g: ret", "g: ret"]),
    ("a blank before a colon", ["f : nop", "j f"], ["f: nop  # f : nop", "j f"]),
    ("ends of lines", ["nop\r", "move a0, a1\r"], ["nop", "mv a0, a1  # move a0, a1"]),
)

# The lines of a text, what they become, and what is told: the line, the severity, the words.
TOLD = (
    ("call 10", ["\tli a7, 10", "\tecall"], ["\tli a0, 0  # li a7, 10", "\tli a7, 93", "\tecall"], [(1, "note", EXIT)]),
    ("call 10 at a label, later", ["e: addi a7, x0, 10", "mv a1, a2", "ecall"], ["e: li a0, 0  # e: addi a7, x0, 10", "li a7, 93", "mv a1, a2", "ecall"], [(1, "note", EXIT)]),
    ("10 in a7 that is no call", ["li a7, 10", "ret"], ["li a7, 10", "ret"], []),
    ("other calls", ["li a7, 4", "la a0, x", "ecall", 'x: .asciz "abc"'], ["li a7, 4", "la a0, x", "ecall", 'x: .byte 97, 98, 99, 0  # x: .asciz "abc"'], [(1, "error", CALL)]),
    ("calls of Venus", ["li a0, 10", "ecall", "b 0"], ["li a0, 10", "ecall", "j 0  # b 0"], [(2, "error", VENUS)]),
    ("main after a function", ["f: ret", "main: nop"], ["f: ret", "_start:", "main: nop"], [(2, "note", "a program begins at _start here, not at main")]),
    ("words that are not aligned", ["x: .byte 1", "y: .word 2"], ["x: .byte 1", "y: .word 2"],
     [(2, "note", "this is not at a multiple of its size, where a load traps: write .align 1 or .align 2 before it, as RARS does by itself")]),
    ("what RV32I has not", ["f: mul a0, a0, a1", "rem a0, a0, a1"], ["f: mul a0, a0, a1", "rem a0, a0, a1"], [(1, "error", MULTIPLIES), (2, "error", DIVIDES)]),
    ("registers of control", ["csrr a0, mhartid", "rdcycle a0"], ["csrr a0, mhartid", "rdcycle a0"], [(1, "error", CONTROLS), (2, "error", CONTROLS)]),
    ("floats", [".float 1.5", "fadd.s fa0, fa1, fa2"], [".float 1.5", "fadd.s fa0, fa1, fa2"],
     [(line, "error", "there are no floating-point numbers here: scale them to whole numbers") for line in (1, 2)]),
    ("a macro", [".macro push reg", "  sw \\reg, 0(sp)", ".endm", "push ra"], [".macro push reg", "  # sw \\reg, 0(sp)", "# .endm", "push ra"],
     [(1, "error", MACROS), (4, "error", UNKNOWN)]),
    ("a name without a value", [".equ N, x + 1", "li a0, N"], [".equ N, x + 1", "li a0, N"], [(1, "error", VALUE), (2, "error", "BadOperand: too few operands, too many, or of another form")]),
    ("a text without its quotes", [".asciz abc"], [".asciz abc"], [(1, "error", "a text is in quotes, with \\n \\t \\r \\0 \\\" \\\\ or octal digits after a backslash")]),
    ("a space of other bytes", [".space 4, 1"], [".space 4, 1"], [(1, "error", "the bytes of a space are 0 here: write others as .byte")]),
    ("an alignment that is no power", [".balign 6"], [".balign 6"], [(1, "error", "an alignment is a power of 2")]),
    ("a sum of a label and a number", ["x: .word 1, 2", "la a0, x + 4", "lw a0, %lo(x+4)(a0)"], ["x: .word 1, 2", "la a0, 65540  # la a0, x + 4", "lw a0, %lo(x+4)(a0)"],
     [(line, "error", "there are no sums of a label and a number here: put a label there, or add the number afterwards") for line in (2, 3)]),
    ("a label that is not there", ["b x"], ["j x  # b x"], [(1, "error", "Undefined: no line defines this label")]),
    ("a numeric label that is not there", ["nop", "j 1f"], ["nop", "j local1_1  # j 1f"], [(2, "error", "Undefined: no line defines this label")]),
    ("a number that is too large", ["li a0, 0b1", "addi a0, a0, 1 << 12"], ["li a0, 1  # li a0, 0b1", "addi a0, a0, 4096  # addi a0, a0, 1 << 12"],
     [(2, "error", "OutOfRange: a number does not fit its place, an instruction is not at a multiple of 4, or a target is too far")]),
)

# What the programs of tests/elsewhere print, with a status of 0: by hand.
PRINTED = {"01-strlen": "12", "02-fib": "0 1 1 2 3 5 8 13 21 34", "03-fib-rec": "55", "04-bubble": "-3 0 2 5 9", "05-binsearch": "6", "07-mulshift": "5535",
           "08-list": "12", "10-bits": "6", "12-palindrome": "1", "13-stackcalc": "9", "14-sieve": "2 3 5 7 11 13 17 19", "15-jumptable": "100 200 300", "18-upper": "65"}
# And where the others have what can't be said here.
UNSAID = {"06-gcd": [8], "09-matrix": [21], "11-factorial": [24], "17-write": [8], "19-macro": [1, 5, 19, 20, 23, 24], "20-uart": [6, 12]}
# Of these 17-write assembles too: all that is wrong with it is its call. And 16-venus assembles as it stands, so nothing is told of it.
ASSEMBLE = {*PRINTED, "16-venus", "17-write"}


def said(*words, stdout=subprocess.PIPE, environment=None, folder=TOP):
    ran = subprocess.run([PROGRAM, *words], stdin=subprocess.DEVNULL, stdout=stdout, stderr=subprocess.PIPE, env=environment, cwd=folder, timeout=SECONDS)
    return ran.stdout, ran.stderr.decode(errors="backslashreplace"), ran.returncode


def convert(path, **how):
    return said("convert", path, **how)


def lines_of(lines):
    return "".join(line + "\n" for line in lines)


def expect_converted(what, lines, became, told):
    """Fails unless lines become these, with this told of them."""
    with file_of(lines_of(lines)) as path:
        out, err, status = convert(path)
        expect(out.decode(), lines_of(became), what)
        expect(err, "".join("%s:%d: %s: %s\n" % (path, *it) for it in told), "what is told: %s" % what)
        expect(status, 1 if any(severity == "error" for _, severity, _ in told) else 0, "the status: %s" % what)


def each_line_is_rewritten():
    for what, lines, became in REWRITTEN:
        expect_converted(what, lines, became, [])


def what_is_done_otherwise_or_not_at_all_is_told():
    for what, lines, became, told in TOLD:
        # A text that assembles has nothing told: a line that does not is put before it, and moves no address.
        spoilt = [".file \"a.c\""] + lines
        expect_converted(what, spoilt, ["# " + spoilt[0]] + became, [(line + 1, *rest) for line, *rest in told])


def a_text_that_assembles_stays_as_it_is():
    texts = [b"", b"nop", b"nop\r\n# \xc3\xa9\n\n", b"li a7, 10\necall\n", b"x: .byte 1\ny: .word 2\n", b"f: ret\nmain: nop", b"add a0, a1, a2 # mul /*\nnop\n"]
    for path in glob.glob(os.path.join(TOP, "examples", "*.s")):
        if said("check", path)[2] == 0:
            with open(path, "rb") as file:
                texts.append(file.read())
    expect(len(texts) > 10, True, "some examples assemble")
    for text in texts:
        with file_of(text) as path:
            expect(convert(path), (text, "", 0), "the text %r" % text[:60])


def what_is_converted_stays_as_it_is():
    for what, lines, became in REWRITTEN:
        with file_of(lines_of(became)) as path:
            expect(convert(path), (lines_of(became).encode(), "", 0), "once more: %s" % what)


def a_text_that_is_none_is_told():
    for text, line, words in ((b"b x\n\xff\n", 2, "NotUtf8: a byte that is not UTF-8"),):
        with file_of(text) as path:
            expect(convert(path), (text, "%s:%d: error: %s\n" % (path, line, words), 1), "the text %r" % text)


def programs_of_a_first_course_are_converted():
    names = sorted(os.path.basename(path)[:-2] for path in glob.glob(os.path.join(TOP, PROGRAMS, "*.s")))
    expect(names, sorted([*ASSEMBLE, *(UNSAID.keys() - ASSEMBLE)]), "the programs")
    expect(len(ASSEMBLE), 15, "of twenty programs so many assemble")
    for name in names:
        out, err, status = convert(os.path.join(PROGRAMS, name + ".s"))
        errors = [int(line) for line in re.findall(r"(?m)^[^:]*:([0-9]+): error: ", err)]
        expect((errors, status), (UNSAID.get(name, []), 1 if name in UNSAID else 0), "what %s can't say: %s" % (name, err))
        with file_of(out) as path:
            expect(said("check", path)[2], 0 if name in ASSEMBLE else 1, "whether %s assembles" % name)
            if name in PRINTED:
                expect(said("run", "--limit", "100000", path), (lines_of(PRINTED[name].split()).encode(), "", 0), "what %s prints" % name)


# ---- beside GNU as

def image_of(path):
    """The bytes that rvdap makes of the text in a file, which ends with a label: those from the first address up to it."""
    count = int(said("labels", path)[0].splitlines()[-1].split()[0], 16) - 0x10000
    asked, told = started(path, stopOnEntry=True)
    told += frames(STOPPED % ("entry", 5))
    with Talk() as talk:
        expect(talk.answers(asked, told), told, "a program that stops at its entry")
        talk.write(request(4, "readMemory", memoryReference="0x00010000", count=count) + request(5, "disconnect"))
        expect(talk.end(), (0, b""), "the end")
        answers = messages(told + talk.read_so_far + talk.process.stdout.read())
    return base64.b64decode(answers[5]["body"]["data"])


def texts_of_other_assemblers():
    """Texts by their names: the programs, the examples, what is made at random, and what a compiler makes."""
    for path in sorted(glob.glob(os.path.join(TOP, PROGRAMS, "*.s")) + glob.glob(os.path.join(TOP, "examples", "*.s"))):
        with open(path, encoding="utf-8") as file:
            yield os.path.relpath(path, TOP), file.read()
    for seed in range(140):
        yield "assembly %d" % seed, elsewhere.assembly(seed)
    for seed in range(80):
        yield "C %d" % seed, gnu.compiled(elsewhere.source(seed))


def bytes_are_those_of_gnu_as():
    if gnu.absent():
        return print("convert: not held against GNU as: absent are %s" % ", ".join(gnu.absent()))
    both = 0
    for name, text in texts_of_other_assemblers():
        theirs = gnu.image_of(text)
        with file_of(text) as path:
            out, err, _ = convert(path)
        with file_of(out + b"\nend_of_the_text:\n") as path:
            if theirs is not None and said("check", path)[2] == 0:
                both += 1
                place = gnu.first_difference(image_of(path), theirs)
                expect(place and hex(place), None, "where GNU as has other bytes of %s (%s)" % (name, err))
    expect(both >= 200, True, "200 programs that both take, not %d" % both)


# ---- faults

def what_cannot_be_read_is_told():
    with tempfile.TemporaryDirectory() as folder:
        with open(os.path.join(folder, "long.s"), "wb") as file:
            file.write(b"#" * (LONGEST + 1))
        for name in ("absent.s", ".", "long.s", ""):
            expect(convert(name, folder=folder), (b"", "rvdap: %s: cannot read\n" % name, 1), "convert %r" % name)


def output_that_fails_is_a_fault():
    for name in ("01-strlen", "06-gcd"):
        with open("/dev/full", "wb") as full:
            expect(convert(os.path.join(PROGRAMS, name + ".s"), stdout=full), (None, "rvdap: read or write fault\n", 1), "a full disk: %s" % name)


def without_memory_it_ends_with_a_line():
    with tempfile.TemporaryDirectory() as folder:
        with open(os.path.join(folder, "a.s"), "wb") as file:
            file.write(b'.equ N, 2 + 3\n1: move a0, a1 // x\nj 1b; li a0, N\n.asciz "x"\nli a7, 10\necall\nx: mul a0, a0, a0\n')
        whole = convert("a.s", folder=folder)
        given = each_refusal(lambda environment: convert("a.s", folder=folder, environment=environment))
        expect(len(given) > 40, True, "some allocations were refused")
        for answer in given:
            if answer != whole:
                expect(answer, (b"", "rvdap: no memory\n", 1), "out of memory")


def words_that_are_not_taken():
    for words in (("convert",), ("convert", "a.s", "b.s"), ("convert", "--json", "a.s"), ("--memory", "8", "convert", "a.s")):
        out, err, status = said(*words)
        expect((out, bool(err), status), (b"", True, 2), "the words %s" % (words,))


def checks():
    """Each check with its name."""
    return [(check.__name__.replace("_", " "), check) for check in (
        each_line_is_rewritten,
        what_is_done_otherwise_or_not_at_all_is_told,
        a_text_that_assembles_stays_as_it_is,
        what_is_converted_stays_as_it_is,
        a_text_that_is_none_is_told,
        programs_of_a_first_course_are_converted,
        bytes_are_those_of_gnu_as,
        what_cannot_be_read_is_told,
        output_that_fails_is_a_fault,
        without_memory_it_ends_with_a_line,
        words_that_are_not_taken,
    )]
