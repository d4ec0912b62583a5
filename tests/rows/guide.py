"""The examples of docs/MACHINE.md: what it says of a text, a number or an address is what comes of it.

Each span of code in the first cell of a table's row is a line of the row's text.
"""
import os
import re
from functools import partial

from rows.assembler import ASSEMBLER, BASE, IMAGE, assemble, entry, fails, has_bytes
from support.players import Row
from support.program import TOP

PLAYER = "test_assembler"

GUIDE = "docs/MACHINE.md, \"%s\""
# The memory that `rvdap asm` asks for, and the greatest memory that there is.
SIZE = 1048576
GREATEST = 16777216

KINDS = ("Syntax", "UnknownInstruction", "BadOperand", "OutOfRange", "TwiceDefined", "Undefined", "TooLarge", "NotUtf8")

# The texts of the rows that have no code.
WORDED = {
    "a text of 1,048,577 bytes": b"\n" * 1048577,
    "a comment with \u00e9 as the one byte 0xe9": b"# \xe9",
}

# The words of the guide's programs, and the address of the first instruction of each.
SQUARES = (BASE, (
    0x00100413, 0x00400493, 0x00040513, 0x00000097, 0x024080e7, 0x00100893, 0x00000073, 0x00140413, 0xfe9444e3, 0x00000513,
    0x05d00893, 0x00000073, 0x00050293, 0x00050313, 0x00000513, 0x00028863, 0x00650533, 0xfff28293, 0xff5ff06f, 0x00008067,
))
TABLE = (BASE + 24, (
    0x00000003, 0xffffffff, 0x00000004, 0xffffffff, 0x00000005, 0x00000000, 0x00000297, 0xfe828293, 0x00000317, 0xff430313,
    0x00000393, 0x0002ae03, 0x000e2eb3, 0x01d383b3, 0x00428293, 0xfe62e8e3, 0x00000297, 0xfd428293, 0x00728023, 0x0002c503,
    0x00100893, 0x00000073, 0x00000513, 0x05d00893, 0x00000073,
))
LINES = (BASE + 4, (0x00000005, 0x00000297, 0xffc28293, 0x0002a503, 0x05d00893, 0x00000073))
PROGRAMS = (SQUARES, TABLE, LINES)

# The words of the instructions whose results the guide has.
WORDS = {
    "sub a0, a1, a2": 0x40c58533,
    "add a0, a1, a2": 0x00c58533,
    "and a0, a1, a2": 0x00c5f533,
    "or a0, a1, a2": 0x00c5e533,
    "xor a0, a1, a2": 0x00c5c533,
    "slt a0, a1, a2": 0x00c5a533,
    "sltu a0, a1, a2": 0x00c5b533,
    "slti a0, a1, -1": 0xfff5a513,
    "sltiu a0, a1, -1": 0xfff5b513,
    "sll a0, a1, a2": 0x00c59533,
    "srli a0, a1, 4": 0x0045d513,
    "srai a0, a1, 4": 0x4045d513,
    "andi a0, a1, -16": 0xff05f513,
    "xori a0, a1, -1": 0xfff5c513,
    "lui a0, 0x12345": 0x12345537,
    "lb a0, 0(sp)": 0x00010503,
    "lbu a0, 0(sp)": 0x00014503,
    "lh a0, 2(sp)": 0x00211503,
    "lhu a0, 2(sp)": 0x00215503,
    "lw a0, 0(sp)": 0x00012503,
    "lh a0, 1(sp)": 0x00111503,
}

# The words of the pseudo-instructions of one instruction, where d is a0, s is s1, r is t2, and t their own address.
PSEUDO = {
    "beqz s, t": 0x00048063, "bgez s, t": 0x0004d063, "bgt s, r, t": 0x0093c063, "bgtu s, r, t": 0x0093e063, "bgtz s, t": 0x00904063,
    "ble s, r, t": 0x0093d063, "bleu s, r, t": 0x0093f063, "blez s, t": 0x00905063, "bltz s, t": 0x0004c063, "bnez s, t": 0x00049063,
    "j t": 0x0000006f, "jal t": 0x000000ef, "jalr s": 0x000480e7, "jr s": 0x00048067, "mv d, s": 0x00048513, "neg d, s": 0x40900533,
    "nop": 0x00000013, "not d, s": 0xfff4c513, "ret": 0x00008067, "seqz d, s": 0x0014b513, "sgtz d, s": 0x00902533,
    "sltz d, s": 0x0004a533, "snez d, s": 0x00903533,
}

# The words of texts that GNU as or its linker takes otherwise: those that it makes of what the guide says that they mean here.
OTHERWISE = {
    b"li a0, 010": (0x00a00513,),
    b".byte 1\n.align 2\n.word 2": (0x00000001, 0x00000002),
    b".data\n.word 1\n.text\nnop": (0x00000001, 0x00000013),
    b"f: nop\ncall f": (0x00000013, 0x00000097, 0xffc080e7),
}


def guide():
    with open(os.path.join(TOP, "docs", "MACHINE.md"), encoding="utf-8") as file:
        return file.read()


def section(name):
    """A section of the guide, up to the next one."""
    return re.search(r"\n##+ %s\n(.*?)(?=\n##+ |\Z)" % re.escape(name), guide(), re.DOTALL)[1]


def chapter(name):
    """A section of the guide, with those that it has."""
    return re.search(r"\n## %s\n(.*?)(?=\n## |\Z)" % re.escape(name), guide(), re.DOTALL)[1]


def tables(text, header):
    """The rows of all tables that have this header, each a list of its cells. There is one at least."""
    found = False
    for table in text.split("\n\n"):
        lines = [[cell.strip() for cell in line.strip().strip("|").split("|")] for line in table.splitlines() if line.startswith("|")]
        if lines and lines[0] == header:
            found = True
            yield from lines[2:]
    if not found:
        raise LookupError("no table has the header %s" % header)


def code(cell):
    return re.findall("`([^`]*)`", cell)


def text_of(cell):
    return WORDED.get(cell) or "\n".join(code(cell)).encode()


def programs():
    """The programs of the guide, each with what is said before it."""
    return re.findall(r"([^\n]*(?:\n[^\n]+)*)\n\n```asm\n(.*?)```\n", guide(), re.DOTALL)


def outputs(said):
    """The numbers that a program prints, and the code that it ends with, as the guide says."""
    printed, ends = re.search(r"It prints ([^:]*), and ends with the exit code (-?\d+)", said.replace("\n", " ")).groups()
    return [int(number) for number in re.findall(r"-?\d+", printed)], int(ends)


def in_memory(words):
    return b"".join(word.to_bytes(4, "little") for word in words)


def is_reported(cell, reported):
    line, kind = re.fullmatch("`line ([0-9]+): ([A-Za-z0-9]+)`", reported).groups()
    return fails(text_of(cell), int(line), kind, size=SIZE)


def examples_of(kind):
    """Each example of a kind is reported as the guide says, and its fix is taken."""
    for lines, reported, _, fix in tables(section("Errors"), ["Lines", "Reported", "Why", "Fix"]):
        if reported.endswith(": %s`" % kind):
            yield is_reported(lines, reported)
            if code(fix):
                yield assemble(text_of(fix), size=SIZE)


def differences():
    """The rows on GNU as: the error that is reported here, or the text that means the same."""
    for lines, here, _ in tables(section("Where GNU as differs"), ["Lines", "Here", "With GNU as"]):
        if here.startswith("`line "):
            yield is_reported(lines, here)
        else:
            wanted = has_bytes(in_memory(OTHERWISE.get(text_of(lines), ())))
            yield from (assemble(text_of(lines)), wanted, assemble(text_of(here)), wanted)


def number(cell):
    return int(cell.replace(",", ""), 0)


def ranges():
    """Each place of a number takes the least and the greatest, and none beyond these."""
    for places, least, greatest in tables(section("Numbers"), ["Place", "Least", "Greatest"]):
        for place in code(places):
            for value, wanted in ((number(least) - 1, "line 1: OutOfRange"), (number(least), "ok"),
                                  (number(greatest), "ok"), (number(greatest) + 1, "line 1: OutOfRange")):
                yield assemble(place.replace("N", str(value)).encode(), wanted, GREATEST)


def spellings():
    """The spans of code that the section on numbers calls bad operands, and those that it calls numbers."""
    said = section("Numbers").partition("\n| ")[0].replace("\n", " ")
    wrong, right = said.partition("There is no ")[2].partition("each of these")[0], said.partition("There is no ")[0]
    for start in code(wrong):
        yield assemble(b"li a0, %s" % start.encode().ljust(2, b"1"), "line 1: BadOperand")
    for value in ("010", "-0"):
        yield assemble(b"li a0, %s" % value.encode(), "ok" if "`%s`" % value in right else "is not in the guide")


def lines_and_addresses():
    yield assemble(programs()[2][1].encode())
    for line, goes, address in tables(section("Lines and addresses"), ["Breakpoint on line", "Goes to line", "Address"]):
        yield IMAGE.bind(int(line), "none") if goes == "none" else IMAGE.bind(int(line), int(goes), number(address))
    for address, line, name in tables(section("Lines and addresses"), ["Address", "Line", "Name"]):
        yield IMAGE.line_of(number(address), line)
        found = re.fullmatch("`([^`]+)`(?: and ([0-9]+) bytes)?", name)
        yield IMAGE.label_at(number(address), found[1], int(found[2] or 0)) if found else IMAGE.label_at(number(address), "none")


def pseudo_instructions():
    """Each pseudo-instruction of one instruction, and what it stands for, have its word."""
    header = ["Pseudo-instruction", "What it stands for", "", "Pseudo-instruction", "What it stands for"]
    for row in tables(section("Pseudo-instructions"), header):
        for name, meaning in zip(row[0::3], row[1::3]):
            for text in code(name) + code(meaning):
                yield from (assemble(with_operands(text)), has_bytes(in_memory([PSEUDO.get(code(name)[0], 0)])))


def results():
    """The instructions whose results the guide has, with what it says of them."""
    yield from tables(section("Steps"), ["Instruction", "a1", "a2", "a0 afterwards"])
    yield from tables(section("Steps"), ["Instruction", "a0 afterwards"])


def words_of_results():
    for instruction, *_ in results():
        text, = code(instruction)
        yield from (assemble(text.encode()), has_bytes(in_memory([WORDS.get(text, 0)])))


def statements_in_prose():
    """What stands in sentences and is a statement, with nothing in place of a register or a number, is taken."""
    for name in ("Disassembly", "The assembly language"):
        prose = re.sub(r"```.*?```|^\|[^\n]*", "", chapter(name), flags=re.DOTALL | re.MULTILINE)
        for text in code(prose):
            if " " in text and not re.search(r"\b(rvdap|N|NAME|rd)\b|0x$", text):
                yield assemble(b"x: " + text.encode())


def program_steps(number):
    """A program of the guide: where it starts, and its words."""
    start, words = PROGRAMS[number]
    return assemble(programs()[number][1].encode()), entry(start), has_bytes(in_memory(words))


def from_the_guide(name, steps, source):
    """A row of steps that are read from the guide. Where they cannot be, its only command says why, and no player takes that."""
    try:
        return Row(name, list(steps()), source)
    except (AttributeError, LookupError, TypeError, ValueError) as error:
        return Row(name, [("the guide has another form: %r" % error, "ok")], source)


def with_operands(text):
    """A statement with registers and a target for the letters that stand for them."""
    mnemonic, _, operands = text.partition(" ")
    for letter, operand in (("d", "a0"), ("s", "s1"), ("r", "t2"), ("t", "65536")):
        operands = re.sub(r"\b%s\b" % letter, operand, operands)
    return ("%s %s" % (mnemonic, operands)).encode()


def each_is_reported(header):
    return lambda: [is_reported(row[0], row[1]) for row in tables(section("Errors"), header)]


ROWS = [
    *(from_the_guide("the guide's program %d has its words" % (number + 1), partial(program_steps, number), ASSEMBLER)
      for number in range(len(PROGRAMS))),
    from_the_guide("the guide's instructions with results have their words", words_of_results, ASSEMBLER),
    from_the_guide("the guide's statements in sentences are taken", statements_in_prose, GUIDE % "The assembly language"),
    from_the_guide("the guide's ranges of numbers are exact", ranges, GUIDE % "Numbers"),
    from_the_guide("the guide's numbers are spelled as it says", spellings, GUIDE % "Numbers"),
    from_the_guide("a pseudo-instruction of the guide is what it stands for", pseudo_instructions, ASSEMBLER),
    from_the_guide("the guide's breakpoints and addresses have their lines", lines_and_addresses, GUIDE % "Lines and addresses"),
    *(from_the_guide("the guide's examples of %s are reported and fixed" % kind, partial(examples_of, kind), GUIDE % "Errors")
      for kind in KINDS),
    from_the_guide("the guide's errors are reported", each_is_reported(["Lines", "Reported", "Why", "Fix"]), GUIDE % "Errors"),
    from_the_guide("the guide says which of several errors is reported", each_is_reported(["Lines", "Reported", "Why"]), GUIDE % "Errors"),
    from_the_guide("the guide's differences from GNU as are here as it says", differences, GUIDE % "Where GNU as differs"),
]
