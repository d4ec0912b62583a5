"""Expressions: what their texts are read as, their values on a machine, and each error."""
import os

from rows import steps
from rows.guide import GUIDE, code, from_the_guide, section, tables
from rows.memory import write
from rows.steps import go
from support.expressions_in_c import BASE, MEMORY, PC, VALUES
from support.machine import REGISTERS
from support.players import Row
from support.program import TOP

PLAYER = "test_machine"
# An expression is read, which may find no memory, and has its value, which does not take any.
ALSO_MADE = {"Expr::value": "value"}

PROFILE = GUIDE % "Expressions"
BY_HAND = "worked by hand from docs/MACHINE.md, \"Expressions\""
C = "gcc 12.2, by tests/support/expressions_in_c.py"


def sets(name, value):
    return steps.sets(REGISTERS.index(name), value)


def value(text, wanted):
    """The value of a text: a number, or the name of why there is none."""
    return "value " + text.encode().hex(), wanted if isinstance(wanted, str) else "0x%08x" % wanted


def values(*pairs):
    return [value(text, wanted) for text, wanted in pairs]


def fails(error, *texts):
    return [value(text, error) for text in texts]


def enclosed(times, text):
    return "(" * times + text + ")" * times


def examples():
    """The examples of the guide, on its machine."""
    yield from (sets("a0", 5), sets("sp", BASE), write(BASE, bytes((7, 0, 0, 0, 0xff, 0xff, 0xff, 0xff))))
    # In a table a bar of an expression is written with a backslash.
    for texts, result, _ in tables(section("Expressions").replace("\\|", "\0"), ["Expression", "Result", "Why"]):
        for text in code(texts):
            yield value(text.replace("\0", "|"), result.strip("`"))


def as_c_says():
    """Each expression of the file with the value before it."""
    yield from (*(sets(name, number) for name, number in VALUES.items()), go(PC), write(BASE, MEMORY))
    with open(os.path.join(TOP, "tests", "rows", "expressions_in_c.txt"), encoding="ascii") as file:
        for line in file:
            wanted, _, text = line.rstrip("\n").partition(" ")
            yield value(text, wanted)


ROWS = [
    Row("comparisons are signed and give 0 or 1", values(
        ("2 > 1 == 1", 1), ("-1 < 1", 1), ("1 < -1", 0), ("0x80000000 < 0x7fffffff", 1), ("0x7fffffff < 0x80000000", 0),
        ("0xffffffff >= 0", 0), ("-1 <= -1", 1), ("-2 > -1", 0), ("3 > 2 > 1", 0), ("5 == 5", 1), ("5 != 5", 0), ("-1 == 4294967295", 1),
    ), BY_HAND),
    Row("a side that is not evaluated may have no value", values(
        ("1 || [0]", 1), ("7 || [0]", 1), ("0 && [0]", 0), ("0 || [0]", "Outside"), ("1 && [0]", "Outside"), ("[0] || 1", "Outside"),
        ("[0] && 0", "Outside"), ("0 && [0] || 2", 1), ("1 || 0 && [0]", 1), ("(1 || [0]) + 1", 2), ("0 || 0", 0), ("0 || 8", 1),
        ("4 && 8", 1), ("4 && 0", 0), ("0 * [0]", "Outside"),
    ), PROFILE),
    Row("shifts go by the low 5 bits and bring in zeros", values(
        ("1 << 33", 2), ("1 << 32", 1), ("1 << 31", 0x80000000), ("1 << -1", 0x80000000), ("3 << 31", 0x80000000), ("-1 >> 28", 15),
        ("0x80000000 >> 31", 1), ("0x80000000 >> 32", 0x80000000), ("-1 >> 33", 0x7fffffff), ("1 << 0xffffffe1", 2), ("256 >> 4 >> 2", 4),
        ("256 >> (4 >> 2)", 128),
    ), PROFILE),
    Row("operators before their operand bind tightest", values(
        ("!0 + 1", 2), ("!5", 0), ("!!5", 1), ("~0", 0xffffffff), ("~~5", 5), ("-1", 0xffffffff), ("--1", 1), ("- - 1", 1), ("-1 + 2", 1),
        ("-2 * 3", 0xfffffffa), ("~1 & 3", 2), ("!1 == 0", 1), ("-!0", 0xffffffff), ("!-0", 1), ("~-1", 0), ("1 - -1", 2), ("1--1", 2),
        ("1-~1", 3), ("2*-3", 0xfffffffa), ("!(1 && 0)", 1), ("-0x80000000", 0x80000000),
    ), BY_HAND),
    Row("sums differences and products wrap", values(
        ("4294967295 + 1", 0), ("0 - 1", 0xffffffff), ("65536 * 65536", 0), ("0xffffffff * 0xffffffff", 1), ("65537 * 65537", 131073),
        ("0x80000000 + 0x80000000", 0),
    ), BY_HAND),
    Row("bits are taken one by one", values(("12 & 10", 8), ("12 | 10", 14), ("12 ^ 10", 6), ("1 | 2 ^ 3 & 2", 1), ("6 ^ 3 | 1", 5)), BY_HAND),
    Row("operators group by their levels as in C", [sets("a0", 5)] + values(
        ("a0 * 2 - 1", 9), ("a0*2-1", 9), ("1 - a0 * 2", 0xfffffff7), ("a0 & 1 == 1", 1), ("a0 & 4 == 4", 1), ("(a0 & 4) == 4", 1),
        ("a0 & 2 == 2", 1), ("(a0 & 2) == 2", 0), ("10 - 3 - 2", 5), ("10 - (3 - 2)", 9), ("1 + 2 << 3", 24), ("1 << 2 + 1", 8),
        ("1 < 2 == 2 < 3", 1), ("2 == 2 < 3", 0), ("1 | 0 && 0", 0), ("1 || 1 && 0", 1), ("(1 || 1) && 0", 0), ("2 + 3 * 4 - 5", 9),
        ("7 & 3 ^ 1 | 8", 10), ("1 < 2 << 1", 1), ("8 >> 1 << 1", 8),
    ), BY_HAND),
    Row("numbers are decimal or hexadecimal of either case", values(
        ("0", 0), ("010", 10), ("4294967295", 0xffffffff), ("00004294967295", 0xffffffff), ("0x0", 0), ("0xabcdef", 0xabcdef),
        ("0xABCDEF", 0xabcdef), ("0xAbCdEf09", 0xabcdef09), ("0x00000000ffffffff", 0xffffffff),
    ) + fails("Syntax", "4294967296", "0x100000000", "99999999999999999999", "0x", "0X10", "0xg", "1a", "1_000", "1.5", "0b1", "'a'"), PROFILE),
    Row("each register has its names and pc is one", [sets(name, number + 100) for number, name in list(enumerate(REGISTERS))[1:]] + [go(0xfffffffc)]
        + values(*((name, number + 100 if number else 0) for number, name in enumerate(REGISTERS)))
        + values(*(("x%d" % number, number + 100 if number else 0) for number in range(32)))
        + values(("fp", 108), ("pc", 0xfffffffc), ("pc + 4", 0))
        + fails("Syntax", "a9", "x32", "x00", "x01", "A0", "X1", "PC", "Pc", "s12", "t7", "r0", "pcs", "a", "x", "sp1", "a0b", "a0 b", "a0pc"), PROFILE),
    Row("a word may be at any address", [
        write(BASE, bytes((1, 2, 3, 4, 5))), write(0x1fffc, bytes((0xfc, 0xfd, 0xfe, 0xff))), sets("sp", BASE), sets("a0", 1),
    ] + values(
        ("[sp]", 0x04030201), ("[ sp ]", 0x04030201), ("[0x00010001]", 0x05040302), ("[sp + a0]", 0x05040302), ("[sp+2]", 0x00050403),
        ("[0x1fffc]", 0xfffefdfc), ("[sp] + 1", 0x04030202), ("-[sp]", 0xfbfcfdff), ("[sp] & 0xff", 1), ("[(([sp] & 0xff)) + sp]", 0x05040302),
        ("[[sp] - 0x04030201 + sp]", 0x04030201),
    ) + fails(
        "Outside", "[0]", "[0xffff]", "[0x0000fffd]", "[0x0001fffd]", "[0x00020000]", "[-1]", "[-4]", "[[sp]]", "![0]", "[0] * 0", "([0])",
    ), PROFILE),
    Row("blanks and tabs stand anywhere between tokens", [sets("a0", 5)] + values(
        ("  a0", 5), ("a0  ", 5), ("\ta0\t+\t1\t", 6), (" \t ( \t a0 \t ) \t ", 5), ("a0+1", 6), ("a0<<1", 10), ("a0 <<1", 10), ("a0<= 5", 1),
        ("a0<-1", 0), ("a0>-1", 1), ("a0&~1", 4), ("a0==!0", 0), ("a0!=!0", 1), ("!a0==0", 1), ("1&&!0", 1), ("1||!0", 1),
    ) + fails("Syntax", "a 0", "1 0", "0 x1", "a0 < < 1", "a0 < = 5", "a0 = = 5", "a0 ! = 5", "1 & & 1", "1 | | 1", "a0\n", "a0\r", "a0\v+ 1",
              "a0\u00a0+ 1"), PROFILE),
    Row("what the grammar does not have is refused", fails(
        "Syntax", "", " ", "\t", "1 +", "+ 1", "+1", "(1", "1)", "[1)", "(1]", "[1", "1]", "()", "[]", ")", "(", "(1 + 2", "1 + 2)", "((1)", "(1))",
        "([1)]", "(1 +) 2", "1 + ()", "(-)", "-[", "[a0", "1 2", "a0 a1", "1 (2)", "(1)(2)", "a0 [0]", "a = 1", "a0 = 1", "@", "$1", "1 @ 2", "1 / 2",
        "1 % 2", "1 ? 2 : 3", "1, 2", "{1}", "* 1", "1 ** 2", "1 &&& 2", "1 ||| 2", "1 === 1", "1 <> 2", "1 <<< 2", "1 >>> 2", "1 >= = 2", "!", "-",
        "~", "1 !", "1 ~", "1 ~ 2", "!= 1", "1 == == 1", "1 && && 2", "a0 + b0", "x", "a0;", "\"a\"", "\u00e9", "1 + \u00e9", "a\u00e9",
    ), PROFILE),
    Row("64 deep is deep enough and 65 is too deep", values(
        (enclosed(64, "7"), 7), ("-" * 64 + "7", 7), ("!" * 64 + "7", 1), ("~" * 64 + "7", 7), ("-(" * 32 + "7" + ")" * 32, 7),
        ("~-" * 32 + "7", 7 - 32 + 2 ** 32), (enclosed(64, "1") + " + " + "-" * 64 + "1", 2), ("1 + (" * 64 + "1" + ")" * 64, 65),
        (enclosed(63, "[0]"), "Outside"), ("+".join(["(1)"] * 100), 100),
    ) + fails(
        "TooDeep", enclosed(65, "7"), "-" * 65 + "7", "!" * 65 + "7", "~" * 65 + "7", "-(" * 32 + "!7" + ")" * 32, "[" * 65 + "7" + "]" * 65,
        enclosed(64, "[0]"), "1 + (" * 65 + "1" + ")" * 65, "1 + " + "-" * 65 + "1", "-" * 65 + "1 + 1", "0 && " + "!" * 65 + "1", "-" * 1023 + "7",
    ) + fails("Syntax", "(" * 65 + "7" + ")" * 64, "-" * 65, "(" * 1024, "-" * 65 + "a9"), PROFILE),
    Row("a text has at most 1024 bytes", values(
        (" " * 1023 + "7", 7), ("0" * 1023 + "7", 7), ("+".join(["1"] * 512) + " ", 512), ("1" + "&1" * 511 + " ", 1), ("0||" * 341 + "5", 1),
        (enclosed(64, "1+" * 447 + "1") + " ", 448), ("-" * 64 + " " * 959 + "7", 7),
    ) + fails(
        "TooLong", " " * 1024 + "7", " " * 1025, "0" * 1024 + "7", "+".join(["1"] * 513), "@" * 1025, "-" * 1024 + "7", "(" * 5000, "\u00e9" * 512 + " ",
    ) + fails("Syntax", " " * 1024, "@" * 1024, "+".join(["1"] * 512) + "+", "\u00e9" * 512), PROFILE),
    Row("operators of one level group from the left", values(
        ("7 - 2 + 1", 6), ("7 + 2 - 1", 8), ("7 - 2 - 1", 4), ("7 << 2 >> 1", 14), ("7 >> 2 << 1", 2), ("7 == 2 != 1", 1), ("7 != 2 == 1", 1),
        ("7 < 2 >= 1", 0), ("7 > 2 <= 1", 1),
    ), BY_HAND),
    Row("memory that was not there is there when it is asked for again", [sets("a0", 5), sets("sp", BASE), write(BASE, b"\7")] + values(
        ("-(a0 * 2 - 1) + [sp] & ~1", 0xfffffffe), ("a0 < 6 && !(a0 == 4) || [0]", 1), ("((((((((1))))))))", 1), ("1 + (2", "Syntax"),
        ("[0]", "Outside"), ("!" * 65 + "1", "TooDeep"), (" " * 1025, "TooLong"),
    ), PROFILE, refused=True),
    from_the_guide("the guide's expressions have their results", examples, PROFILE),
    Row("random expressions have the values that C gives them", list(as_c_says()), C),
]
