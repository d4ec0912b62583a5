"""Answers: what requests about the machine answer, and the list of breakpoints that they set."""
import base64
import json

from support.breaks import ADDRESS, CONDITION, FUNCTION, HIT, LONGEST_LOG, MOST, NO_CODE, UNKNOWN, at, is_not, is_set, named, on
from support.machine import write
from support.players import Row

PLAYER = "test_answers"
BASE = 0x10000
SIZE = 1 << 20
PATH = "/w/p.s"

PROFILE = "docs/PROTOCOL.md, \"Breakpoints\""
EXAMPLES = "docs/PROTOCOL.md, \"Bodies of answers\""
BY_HAND = "worked by hand from docs/PROTOCOL.md, \"Breakpoints\""

# For each line with code how many words that has; None: a line without code.
P = (1, 2, 1, 1, 1, 1)
S = (2, 1, 1, 1)
R = (1, 2, 1, 1, 1, 1, 1, 1, 2, 1, 1, 1)
WITH_GAPS = (None, None, 1, None, 2, None)


def program(words, size=SIZE, path=PATH, labels=()):
    """The program whose lines, from 1, have so many words, in a memory of so many bytes, with these labels and their addresses."""
    steps, address = [("label %s %d" % label, "ok") for label in labels], BASE
    for line, count in enumerate(words, 1):
        if count:
            steps.append(("row %d %d %d" % (line, address, count), "ok"))
            address += 4 * count
    return steps + [("program %d %d %s" % (address, size, path.encode().hex()), "ok")]


def bases(line, column=1):
    return "bases %d %d" % (line, column), "ok"


def text(value):
    return json.dumps(value, separators=(",", ":"), sort_keys=True)


def asks(command, arguments, outcome, listed, number):
    request = {"seq": 5, "type": "request", "command": command, "arguments": arguments}
    message = {"command": command, "request_seq": 5, "seq": 1, "type": "response", **outcome}
    return "breaks %d %s" % (number, json.dumps(request).encode().hex()), " ".join((text(message),) + listed)


def succeeds(command, arguments, entries, listed, number=1):
    """A success with these entries, and then what the list is."""
    return asks(command, arguments, {"success": True, "body": {"breakpoints": list(entries)}}, listed, number)


def refused(command, arguments):
    """Refused as asking for too many; no list is set."""
    return asks(command, arguments, {"success": False, "message": "tooMuch", "body": {"error": {"format": "tooMuch", "id": 15}}}, ("none",), 1)


def lines(asked, entries, listed, path=PATH, **options):
    """Breakpoints at lines of a source: what is said of each, and the list."""
    arguments = {"source": {"path": path} if path is not None else {}, "breakpoints": asked}
    return succeeds("setBreakpoints", arguments, entries, listed, **options)


def functions(asked, entries, listed, **options):
    return succeeds("setFunctionBreakpoints", {"breakpoints": asked}, entries, listed, **options)


def instructions(asked, entries, listed, **options):
    return succeeds("setInstructionBreakpoints", {"breakpoints": asked}, entries, listed, **options)


def the_list(*breakpoints):
    return ("list",) + breakpoints


def item(number, address, hit=1, value=None):
    return "%d:%d:%d" % (number, address, hit) + ("" if value is None else ":%s" % value)


def says(text):
    """What follows a breakpoint of the list that is a logpoint."""
    return "log", text.encode().hex()


NONE = ("none",)


def one(asked, line, address, hit=1, value=None):
    """A breakpoint at a line of its own, which is set."""
    return lines([asked], [is_set(1, address, line)], the_list(item(1, address, hit, value)))


def none_at(message, asked):
    """One that is not."""
    return lines([asked], [is_not(message, asked["line"])], the_list())


def one_on(asked, address, hit=1, value=None):
    return instructions([asked], [is_set(1, address)], the_list(item(1, address, hit, value)))


def none_on(message, asked):
    return instructions([asked], [is_not(message)], the_list())


def one_in(asked, address, hit=1, value=None):
    """A breakpoint at a function of its own, which is set."""
    return functions([asked], [is_set(1, address)], the_list(item(1, address, hit, value)))


def none_in(message, asked):
    return functions([asked], [is_not(message)], the_list())


def logs(text, listed=True):
    """A logpoint of its own at line 1: one that is set, or, where its text is no text, a breakpoint that stops."""
    return lines([at(1, log=text)], [is_set(1, BASE, 1)], the_list(item(1, BASE), *(says(text) if listed else ())))


SOURCE_ROWS = [
    Row("breakpoints at lines of the examples", [
        *program(S), lines([at(2), at(9)], [is_set(1, 0x10008, 2), is_not(NO_CODE, 9)], the_list(item(1, 0x10008))),
        *program(R), lines([at(9)], [is_set(1, 0x10024, 9)], the_list(item(1, 0x10024))), lines([], [], the_list()),
    ], EXAMPLES),
    Row("the first line with code from the asked one on", [
        *program(WITH_GAPS), one(at(0), 3, BASE), one(at(1), 3, BASE), one(at(3), 3, BASE), one(at(4), 5, BASE + 4), one(at(5), 5, BASE + 4),
        none_at(NO_CODE, at(6)), none_at(NO_CODE, at(2147483647)),
        *program(()), none_at(NO_CODE, at(0)), none_at(NO_CODE, at(1)),
    ], PROFILE),
    Row("lines that count from 0", [
        *program(WITH_GAPS), bases(0), one(at(0), 2, BASE), one(at(2), 2, BASE), one(at(3), 4, BASE + 4), one(at(4), 4, BASE + 4),
        none_at(NO_CODE, at(5)), none_at(NO_CODE, at(2147483647)), bases(1), one(at(3), 3, BASE), one(at(4), 5, BASE + 4),
        bases(0, 0), one(at(2), 2, BASE), bases(1, 0), one(at(5), 5, BASE + 4), none_at(NO_CODE, at(6)),
    ], PROFILE),
    Row("numbers for those that are set alone", [
        *program(P),
        lines([at(1), at(7), at(3), at(2, "("), at(3), at(4, None, "0"), at(6)],
              [is_set(40, BASE, 1), is_not(NO_CODE, 7), is_set(41, BASE + 12, 3), is_not(CONDITION, 2), is_set(42, BASE + 12, 3), is_not(HIT, 4),
               is_set(43, BASE + 24, 6)],
              the_list(item(40, BASE), item(41, BASE + 12), item(42, BASE + 12), item(43, BASE + 24)), number=40),
        lines([at(1), at(2)], [is_set(2147483648, BASE, 1), is_set(2147483649, BASE + 4, 2)],
              the_list(item(2147483648, BASE), item(2147483649, BASE + 4)), number=2147483648),
    ], PROFILE),
    Row("a source that is not the program's", [
        *program(P),
        lines([at(1), at(2, "("), at(9)], [is_not(UNKNOWN, line) for line in (1, 2, 9)], NONE, path="/w/q.s"),
        lines([at(1, None, "0")], [is_not(UNKNOWN, 1)], NONE, path=None), lines([], [], NONE, path="/w/p.S"), lines([], [], NONE, path=None),
        lines([at(1)], [is_not(UNKNOWN, 1)], NONE, path=""), lines([at(1)], [is_not(UNKNOWN, 1)], NONE, path="/w/p.s "),
        *program(P, path=""), lines([at(1)], [is_set(1, BASE, 1)], the_list(item(1, BASE)), path=""), lines([at(1)], [is_not(UNKNOWN, 1)], NONE, path=None),
        bases(0), lines([at(1), at(0)], [is_not(UNKNOWN, 1), is_not(UNKNOWN, 0)], NONE, path="q"),
    ], PROFILE),
    Row("a request without a source, and with lines alone", [
        *program(P), succeeds("setBreakpoints", {}, [], NONE), succeeds("setBreakpoints", {"lines": [1]}, [is_not(UNKNOWN, 1)], NONE),
        succeeds("setBreakpoints", {"source": {"path": PATH}, "lines": [2, 9]}, [is_set(1, BASE + 4, 2), is_not(NO_CODE, 9)],
                 the_list(item(1, BASE + 4))),
        succeeds("setBreakpoints", {"source": {"path": PATH}}, [], the_list()),
    ], PROFILE),
    Row("the first problem of a breakpoint at a line", [
        *program(P), none_at(CONDITION, at(9, "(", "0")), none_at(CONDITION, at(1, "(", "0")), none_at(CONDITION, at(9, "(")),
        none_at(HIT, at(9, "1", "0")), none_at(HIT, at(9, None, "x")), none_at(NO_CODE, at(9, "1", "1")),
        lines([at(9, "(", "0")], [is_not(UNKNOWN, 9)], NONE, path="q"),
    ], PROFILE),
]

TERMS_ROWS = [
    Row("conditions", [
        *program(P), one(at(1, "2 > 1"), 1, BASE, value=1), one(at(1, "pc"), 1, BASE, value=BASE), one(at(1, "[0]"), 1, BASE, value="Outside"),
        one(at(1, "  sp  "), 1, BASE, value=BASE + SIZE), one(at(1, " \t7\t "), 1, BASE, value=7), one(at(1, "\t-1"), 1, BASE, value=0xffffffff),
        none_at(CONDITION, at(1, "1 +")), none_at(CONDITION, at(1, "\t")), none_at(CONDITION, at(1, " \n ")), none_at(CONDITION, at(1, "1\n")),
        none_at(CONDITION, at(1, "\u00a01")), none_at(CONDITION, at(1, "a0 = 1")), none_at(CONDITION, at(1, "q")),
        none_at(CONDITION, at(1, "4294967296")),
    ], PROFILE),
    Row("a condition that is empty or absent", [
        *program(P), one(at(1, ""), 1, BASE), one(at(1, " "), 1, BASE), one(at(1, 1000 * " "), 1, BASE), one(at(1, None, ""), 1, BASE),
        one(at(1, None, "  "), 1, BASE), one(at(1, "", " "), 1, BASE), one_on(on("0x00010000", 0, " ", ""), BASE),
    ], PROFILE),
    Row("conditions at their limits", [
        *program(P), one(at(1, 2000 * " " + "1" + 511 * "+1" + " "), 1, BASE, value=512),
        one(at(1, 1021 * "0" + "255"), 1, BASE, value=255), none_at(CONDITION, at(1, 1022 * "0" + "255")),
        one(at(1, 64 * "(" + "1" + 64 * ")"), 1, BASE, value=1), none_at(CONDITION, at(1, 65 * "(" + "1" + 65 * ")")),
        one(at(1, 64 * "~" + "1"), 1, BASE, value=1), none_at(CONDITION, at(1, 65 * "~" + "1")),
    ], PROFILE),
    Row("hit conditions", [
        *program(P), one(at(1, None, "1"), 1, BASE), one(at(1, None, " 3 "), 1, BASE, hit=3), one(at(1, None, "4294967295"), 1, BASE, hit=4294967295),
        one(at(1, None, "0007"), 1, BASE, hit=7), one(at(1, None, 40 * "0" + "1"), 1, BASE), one(at(1, "1", "2"), 1, BASE, hit=2, value=1),
        *(none_at(HIT, at(1, None, hits))
          for hits in ("0", "00", "4294967296", "99999999999999999999", "-1", "+1", "0x1", "1.0", "1 1", "\t1", "1\t", ">= 3", "x", "\u0661")),
        one_on(on("0x00010004", None, None, "5"), BASE + 4, hit=5), none_on(HIT, on("0x00010004", None, None, "0")),
    ], PROFILE),
]

INSTRUCTION_ROWS = [
    Row("breakpoints at instructions of the example", [
        *program(P), instructions([on("0x00010010", 4), on("0x00010010", 2)], [is_set(1, 0x10014), is_not(ADDRESS)], the_list(item(1, 0x10014))),
        instructions([], [], the_list()),
    ], EXAMPLES),
    Row("references", [
        *program(P), one_on(on("0x00010000"), BASE), one_on(on("0x10000"), BASE), one_on(on("65536"), BASE), one_on(on("00000000000065536"), BASE),
        one_on(on("0x0001000C"), BASE + 12), one_on(on("0x0001000c"), BASE + 12),
        *(none_on(ADDRESS, on(reference)) for reference in (
            "", "0x", "0X00010000", "0x000010000", "0x0001000g", " 0x00010000", "0x00010000 ", "65536 ", "+65536", "-65536", "10000h", "4294967296",
            "4295032832", "0x100010000", "sp", "1e5")),
    ], PROFILE),
    Row("addresses in memory at multiples of 4", [
        *program(P, 4096), one_on(on("0x00010ffc"), BASE + 4092), none_on(ADDRESS, on("0x00011000")), none_on(ADDRESS, on("0x0000fffc")),
        one_on(on("65536", 4092), BASE + 4092), none_on(ADDRESS, on("65536", 4096)), one_on(on("65540", -4), BASE), none_on(ADDRESS, on("65536", -4)),
        none_on(ADDRESS, on("4294967295", -2147483648)),
        one_on(on("0", 65536), BASE), one_on(on("2147549184", -2147483648), BASE), none_on(ADDRESS, on("3", -4)), none_on(ADDRESS, on("0", -2147483648)),
        none_on(ADDRESS, on("4294967295", 65537)), none_on(ADDRESS, on("0xffffffff", 2147483647)), none_on(ADDRESS, on("0xfffffffc", 4)),
        one_on(on("65537", 3), BASE + 4), none_on(ADDRESS, on("65537")), none_on(ADDRESS, on("65538")), none_on(ADDRESS, on("65539")),
        none_on(ADDRESS, on("0")), none_on(ADDRESS, on("4294967292")),
        *program(P, 16777216), one_on(on("0x0100fffc"), 0x100fffc), none_on(ADDRESS, on("0x01010000")),
    ], BY_HAND),
    Row("the first problem of a breakpoint at an instruction", [
        *program(P), none_on(CONDITION, on("x", None, "(", "0")), none_on(CONDITION, on("65536", None, "(", "0")), none_on(HIT, on("x", None, "1", "0")),
        none_on(ADDRESS, on("x", None, "1", "1")), none_on(ADDRESS, on("x")),
    ], PROFILE),
    Row("numbers of those at instructions", [
        *program(P), bases(0, 0),
        instructions([on("65536"), on("1"), on("65536", 4, "7", "9"), on("65536", 8, "(")],
                     [is_set(7, BASE), is_not(ADDRESS), is_set(8, BASE + 4), is_not(CONDITION)],
                     the_list(item(7, BASE), item(8, BASE + 4, 9, 7)), number=7),
    ], PROFILE),
]

# A function at the example's line 5, one at its entry, one of data below the end of memory and labels where no instruction can be.
LABELS = (("f", BASE + 20), ("_start", BASE), ("g.h", BASE + 8), ("odd", BASE + 6), ("last", BASE + 4092), ("end", BASE + 4096), ("high", 0xfffffffc))
FUNCTION_ROWS = [
    Row("breakpoints at functions of the example", [
        *program(S, labels=(("f", BASE + 12),)),
        functions([named("f", None, "2"), named("g")], [is_set(1, 0x1000c), is_not(FUNCTION)], the_list(item(1, 0x1000c, 2))),
        functions([], [], the_list()),
    ], EXAMPLES),
    Row("names of functions", [
        *program(P, 4096, labels=LABELS), one_in(named("f"), BASE + 20), one_in(named("_start"), BASE), one_in(named("g.h"), BASE + 8),
        one_in(named(" f"), BASE + 20), one_in(named("f   "), BASE + 20), one_in(named("  f "), BASE + 20),
        *(none_in(FUNCTION, named(name)) for name in (
            "", " ", "F", "f ;", "\tf", "f\t", "f\n", "\u00a0f", "f:", "f+4", "fg", "g", "h", "0x00010014", "65556", "_start f")),
        *program(P), none_in(FUNCTION, named("f")),
    ], PROFILE),
    Row("labels where no instruction can be", [
        *program(P, 4096, labels=LABELS), one_in(named("last"), BASE + 4092), none_in(ADDRESS, named("odd")), none_in(ADDRESS, named("end")),
        none_in(ADDRESS, named("high")), *program(P, 8192, labels=LABELS), one_in(named("end"), BASE + 4096),
    ], BY_HAND),
    Row("the first problem of a breakpoint at a function", [
        *program(P, 4096, labels=LABELS), none_in(CONDITION, named("x", "(", "0")), none_in(CONDITION, named("f", "(", "0")),
        none_in(HIT, named("x", "1", "0")), none_in(HIT, named("odd", None, "0")), none_in(FUNCTION, named("x", "1", "1")),
        none_in(ADDRESS, named("odd", "1", "1")), one_in(named("f", "1", "1"), BASE + 20, value=1),
    ], PROFILE),
    Row("numbers of those at functions", [
        *program(P, labels=LABELS[:3]),
        functions([named("f"), named("x"), named("f", " 7 ", " 9 "), named("g.h", "(")],
                  [is_set(7, BASE + 20), is_not(FUNCTION), is_set(8, BASE + 20), is_not(CONDITION)],
                  the_list(item(7, BASE + 20), item(8, BASE + 20, 9, 7)), number=7),
    ], PROFILE),
]

LOG_ROWS = [
    Row("a logpoint of the example", [
        *program(S), lines([at(2, log="back {a0}")], [is_set(1, 0x10008, 2)], the_list(item(1, 0x10008), *says("back {a0}"))),
    ], EXAMPLES),
    Row("what a logpoint writes", [
        *program(P), *(logs(text) for text in (" ", "  x ", "\t", "\n", "{}", "{", "a\nb", "\u00e9\u20ac", "\u0000", "0", "null")), logs("", False),
        lines([at(2, "1", " 3 ", "x"), at(3), at(3, log="y"), at(9, log="z"), at(4, "(", None, "z")],
              [is_set(1, BASE + 4, 2), is_set(2, BASE + 12, 3), is_set(3, BASE + 12, 3), is_not(NO_CODE, 9), is_not(CONDITION, 4)],
              the_list(item(1, BASE + 4, 3, 1), *says("x"), item(2, BASE + 12), item(3, BASE + 12), *says("y"))),
        lines([at(1, log="x")], [is_not(UNKNOWN, 1)], NONE, path="q"),
    ], PROFILE),
    Row("1,024 bytes of a logpoint, and one more", [
        *program(P), logs(LONGEST_LOG * "x"), logs(LONGEST_LOG * " "), logs(LONGEST_LOG // 2 * "\u00e9"),
        *(refused("setBreakpoints", {"source": {"path": path}, "breakpoints": [at(1), asked, at(2)]})
          for path in (PATH, "q", "") for asked in (
              at(1, log=(LONGEST_LOG + 1) * "x"), at(1, log=LONGEST_LOG // 2 * "\u00e9" + "x"), at(1, log=(LONGEST_LOG + 1) * " "),
              at(9, "(", "0", (LONGEST_LOG + 1) * "x"))),
        refused("setBreakpoints", {"breakpoints": [at(1, log=(LONGEST_LOG + 1) * "x")]}),
        refused("setBreakpoints", {"source": {"path": PATH}, "breakpoints": (MOST + 1) * [at(1, log=(LONGEST_LOG + 1) * "x")]}),
    ], PROFILE),
]

LIMIT_ROWS = [
    Row("1,024 breakpoints, and one more", [
        *program(P),
        lines(MOST * [at(2)], [is_set(1 + i, BASE + 4, 2) for i in range(MOST)], the_list(*(item(1 + i, BASE + 4) for i in range(MOST)))),
        refused("setBreakpoints", {"source": {"path": PATH}, "breakpoints": (MOST + 1) * [at(2)]}),
        refused("setBreakpoints", {"source": {"path": "q"}, "breakpoints": (MOST + 1) * [at(2)]}),
        refused("setBreakpoints", {"lines": (MOST + 1) * [1]}),
        lines(MOST * [at(9)], MOST * [is_not(UNKNOWN, 9)], NONE, path="q"),
        instructions(MOST * [on("65536")], [is_set(1 + i, BASE) for i in range(MOST)], the_list(*(item(1 + i, BASE) for i in range(MOST)))),
        refused("setInstructionBreakpoints", {"breakpoints": (MOST + 1) * [on("65536")]}),
        *program(P, labels=LABELS[:1]),
        functions(MOST * [named("f")], [is_set(1 + i, BASE + 20) for i in range(MOST)], the_list(*(item(1 + i, BASE + 20) for i in range(MOST)))),
        refused("setFunctionBreakpoints", {"breakpoints": (MOST + 1) * [named("f")]}),
        refused("setFunctionBreakpoints", {"breakpoints": (MOST + 1) * [named("x")]}),
    ], PROFILE),
    Row("answers that found no memory", [
        *program(P), lines([at(1, "a0 == 0 || [0]", "2"), at(9)], [is_set(1, BASE, 1), is_not(NO_CODE, 9)], the_list(item(1, BASE, 2, 1))),
        lines([at(1)], [is_not(UNKNOWN, 1)], NONE, path="q"),
        instructions([on("65536", None, "1"), on("1")], [is_set(3, BASE), is_not(ADDRESS)], the_list(item(3, BASE, value=1)), number=3),
        *program(P, labels=LABELS[:1]),
        functions([named("f", "1"), named("x")], [is_set(3, BASE + 20), is_not(FUNCTION)], the_list(item(3, BASE + 20, value=1)), number=3),
        lines([at(1, "1", None, "x")], [is_set(1, BASE, 1)], the_list(item(1, BASE, value=1), *says("x"))),
    ], PROFILE, refused=True),
]

# ---- requests that look into memory

LOOKING = "docs/PROTOCOL.md, \"Memory and instructions\""
BY_HAND_LOOKING = "worked by hand from docs/PROTOCOL.md, \"Memory and instructions\""
REFERENCES = {"0x00010000": BASE, "0x10000": BASE, "65536": BASE, "00000000000065536": BASE, "0x0001000C": BASE + 12, "0x0001000c": BASE + 12}
NO_REFERENCES = ("", "0x", "0X00010000", "0x000010000", "0x0001000g", " 0x00010000", "0x00010000 ", "65536 ", "+65536", "-65536", "10000h",
                 "4294967296", "0x100010000", "sp", "1e5")
IDS = {"badMemoryReference": 13, "outsideMemory": 14, "tooMuch": 15}
# The words of the example P, and its listing as GNU binutils have it, with this project's registers and targets.
P_WORDS = ((0x00500513, "addi a0, zero, 5"), (0x00000097, "auipc ra, 0x0"), (0x010080e7, "jalr ra, 16(ra)"), (0x05d00893, "addi a7, zero, 93"),
           (0x00000073, "ecall"), (0x00150513, "addi a0, a0, 1"), (0x00008067, "jalr zero, 0(ra)"))
MOST_INSTRUCTIONS = 4096
NO_INSTRUCTIONS = (0, 0xffffffff, 0x02351513, 0x0000100f, 0x00351512)


def memory(size=SIZE, data=b"", address=BASE):
    """A memory of so many bytes, with these from an address on and else 0."""
    return [("program %d %d " % (BASE, size), "ok")] + ([write(address, data)] if data else [])


def words_of(words):
    return b"".join(word.to_bytes(4, "little") for word in words)


def looks(command, arguments, outcome):
    request = {"seq": 5, "type": "request", "command": command, "arguments": arguments}
    message = {"command": command, "request_seq": 5, "seq": 1, "type": "response", **outcome}
    return "look %s" % json.dumps(request).encode().hex(), text(message)


def looks_in_vain(command, arguments, why):
    return looks(command, arguments, {"success": False, "message": why, "body": {"error": {"format": why, "id": IDS[why]}}})


def bytes_at(reference, count, offset=None):
    return {"memoryReference": reference, "count": count, **({} if offset is None else {"offset": offset})}


def reads(asked, address, data, missing=0):
    body = {"address": "0x%08x" % address, "data": base64.b64encode(data).decode(), **({"unreadableBytes": missing} if missing else {})}
    return looks("readMemory", asked, {"success": True, "body": body})


def reads_none(why, asked):
    return looks_in_vain("readMemory", asked, why)


def code_at(reference, count, instructions=None, offset=None):
    given = {"offset": offset, "instructionOffset": instructions}
    return {"memoryReference": reference, "instructionCount": count, **{name: value for name, value in given.items() if value is not None}}


def word(address, number, instruction):
    return {"address": "0x%08x" % address, "instruction": instruction, "instructionBytes": number.to_bytes(4, "little").hex(" ")}


def no_word(address):
    return {"address": "0x%08x" % address, "instruction": "(invalid)", "presentationHint": "invalid"}


def zero(address):
    return word(address, 0, ".word 0x00000000")


def lists(asked, *entries):
    return looks("disassemble", asked, {"success": True, "body": {"instructions": list(entries)}})


def lists_none(why, asked):
    return looks_in_vain("disassemble", asked, why)


READING_ROWS = [
    Row("bytes of the examples", [
        *memory(), reads(bytes_at("0x0010fffc", 8), 0x10fffc, bytes(4), 4), reads(bytes_at("0x0010fffc", 0), 0x10fffc, b""),
        reads_none("outsideMemory", bytes_at("0x00110000", 1)),
    ], EXAMPLES),
    Row("bytes where they are", [
        *memory(4096, b"\x01\x02\x03", BASE + 5), reads(bytes_at("65541", 3), BASE + 5, b"\x01\x02\x03"), reads(bytes_at("65541", 1), BASE + 5, b"\x01"),
        reads(bytes_at("65536", 10), BASE, b"\0\0\0\0\0\x01\x02\x03\0\0"), reads(bytes_at("65536", 2, 6), BASE + 6, b"\x02\x03"),
        reads(bytes_at("65545", 2, -2), BASE + 7, b"\x03\0"), reads(bytes_at("0", 1, 65541), BASE + 5, b"\x01"),
        reads(bytes_at("2147549189", 1, -2147483648), BASE + 5, b"\x01"),
    ], BY_HAND_LOOKING),
    Row("the end of memory", [
        *memory(4096, b"\xff", BASE + 4095), reads(bytes_at("65536", 4096), BASE, bytes(4095) + b"\xff"),
        reads(bytes_at("65536", 4097), BASE, bytes(4095) + b"\xff", 1), reads(bytes_at("69631", 1), BASE + 4095, b"\xff"),
        reads(bytes_at("69631", 65536), BASE + 4095, b"\xff", 65535), reads_none("outsideMemory", bytes_at("69632", 1)),
        reads_none("outsideMemory", bytes_at("65535", 2)), reads_none("outsideMemory", bytes_at("65535", 65536)),
    ], BY_HAND_LOOKING),
    Row("no bytes, at any address", [
        *memory(4096), reads(bytes_at("65536", 0), BASE, b""), reads(bytes_at("69632", 0), BASE + 4096, b""), reads(bytes_at("0", 0), 0, b""),
        reads(bytes_at("4294967295", 0), 0xffffffff, b""), reads_none("outsideMemory", bytes_at("4294967295", 0, 1)),
        reads_none("outsideMemory", bytes_at("0", 0, -1)),
    ], LOOKING),
    Row("references of bytes", [
        *memory(4096), *(reads(bytes_at(reference, 0), address, b"") for reference, address in REFERENCES.items()),
        *(reads_none("badMemoryReference", bytes_at(reference, 0)) for reference in NO_REFERENCES),
    ], LOOKING),
    Row("the first refusal of bytes", [
        *memory(4096), reads_none("badMemoryReference", bytes_at("sp", 65537)), reads_none("tooMuch", bytes_at("0", 65537)),
        reads_none("tooMuch", bytes_at("0", 2147483647, -1)), reads_none("outsideMemory", bytes_at("0", 65536)),
        reads_none("outsideMemory", bytes_at("0xffffffff", 1, 65537)),
    ], LOOKING),
    Row("65,536 bytes, and one more", [
        *memory(16777216, bytes(range(256)), BASE), reads(bytes_at("65536", 65536), BASE, bytes(range(256)) + bytes(65280)),
        reads_none("tooMuch", bytes_at("65536", 65537)), reads(bytes_at("0x0100fffe", 4), 0x100fffe, bytes(2), 2),
    ], LOOKING),
]

LISTING_ROWS = [
    Row("instructions of the example", [
        *memory(data=words_of(number for number, _ in P_WORDS)),
        lists(code_at("0x00010000", 3, -2), no_word(0xfff8), no_word(0xfffc), word(BASE, 0x00500513, "addi a0, zero, 5")),
        lists(code_at("0x00010000", 8), *(word(BASE + 4 * k, *it) for k, it in enumerate(P_WORDS)), zero(BASE + 28)),
        lists(code_at("0x00010004", 2, 1, 4), word(BASE + 12, *P_WORDS[3]), word(BASE + 16, *P_WORDS[4])), lists(code_at("0x00010000", 0)),
    ], EXAMPLES),
    Row("targets, sets of accesses, and words that are no instruction", [
        *memory(4096, words_of((0xfe000ee3, 0x0080006f, 0x0330000f, 0x8330000f, 0x00351513) + NO_INSTRUCTIONS)),
        lists(code_at("65536", 10), word(BASE, 0xfe000ee3, "beq zero, zero, 0x0000fffc"), word(BASE + 4, 0x0080006f, "jal zero, 0x0001000c"),
              word(BASE + 8, 0x0330000f, "fence rw, rw"), word(BASE + 12, 0x8330000f, ".word 0x8330000f"), word(BASE + 16, 0x00351513, "slli a0, a0, 3"),
              *(word(BASE + 20 + 4 * k, number, ".word 0x%08x" % number) for k, number in enumerate(NO_INSTRUCTIONS))),
    ], BY_HAND_LOOKING),
    Row("places at no multiple of 4", [
        *memory(4096), lists(code_at("65537", 2), no_word(BASE + 1), no_word(BASE + 5)), lists(code_at("65538", 1), no_word(BASE + 2)),
        lists(code_at("65539", 1, -1), no_word(BASE - 1)), lists(code_at("65537", 1, None, 3), zero(BASE + 4)),
    ], LOOKING),
    Row("places outside memory", [
        *memory(4096), lists(code_at("69628", 2), zero(BASE + 4092), no_word(BASE + 4096)), lists(code_at("65532", 2), no_word(BASE - 4), zero(BASE)),
        lists(code_at("0", 2, -1), no_word(0xfffffffc), no_word(0)), lists(code_at("0", 1, None, -1), no_word(0xffffffff)),
        lists(code_at("0xfffffffc", 2), no_word(0xfffffffc), no_word(0)), lists(code_at("4294967295", 1, None, 1), no_word(0)),
        lists(code_at("0", 1, -2147483648, -2147483648), no_word(0x80000000)),
        lists(code_at("0xffffffff", 1, 2147483647, 2147483647), no_word(0x7ffffffa)),
        lists(code_at("0xffffffff", 1, None, 65537), no_word(BASE)), lists(code_at("0", 1, 16384), zero(BASE)),
        lists(code_at("65536", 1, 1073741824), no_word(BASE)), lists(code_at("65536", 1, -1073741824), no_word(BASE)),
    ], BY_HAND_LOOKING),
    Row("references of instructions", [
        *memory(4096), *(lists(code_at(reference, 1), zero(address)) for reference, address in REFERENCES.items()),
        *(lists_none("badMemoryReference", code_at(reference, 1)) for reference in NO_REFERENCES),
    ], LOOKING),
    Row("4,096 instructions, and one more", [
        *memory(4096), lists(code_at("65536", MOST_INSTRUCTIONS), *(zero(BASE + 4 * k) for k in range(1024)),
                             *(no_word(BASE + 4096 + 4 * k) for k in range(MOST_INSTRUCTIONS - 1024))),
        lists_none("tooMuch", code_at("65536", MOST_INSTRUCTIONS + 1)), lists_none("tooMuch", code_at("0", 2147483647, -1)),
        lists_none("badMemoryReference", code_at("sp", MOST_INSTRUCTIONS + 1)),
    ], LOOKING),
    Row("looks into memory that found none", [
        *memory(4096, words_of((0x00500513, 0))), reads(bytes_at("65536", 4), BASE, b"\x13\x05\x50\0"),
        lists(code_at("65532", 3), no_word(BASE - 4), word(BASE, *P_WORDS[0]), zero(BASE + 4)),
        reads_none("outsideMemory", bytes_at("0", 1)), lists_none("badMemoryReference", code_at("sp", 1)),
    ], LOOKING, refused=True),
]

ROWS = SOURCE_ROWS + TERMS_ROWS + LOG_ROWS + FUNCTION_ROWS + INSTRUCTION_ROWS + LIMIT_ROWS + READING_ROWS + LISTING_ROWS
