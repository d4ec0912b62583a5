"""Answers: what requests answer that look into a stopped machine or change it."""
import base64

from rows.answers import BASE, EXAMPLES, NO_REFERENCES, PATH, SIZE, bytes_at, looks, reads, words_of
from support.machine import REGISTERS, go, sets, write
from support.players import Row

PLAYER = "test_answers"

FRAMES = "docs/PROTOCOL.md, \"Frames and variables\""
BY_HAND = "worked by hand from docs/PROTOCOL.md, \"Frames and variables\""

IDS = {"staleReference": 8, "unknownReference": 9, "unknownName": 10, "badValue": 11, "notWritable": 12, "badMemoryReference": 13, "outsideMemory": 14,
       "tooMuch": 15, "badExpression": 16}
END = BASE + SIZE

# A program that calls itself, and what it is in words: lines, labels, and each word.
R_LINES = (1, 2, 1, 1, 1, 1, 1, 1, 2, 1, 1, 1)
R_LABELS = {"_start": BASE, "g": BASE + 0x14, "d": BASE + 0x34}
R_WORDS = (0x00200513, 0x00000097, 0x010080e7, 0x05d00893, 0x00000073, 0x02050063, 0xfff50513, 0xffc10113, 0x00112023, 0x00000097, 0xff0080e7,
           0x00012083, 0x00410113, 0x00008067)
P_LINES, P_LABELS = (1, 2, 1, 1, 1, 1), {"_start": BASE, "f": BASE + 0x14}
P_WORDS = (0x00500513, 0x00000097, 0x010080e7, 0x05d00893, 0x00000073, 0x00150513, 0x00008067)


def loaded(lines, labels, words, path=PATH, size=SIZE, more=0):
    """A program in memory, by how many words each line has; so many bytes of data after it."""
    steps, address = [], BASE
    for line, count in enumerate(lines, 1):
        steps.append(("row %d %d %d" % (line, address, count), "ok"))
        address += 4 * count
    steps += [("label %s %d" % it, "ok") for it in labels.items()]
    steps.append(("program %d %d %s" % (address + more, size, path.encode().hex()), "ok"))
    return steps + [write(BASE, words_of(words))]


def r_after(moves, **options):
    return loaded(R_LINES, R_LABELS, R_WORDS, **options) + [("run %d" % moves, "ok")]


def p_after(moves, **options):
    return loaded(P_LINES, P_LABELS, P_WORDS, **options) + [("run %d" % moves, "ok")]


def bases(line, column):
    return "bases %d %d" % (line, column), "ok"


def issues(targets, *numbers):
    return "issue %s" % targets, " ".join(["issued"] + [str(it) for it in numbers])


ENDS = ("end", "ok")


def with_targets(step, targets):
    return step[0], step[1] + (" targets " + targets if targets else "")


def succeeds(command, arguments, body, targets=""):
    return with_targets(looks(command, arguments, {"success": True, "body": body}), targets)


def fails(command, arguments, why):
    return looks(command, arguments, {"success": False, "message": why, "body": {"error": {"format": why, "id": IDS[why]}}})


def changes(step, after=""):
    return "change" + step[0][len("look"):], step[1] + after


# ---- frames

def frame(number, address, name, line, path=PATH, source="p.s", column=1):
    body = {"column": column if line is not None else 0, "id": number, "instructionPointerReference": "0x%08x" % address, "line": line or 0, "name": name}
    return body if line is None else {**body, "source": {"name": source, "path": path}}


def stack(total, *frames, targets="", **asked):
    return succeeds("stackTrace", {"threadId": 1, **asked}, {"stackFrames": list(frames), "totalFrames": total}, targets)


# The frames of R where it has called itself twice, each with the number that it gets.
def deep(*numbers):
    places = ((BASE + 0x14, "g", 5), (BASE + 0x28, "g+20", 9), (BASE + 0x28, "g+20", 9), (BASE + 8, "_start+8", 2))
    return [frame(number, *place) for number, place in zip(numbers, places) if number]


FRAME_ROWS = [
    Row("frames of the examples", [
        *p_after(0), stack(1, frame(1, BASE, "_start", 1), targets="0"),
        *r_after(7), stack(2, frame(1, BASE + 0x24, "g+16", 9), frame(2, BASE + 8, "_start+8", 2), targets="0 1"),
        *r_after(20), stack(2, frame(1, BASE + 0x2c, "g+24", 10), frame(2, BASE + 8, "_start+8", 2), targets="0 1"),
    ], EXAMPLES),
    Row("the newest call first, each at the instruction that called", [
        *r_after(15), stack(4, *deep(1, 2, 3, 4), targets="0 1 2 3"), *r_after(17), stack(3, frame(1, BASE + 0x2c, "g+24", 10), *deep(0, 2, 0, 3), targets="0 1 2"),
    ], BY_HAND),
    Row("some of the frames", [
        *r_after(15), stack(4, *deep(0, 1, 2, 0), targets="1 2", startFrame=1, levels=2), stack(4, *deep(1, 0, 0, 0), targets="0", levels=1),
        stack(4, *deep(0, 0, 1, 2), targets="2 3", startFrame=2), stack(4, *deep(0, 0, 0, 1), targets="3", startFrame=3, levels=10),
        stack(4, *deep(1, 2, 3, 4), targets="0 1 2 3", levels=0), stack(4, *deep(0, 1, 2, 3), targets="1 2 3", startFrame=1, levels=0),
        stack(4, startFrame=4), stack(4, startFrame=4, levels=0), stack(4, startFrame=2147483647, levels=2147483647),
        stack(4, *deep(1, 2, 3, 4), targets="0 1 2 3", levels=2147483647),
    ], BY_HAND),
    Row("numbers that frames have already", [
        *r_after(15), issues("2", 1), stack(4, *deep(2, 3, 1, 4), targets="0 1 2 3"), stack(4, *deep(0, 2, 1, 0), targets="1 2", startFrame=1, levels=2),
        issues("1 2", 2, 1), issues("registers stack", 3, 4), stack(4, *deep(5, 2, 1, 6), targets="0 1 2 3"), issues("0 1 2 3", 5, 2, 1, 6),
        stack(4, *deep(5, 2, 1, 6), targets="0 1 2 3"), ENDS, stack(4, *deep(7, 8, 9, 10), targets="0 1 2 3"),
        stack(4, *deep(0, 0, 7, 0), targets="2", startFrame=2, levels=1),
    ], BY_HAND),
    Row("numbers that come up to the last one, and after it", [
        *r_after(15), ("last 3", "ok"), stack(4, *deep(1, 2, 3, 4), targets="0 1 2 3"), ("last 2147483647", "ok"),
        stack(4, *deep(1, 2, 3, 4), targets="0 1 2 3"),
    ], BY_HAND),
    Row("lines and columns from 0", [
        *r_after(15), bases(0, 1), stack(4, frame(1, BASE + 0x14, "g", 4), targets="0", levels=1),
        bases(1, 0), stack(4, frame(1, BASE + 0x14, "g", 5, column=0), targets="0", levels=1),
        bases(0, 0), stack(4, frame(1, BASE + 8, "_start+8", 1, column=0), targets="3", startFrame=3),
        *p_after(0), bases(0, 1), stack(1, frame(1, BASE, "_start", 0), targets="0"),
    ], BY_HAND),
    Row("an address in no line", [
        *r_after(0, more=12), go(BASE + 0x38), stack(1, frame(1, BASE + 0x38, "d+4", None), targets="0"), go(BASE + 0x40),
        stack(1, frame(1, BASE + 0x40, "d+12", None), targets="0"), bases(0, 0), stack(1, frame(1, BASE + 0x40, "d+12", None), targets="0"),
        go(BASE + 0x44), stack(1, frame(1, BASE + 0x44, "0x00010044", None), targets="0"), go(0xfffffffc),
        stack(1, frame(1, 0xfffffffc, "0xfffffffc", None), targets="0"), go(0), stack(1, frame(1, 0, "0x00000000", None), targets="0"),
        *loaded((1,), {}, (0x73,)), bases(1, 1), stack(1, frame(1, BASE, "0x00010000", 1), targets="0"),
    ], BY_HAND),
    Row("names of sources", [
        step for path, name in (("/w/p.s", "p.s"), ("p.s", "p.s"), ("/w/", ""), ("/", ""), ("", ""), ("//a//b c", "b c"), ("C:\\w\\p.s", "C:\\w\\p.s"))
        for step in (*p_after(0, path=path), stack(1, frame(1, BASE, "_start", 1, path, name), targets="0"))
    ], BY_HAND),
    Row("257 frames", [
        *loaded((2,), {"t": BASE}, (0x00000097, 0x000080e7)), ("run 514", "ok"),
        stack(257, frame(1, BASE, "t", 1), *(frame(k + 1, BASE + 4, "t+4", 1) for k in range(1, 257)), targets=" ".join(str(k) for k in range(257))),
        ("run 2", "ok"), stack(257, frame(1, BASE + 4, "t+4", 1), targets="256", startFrame=256), stack(257, startFrame=257),
    ], EXAMPLES),
]


# ---- scopes and variables

def scopes(number, registers=None, words=None):
    if registers is None:
        return succeeds("scopes", {"frameId": number}, {"scopes": []})
    return succeeds("scopes", {"frameId": number}, {"scopes": [
        {"expensive": False, "name": "Registers", "presentationHint": "registers", "variablesReference": registers},
        {"expensive": False, "name": "Stack", "variablesReference": words}]}, "registers stack")


def variables(number, *values, **asked):
    return succeeds("variables", {"variablesReference": number, **asked},
                    {"variables": [{"name": name, "value": "0x%08x" % value, "variablesReference": 0} for name, value in values]})


def registers(pc=BASE, **values):
    given = {"sp": END, **values}
    return [(name, given.get(name, 0)) for name in REGISTERS] + [("pc", pc)]


def no_scopes(number, why):
    return fails("scopes", {"frameId": number}, why)


def no_variables(number, why):
    return fails("variables", {"variablesReference": number}, why)


SHOWN = [issues("0 registers stack", 1, 2, 3)]

VARIABLE_ROWS = [
    Row("scopes of the examples", [
        *p_after(0), stack(1, frame(1, BASE, "_start", 1), targets="0"), issues("0", 1), scopes(1, 2, 3), issues("registers stack", 2, 3),
        variables(2, *registers()), variables(3), ENDS, no_variables(2, "staleReference"), no_variables(99, "unknownReference"),
        no_scopes(1, "staleReference"), stack(1, frame(4, BASE, "_start", 1), targets="0"), issues("0", 4), no_variables(4, "unknownReference"),
        *r_after(20), *SHOWN, variables(3, ("sp+0", BASE + 12)),
    ], EXAMPLES),
    Row("scopes of each frame", [
        *r_after(15), issues("0 1 2 3", 1, 2, 3, 4), scopes(1, 5, 6), scopes(2), scopes(3), scopes(4), issues("stack", 5), scopes(1, 6, 5),
        issues("registers", 6), scopes(1, 6, 5), no_scopes(5, "unknownReference"), no_scopes(6, "unknownReference"), no_scopes(7, "unknownReference"),
        no_scopes(0, "unknownReference"), no_scopes(-1, "unknownReference"), no_scopes(-2147483648, "unknownReference"),
        no_scopes(2147483647, "unknownReference"), ENDS, *(no_scopes(k, "staleReference") for k in range(1, 7)), no_scopes(7, "unknownReference"),
        issues("7", 7), scopes(7), ("last 2", "ok"), issues("0", 1), scopes(1, 2, 3),
    ], BY_HAND),
    Row("registers as they are", [
        *p_after(0), *SHOWN, sets("a0", 7), sets("t6", 0xffffffff), sets("ra", 0x80000000), go(BASE + 16),
        variables(2, *registers(BASE + 16, a0=7, t6=0xffffffff, ra=0x80000000)), ("run 1", "ok"),
    ], BY_HAND),
    Row("some of the variables", [
        *p_after(0), *SHOWN, sets("a0", 7), variables(2, ("a0", 7), start=10, count=1), variables(2, ("pc", BASE), start=32),
        variables(2, start=33), variables(2, start=2147483647, count=2147483647), variables(2, *registers(a0=7)[30:], start=30, count=0),
        variables(2, *registers(a0=7)[:2], count=2), variables(2, *registers(a0=7), count=0), variables(2, *registers(a0=7), filter="named", count=33),
        variables(2, *registers(a0=7)[31:], filter="named", start=31, count=5), variables(2, filter="indexed"),
        variables(2, filter="indexed", start=0, count=10), variables(3, filter="indexed"), variables(2, *registers(a0=7), count=2147483647),
    ], BY_HAND),
    Row("words of the stack", [
        *p_after(0), *SHOWN, write(END - 8, bytes(range(1, 9))), sets("sp", END - 8), variables(3, ("sp+0", 0x04030201), ("sp+4", 0x08070605)),
        variables(3, ("sp+4", 0x08070605), start=1), variables(3, ("sp+0", 0x04030201), count=1), variables(3, start=2),
        sets("sp", END - 7), variables(3, ("sp+0", 0x05040302)), sets("sp", END - 3), variables(3), sets("sp", END), variables(3),
        sets("sp", BASE - 4), variables(3), sets("sp", 0xfffffffc), variables(3), sets("sp", END - 256),
        variables(3, *(("sp+%d" % (4 * k), 0) for k in range(62)), ("sp+248", 0x04030201), ("sp+252", 0x08070605)), sets("sp", END - 260),
        variables(3, *(("sp+%d" % (4 * k), 0) for k in range(63)), ("sp+252", 0x04030201)),
    ], BY_HAND),
    Row("numbers of variables that are none", [
        *p_after(0), *SHOWN, no_variables(1, "unknownReference"), no_variables(0, "unknownReference"), no_variables(4, "unknownReference"),
        no_variables(-2, "unknownReference"), ENDS, *(no_variables(k, "staleReference") for k in (1, 2, 3)), no_variables(4, "unknownReference"),
        issues("registers", 4), variables(4, *registers()),
    ], BY_HAND),
]


# ---- expressions

def evaluates(expression, value, **frame):
    return succeeds("evaluate", {"expression": expression, **frame}, {"result": "0x%08x" % value, "variablesReference": 0})


def evaluates_none(expression, why="badExpression", **frame):
    return fails("evaluate", {"expression": expression, **frame}, why)


EVALUATE_ROWS = [
    Row("values of the examples", [
        *p_after(3), evaluates("a0 * 2 - 1", 9), evaluates("-1 < 1", 1), evaluates_none("1 +"), evaluates_none("[0]"),
    ], EXAMPLES),
    Row("values on the hart as it is", [
        *p_after(3), evaluates("pc", BASE + 20), evaluates("ra", BASE + 12), evaluates("[pc]", 0x00150513), ("run 1", "ok"), evaluates("a0", 6),
        evaluates(" a0\t", 6), evaluates("1 || [0]", 1), evaluates_none(""), evaluates_none("a0 = 1"),
        evaluates_none("q"), evaluates_none("1" * 1025), evaluates("0" * 1023 + "1", 1), evaluates_none("(" * 65 + "1" + ")" * 65),
        evaluates("(" * 64 + "1" + ")" * 64, 1),
    ], BY_HAND),
    Row("frames of expressions", [
        *r_after(15), issues("0 3 registers stack", 1, 2, 3, 4), evaluates("pc", BASE + 0x14, frameId=1), evaluates("pc", BASE + 0x14, frameId=2),
        *(evaluates_none(expression, "unknownReference", frameId=k) for k in (3, 4, 5, 0, -1) for expression in ("pc", "1 +")),
        evaluates_none("1 +", frameId=1), ENDS, *(evaluates_none(expression, "staleReference", frameId=k) for k in (1, 3) for expression in ("pc", "(")),
        evaluates("pc", BASE + 0x14), evaluates_none("pc", "unknownReference", frameId=5),
    ], BY_HAND),
]


# ---- changes

def sets_variable(name, value, word, number=2):
    return changes(succeeds("setVariable", {"variablesReference": number, "name": name, "value": value}, {"value": "0x%08x" % word}))


def sets_none(name, value, why, number=2):
    return changes(fails("setVariable", {"variablesReference": number, "name": name, "value": value}, why))


def asked_to_write(reference, data, **options):
    return {"memoryReference": reference, "data": base64.b64encode(data).decode(), **options}


def writes(reference, data, address, count, **options):
    return changes(succeeds("writeMemory", asked_to_write(reference, data, **options), {"bytesWritten": count}), " %d %d" % (address, count))


def writes_none(reference, data, why, **options):
    return changes(fails("writeMemory", asked_to_write(reference, data, **options), why))


CHANGE_ROWS = [
    Row("changes of the examples", [
        *p_after(3), *SHOWN, sets_variable("a0", "-1", 0xffffffff), sets_none("zero", "1", "notWritable"), sets_none("q", "1", "unknownName"),
        sets_none("a0", "z", "badValue"), evaluates("a0", 0xffffffff),
        writes("0x0001000c", base64.b64decode("EwUlAA=="), BASE + 12, 4), reads(bytes_at("0x0001000c", 4), BASE + 12, b"\x13\x05\x25\0"),
    ], EXAMPLES),
    Row("registers that are set", [
        *p_after(0), *SHOWN, sets_variable("a0", "0x1F", 31), sets_variable("ra", "4294967295", 0xffffffff), sets_variable("t6", "-2147483648", 0x80000000),
        variables(2, *registers(a0=31, ra=0xffffffff, t6=0x80000000)), sets_none("pc", "1", "notWritable"), sets_none("pc", "z", "notWritable"),
        sets_none("zero", "z", "notWritable"), sets_none("fp", "1", "unknownName"), sets_none("x10", "1", "unknownName"), sets_none("", "1", "unknownName"),
        sets_none("sp+0", "1", "unknownName"), sets_none("q", "z", "unknownName"), sets_none("a0", "4294967296", "badValue"),
        sets_none("a0", "-2147483649", "badValue"), sets_none("a0", "", "badValue"), sets_none("a0", "a1", "badValue"),
        variables(2, *registers(a0=31, ra=0xffffffff, t6=0x80000000)),
    ], BY_HAND),
    Row("words of the stack are not set", [
        *p_after(0), *SHOWN, sets("sp", END - 8), sets_none("sp+0", "1", "notWritable", 3), sets_none("sp+4", "z", "notWritable", 3),
        sets_none("sp+8", "1", "unknownName", 3), sets_none("a0", "1", "unknownName", 3), sets_none("zero", "1", "unknownName", 3),
        sets_none("sp", "z", "unknownName", 3), sets("sp", END), sets_none("sp+0", "1", "unknownName", 3),
    ], BY_HAND),
    Row("numbers of what is set", [
        *p_after(0), *SHOWN, *(sets_none(name, "z", "unknownReference", k) for k in (1, 4, 0, -1) for name in ("a0", "q")), ENDS,
        *(sets_none(name, "z", "staleReference", k) for k in (1, 2, 3) for name in ("a0", "zero")), sets_none("q", "1", "unknownReference", 4),
    ], BY_HAND),
    Row("bytes that are written", [
        *p_after(0, size=4096), writes("65536", b"\x01\x02\x03", BASE, 3), reads(bytes_at("65536", 4), BASE, b"\x01\x02\x03\0"),
        writes("65536", b"\x09", BASE + 1, 1, offset=1), writes("65540", b"\x08", BASE + 2, 1, offset=-2), reads(bytes_at("65536", 4), BASE, b"\x01\x09\x08\0"),
        writes("69631", b"\x07", BASE + 4095, 1), reads(bytes_at("69631", 1), BASE + 4095, b"\x07"), writes("65536", bytes(4096), BASE, 4096),
        writes("65537", b"\xff" * 4095, BASE + 1, 4095, allowPartial=True), reads(bytes_at("65536", 2), BASE, b"\0\xff"),
    ], BY_HAND),
    Row("writes that pass the end", [
        *p_after(0, size=4096), writes_none("69631", b"\x01\x02", "outsideMemory"), writes_none("69631", b"\x01\x02", "outsideMemory", allowPartial=False),
        reads(bytes_at("69631", 1), BASE + 4095, b"\0"), writes("69631", b"\x01\x02", BASE + 4095, 1, allowPartial=True),
        reads(bytes_at("69631", 1), BASE + 4095, b"\x01"), writes("65540", b"\xff" * 65536, BASE + 4, 4092, allowPartial=True),
        writes_none("69632", b"\x01", "outsideMemory", allowPartial=True), writes_none("65535", b"\x01\x02", "outsideMemory", allowPartial=True),
        writes_none("0xffffffff", b"\x01", "outsideMemory", offset=65537), writes_none("0", b"\x01", "outsideMemory", offset=-2147483648),
    ], BY_HAND),
    Row("no bytes to write, and too many", [
        *p_after(0, size=4096), writes("69632", b"", BASE + 4096, 0), writes("0", b"", 0, 0), writes("4294967295", b"", 0xffffffff, 0, allowPartial=True),
        writes_none("4294967295", b"", "outsideMemory", offset=1), writes_none("0", b"", "outsideMemory", offset=-1, allowPartial=True),
        writes_none("0", bytes(65537), "tooMuch"), writes_none("65536", bytes(65537), "tooMuch", allowPartial=True),
        *(writes_none(reference, bytes(65537), "badMemoryReference") for reference in NO_REFERENCES),
        *p_after(0, size=131072), writes("65536", b"\x55" * 65536, BASE, 65536), reads(bytes_at("0x0001ffff", 2), 0x1ffff, b"\x55\0"),
    ], BY_HAND),
    Row("looks that found no memory", [
        *r_after(20), issues("0 registers stack", 1, 2, 3), stack(2, frame(1, BASE + 0x2c, "g+24", 10), frame(4, BASE + 8, "_start+8", 2), targets="0 1"),
        scopes(1, 2, 3), variables(3, ("sp+0", BASE + 12)), variables(2, *registers(BASE + 0x2c, ra=BASE + 0x2c, sp=END - 4)),
        evaluates("1 + 1", 2), sets_none("sp+0", "1", "notWritable", 3), sets_variable("a0", "5", 5), evaluates("a0", 5),
    ], FRAMES, refused=True),
]

ROWS = FRAME_ROWS + VARIABLE_ROWS + EVALUATE_ROWS + CHANGE_ROWS
