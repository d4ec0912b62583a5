"""What an editor sees of a stopped machine: registers, words of the stack, values that it sets, and numbers of frames and scopes."""
from rows.answers import memory
from support.machine import BASE, REGISTERS, go, sets, write
from support.players import NO_MEMORY, Row, alike, tried

PLAYER = "test_answers"
TAKES_NONE = {"Handles::new": "last", "Handles::find": "find", "Handles::end_stop": "end", "Handles::number": "number", "Handles::next": "next",
              "set_register": "register"}
SIZE = 65536
END = BASE + SIZE
GREATEST = 2147483647
# A machine without a program, whose registers are 0.
STOPPED = memory(SIZE) + [sets("sp", 0)]

DAP = "DAP specification, \"Lifetime of Objects References\""
ISA = "RISC-V Unprivileged ISA 20191213, table 25.1"
BY_HAND = "worked by hand from docs/DEFINITIONS.md, \"variables\""


def listed(command, variables):
    return command, " ".join(["variables"] + ["%s=0x%08x" % (name, value) for name, value in variables])


def registers(pc=BASE, **values):
    return listed("registers", [(name, values.get(name, 0)) for name in REGISTERS] + [("pc", pc)])


def stack(*words):
    return listed("stack", [("sp+%d" % (4 * number), word) for number, word in enumerate(words)])


def register(name, value, wanted):
    """What an editor's setting of a register is answered with: the value, or the refusal."""
    answer = wanted if isinstance(wanted, str) else "0x%08x" % wanted
    return "register %s %s" % (name.encode().hex(), value.encode().hex()), answer


def last(number):
    return "last %d" % number, "ok"


def issue(targets, numbers):
    """Numbers that are issued for targets, or the error."""
    answer = numbers if isinstance(numbers, str) else " ".join(["issued"] + [str(number) for number in numbers])
    return " ".join(["issue"] + [str(target) for target in targets]), answer


def issue_once(targets, numbers):
    command, answer = issue(targets, numbers)
    return command.replace("issue", "issue_once", 1), answer, NO_MEMORY


def find(number, wanted):
    return "find %d" % number, wanted


def number(target, wanted):
    return "number %s" % target, str(wanted)


def following(wanted):
    return "next", str(wanted)


END_STOP = "end", "ok"


def row(name, steps, source, **options):
    """On a machine that has just stopped."""
    return Row(name, STOPPED + steps, source, **options)


ROWS = [
    row("registers have their names, and pc is the last", [
        registers(),
        *(sets(name, 0x11111111 + number) for number, name in enumerate(REGISTERS) if number),
        go(0x10004),
        registers(0x10004, **{name: 0x11111111 + number for number, name in enumerate(REGISTERS) if number}),
    ], ISA),
    row("words of the stack end with memory", [
        sets("sp", END - 4), write(END - 4, bytes((0x0c, 0, 1, 0))), stack(0x0001000C),
        sets("sp", END), stack(),
        sets("sp", END - 3), stack(),
        sets("sp", BASE - 4), stack(),
        sets("sp", 0xfffffffe), stack(),
    ], BY_HAND),
    row("64 words of the stack at most", [
        sets("sp", END - 256), write(END - 4, b"\1\2\3\4"), stack(*[0] * 63, 0x04030201),
        sets("sp", END - 260), stack(*[0] * 64),
        sets("sp", END - 252), stack(*[0] * 62, 0x04030201),
    ], BY_HAND, refused=True),
    row("words of the stack at no multiple of 4", [
        sets("sp", END - 7), write(END - 7, bytes((1, 2, 3, 4, 5, 6, 7))), stack(0x04030201),
    ], BY_HAND),
    row("values that an editor sets", [
        register("a0", "-1", 0xffffffff), registers(a0=0xffffffff),
        register("a0", "0", 0), registers(),
        register("t6", "4294967295", 0xffffffff),
        register("t6", "4294967296", "BadValue"),
        register("t6", "-2147483648", 0x80000000),
        register("t6", "-2147483649", "BadValue"),
        register("t6", "0x0000AbcD", 0xabcd),
        register("t6", "0x00000abcd", "BadValue"),
        register("t6", "000000000000000000000017", 17),
        register("t6", "-0", 0),
        *(register("t6", text, "BadValue") for text in ("", "-", "0x", "+1", "0X1", "-0x1", "--1", " 1", "1 ", "z", "1.0", "0b1")),
        registers(),
    ], BY_HAND),
    row("names that an editor sets", [
        register("zero", "1", "NotWritable"), register("pc", "65540", "NotWritable"), register("pc", "z", "NotWritable"),
        *(register(name, "1", "UnknownName") for name in ("q", "", "x1", "fp", "x0", "A0", "a0 ", "a00", "sp+0", "PC")),
        register("q", "z", "UnknownName"), register("a0", "z", "BadValue"),
        registers(),
        *(register(name, str(number), number) for number, name in enumerate(REGISTERS) if number),
        registers(**{name: number for number, name in enumerate(REGISTERS)}),
    ], ISA),
    row("a target has one number in a stop", [
        following(1), number(0, "none"),
        issue([0], [1]), issue(["registers", "stack"], [2, 3]), issue([0, "stack", 0, "registers"], [1, 3, 1, 2]),
        number(0, 1), number("stack", 3), number(1, "none"), following(4),
        find(1, "Frame(0)"), find(2, "Registers"), find(3, "Stack"), find(4, "Unknown"), find(0, "Unknown"),
    ], DAP),
    row("a stop ends its numbers", [
        issue([0, "registers", "stack"], [1, 2, 3]), END_STOP,
        find(2, "Stale"), find(4, "Unknown"), number(0, "none"), following(4),
        issue([0], [4]), find(4, "Frame(0)"), find(1, "Stale"), find(99, "Unknown"), END_STOP, END_STOP,
        find(4, "Stale"), find(5, "Unknown"), issue(["stack", 0], [5, 6]), find(6, "Frame(0)"),
    ], DAP),
    row("numbers after many stops", [
        *(step for stop in range(1, 1001) for step in (issue([stop % 7], [stop]), END_STOP)),
        find(1, "Stale"), find(1000, "Stale"), find(1001, "Unknown"), find(0, "Unknown"), following(1001),
    ], DAP),
    row("the last number", [
        last(3), issue([0, 1], [1, 2]), issue(["registers", "stack"], "Exhausted"), number("registers", "none"), following(3),
        issue([], []), issue([0, 1], [1, 2]), issue(["stack", "stack", 1], [3, 3, 2]), following(4),
        issue(["registers"], "Exhausted"), issue([0], [1]), END_STOP, issue([0], "Exhausted"), issue([], []), find(3, "Stale"),
        find(4, "Unknown"), last(0), issue([0], "Exhausted"), following(1), issue([], []),
        last(GREATEST), issue([0], [1]),
    ], BY_HAND),
    tried("no number is issued where there is no memory", DAP,
          alike(*STOPPED, last(5), register("a0", "17", 17), register("zero", "1", "NotWritable"), register("q", "1", "UnknownName")),
          [issue_once([0, "registers"], [1, 2]), ("next", "3", "1"), ("find 2", "Registers", "Unknown"), ("number 0", "1", "none"),
           *alike(issue([0, "registers"], [1, 2]), following(3), find(2, "Registers"))],
          [issue_once([0, "stack"], [1, 3]), ("next", "4", "3"), ("find 3", "Stack", "Unknown"), *alike(number(0, 1), issue([0, "stack"], [1, 3]), following(4))],
          [(*issue(["stack"] * 40 + [1, 2], [3] * 40 + [4, 5]), *issue(["stack"] * 40 + [1, 2], [3] * 40 + [4, 5])[1:])],
          alike(END_STOP, find(3, "Stale"), issue([0], "Exhausted"), find(6, "Unknown"))),
    row("numbers of 1,000 frames", [
        issue(range(1000), range(1, 1001)), issue(range(999, -1, -1), range(1000, 0, -1)), find(1000, "Frame(999)"), following(1001),
    ], BY_HAND, refused=True),
]
