"""Breakpoints: which are hit, which stop, and which ids a check answers."""
from rows.memory import write
from rows.steps import go, sets
from support.players import NO_MEMORY, Row, alike, tried

PLAYER = "test_machine"
TAKES_NONE = {"Breaks::check": "breaks check", "Breaks::stand_at": "breaks look", "Breaks::ids": "breaks ids", "Breaks::logs": "breaks logs",
              "Breaks::log_text": "breaks text", "Breaks::clear": "breaks clear", "Breaks::reset_hits": "breaks reset", "Breaks::has": "breaks has",
              "Breaks::forget_ids": "breaks forget"}
BASE = 0x10000
# Addresses so far apart have one mark.
APART = 4 * 65536
MOST = 1024

PROFILE = "docs/MACHINE.md, \"Breakpoints\""
BY_HAND = "worked by hand from docs/MACHINE.md, \"Breakpoints\""
BACK = "docs/MACHINE.md, \"Going back\""


def a(number, address=BASE, hit=1, condition=None, log=None):
    """A breakpoint as the player reads it."""
    parts = ["%d:%d:%d" % (number, address, hit)]
    if condition or log:
        parts.append((condition or "").encode().hex())
    return ":".join(parts + ([log.encode().hex()] if log else []))


def source(*breakpoints):
    return " ".join(("breaks source",) + breakpoints), "ok"


def instructions(*breakpoints):
    return " ".join(("breaks instructions",) + breakpoints), "ok"


def functions(*breakpoints):
    return " ".join(("breaks functions",) + breakpoints), "ok"


def found(lines, of_instructions, of_functions):
    """Which kinds of breakpoints were found, and their ids."""
    kinds = [str(bool(each)).lower() for each in (lines, of_instructions, of_functions)]
    return " ".join(kinds + [str(number) for number in (*lines, *of_instructions, *of_functions)])


def check(lines=(), of_instructions=(), of_functions=()):
    """A check at which the breakpoints of lines, those of instructions and those of functions with these ids stop."""
    return "breaks check", found(lines, of_instructions, of_functions)


def look(lines=(), of_instructions=(), of_functions=()):
    """A look, for a program that goes back, at which the breakpoints with these ids stand."""
    return "breaks look", found(lines, of_instructions, of_functions)


def ids(*numbers):
    return "breaks ids", " ".join(["ids"] + [str(number) for number in numbers])


def logs(*places):
    """The places of the logpoints that had something to say at the last check."""
    return "breaks logs", " ".join(["logs"] + [str(place) for place in places])


def text(place, wanted="none"):
    return "breaks text %d" % place, wanted


def has(address, wanted):
    return "breaks has %d" % address, str(wanted).lower()


def done(name):
    return "breaks " + name, "ok"


def once(step):
    """A list that is not set again where it found no memory."""
    command, answer = step
    return command.replace("breaks", "breaks once", 1), answer, NO_MEMORY


ROWS = [
    Row("a hit number of 3", [
        go(BASE), source(a(7, hit=3)),
        check(), check(), check([7]), check([7]),
        source(), instructions(a(8, hit=3)),
        check(), check(), check([], [8]), check([], [8]),
    ], PROFILE),
    Row("the example of the guide", [
        go(BASE), source(a(1, hit=3, condition="a0 == 5")),
        sets(10, 5), check(), sets(10, 4), check(), sets(10, 5), check(), check([1]), check([1]), sets(10, 4), check(),
    ], PROFILE),
    Row("conditions that are 0, are not, and have no value", [
        go(BASE),
        source(a(1, condition="0"), a(2, condition="1"), a(3, condition="[0]"), a(4, condition="[65536]"), a(5, condition="a0 - 9"), a(6)),
        check([2, 3, 5, 6]),
        write(BASE, b"\0\0\0\x80"), sets(10, 9), check([2, 3, 4, 6]),
        sets(10, 0xffffffff), write(BASE, bytes(4)), check([2, 3, 5, 6]),
        source(a(1, condition="pc == 65536 && [131068]")), check(), write(131068, b"\1\0\0\0"), check([1]),
        source(a(1, condition="[131069]")), check([1]),
    ], PROFILE),
    Row("a condition without a value counts and one that is 0 does not", [
        go(BASE), source(a(1, hit=2, condition="[a0]"), a(2, hit=2, condition="a0")),
        check(), check([1]), sets(10, BASE), check(), check([2]), sets(10, 1), check([1, 2]), sets(10, 0), check([1]),
        sets(10, BASE), check([2]),
    ], BY_HAND),
    Row("breakpoints of both lists at one address", [
        go(BASE), source(a(9), a(2), a(5)), instructions(a(4), a(1), a(9)),
        check([9, 2, 5], [4, 1, 9]), ids(9, 2, 5, 4, 1, 9),
        instructions(a(4, hit=2), a(1, condition="0"), a(3, BASE + 4)),
        check([9, 2, 5]), check([9, 2, 5], [4]),
        source(a(9, condition="0")), check([], [4]),
    ], PROFILE),
    Row("breakpoints at one address with hit numbers of their own", [
        go(BASE), source(a(3, hit=3), a(1), a(4294967295, hit=4294967295), a(2, hit=2)), instructions(a(5, hit=2)),
        check([1]), check([1, 2], [5]), check([3, 1, 2], [5]), check([3, 1, 2], [5]),
    ], BY_HAND),
    Row("only what is at pc is hit", [
        source(a(1, BASE), a(2, BASE + 4), a(3, 0), a(4, 0xfffffffc)), instructions(a(5, BASE + 8), a(6, BASE + 4, hit=2)),
        go(BASE), check([1]), go(BASE + 4), check([2]), go(BASE + 8), check([], [5]), go(BASE + 4), check([2], [6]),
        go(0), check([3]), go(0xfffffffc), check([4]), go(BASE + 12), check(), go(BASE + 2), check(),
        has(BASE, True), has(BASE + 8, True), has(0, True), has(0xfffffffc, True), has(BASE + 12, False), has(BASE + 2, False), has(4, False),
    ], BY_HAND),
    Row("a list that is set leaves the hits of the other", [
        go(BASE), source(a(1, hit=2)), instructions(a(2, hit=3)),
        check(), source(a(3, hit=2)), check(), check([3], [2]),
        instructions(a(4, hit=2)), check([3]), check([3], [4]),
        source(a(3, hit=2)), check([], [4]), check([3], [4]),
        source(), check([], [4]), instructions(), check(), has(BASE, False),
    ], PROFILE),
    Row("hits that are taken away", [
        go(BASE), source(a(1, hit=2), a(2, hit=3)), instructions(a(3, hit=2), a(4)),
        check([], [4]), done("reset"), check([], [4]), check([1], [3, 4]), check([1, 2], [3, 4]),
        done("reset"), ids(1, 2, 3, 4), check([], [4]), check([1], [3, 4]),
    ], BY_HAND),
    Row("breakpoints that are taken away", [
        go(BASE), done("clear"), check(), source(a(1)), instructions(a(2)), check([1], [2]),
        done("clear"), ids(), has(BASE, False), check(),
        source(a(1, hit=2)), check(), check([1]), instructions(a(2)), check([1], [2]),
    ], PROFILE),
    Row("ids are those of the last check", [
        go(BASE), ids(), source(a(1)), instructions(a(2)), ids(), check([1], [2]), ids(1, 2), ids(1, 2),
        go(BASE + 4), check(), ids(), go(BASE), check([1], [2]), done("forget"), ids(), check([1], [2]),
        source(a(1)), ids(), check([1], [2]), instructions(a(2)), ids(),
    ], BY_HAND),
    Row("addresses that share a mark", [
        source(a(1, BASE)), instructions(a(2, BASE + 3 * APART)),
        go(BASE + APART), check(), go(BASE), check([1]), go(BASE + 3 * APART), check([], [2]), go(BASE + 2 * APART), check(),
        has(BASE, True), has(BASE + APART, False), has(BASE + 3 * APART, True), has(BASE + 1, False),
    ], BY_HAND),
    Row("lists of 1,024 breakpoints", [
        source(*(a(i, BASE + 4 * i) for i in range(MOST))),
        instructions(*(a(MOST + i, BASE + 0x20000 - 4 * i, hit=1 + i % 2) for i in range(MOST))),
        go(BASE), check([0]), go(BASE + 4 * (MOST - 1)), check([MOST - 1]), go(BASE + 4 * MOST), check(),
        go(BASE + 0x20000), check([], [MOST]), go(BASE + 0x20000 - 4 * (MOST - 1)), check(), check([], [2 * MOST - 1]),
    ], BY_HAND),
    Row("lists of 1,024 breakpoints at one address", [
        go(BASE), source(*(a(i, hit=1 + i % 2) for i in range(MOST))), instructions(*(a(3 * i, condition="a0 == %d" % i) for i in range(MOST))),
        sets(10, 700), check(range(0, MOST, 2), [2100]), check(range(MOST), [2100]), sets(10, MOST), check(range(MOST)),
    ], BY_HAND),
    Row("breakpoints of three lists at one address", [
        go(BASE), functions(a(7), a(3)), instructions(a(4)), source(a(9)),
        check([9], [4], [7, 3]), ids(9, 4, 7, 3), functions(a(8, hit=2), a(5, BASE + 4)),
        check([9], [4]), check([9], [4], [8]), source(), check([], [4], [8]), instructions(), check([], [], [8]),
        has(BASE, True), has(BASE + 4, True), go(BASE + 4), check([], [], [5]), functions(), ids(), check(), has(BASE, False), has(BASE + 4, False),
    ], PROFILE),
    Row("a list of functions leaves the hits of the others, and they leave its own", [
        go(BASE), source(a(1, hit=3)), instructions(a(2, hit=3)), functions(a(3, hit=3)),
        check(), functions(a(4, hit=2)), check(), check([1], [2], [4]), source(a(5, hit=2)), check([], [2], [4]),
        instructions(a(6, hit=2)), check([5], [], [4]), done("reset"), check(), check([5], [6], [4]),
    ], PROFILE),
    Row("a logpoint counts its hits and does not stop", [
        go(BASE), source(a(1, hit=3, log="third"), a(2, hit=2), a(3, condition="a0 == 5", log="five"), a(4, BASE + 4, log="next"), a(5, log="each")),
        logs(), check(), logs(4), check([2]), logs(4), sets(10, 5), check([2]), logs(0, 2, 4), check([2]), logs(0, 2, 4),
        text(0, "third"), text(1), text(2, "five"), text(3, "next"), text(4, "each"), text(5), text(4294967295),
        go(BASE + 4), check(), logs(3), done("forget"), logs(), go(BASE + 8), check(), logs(),
    ], PROFILE),
    Row("a list that is set, and one that is taken away, leaves no logs", [
        go(BASE), source(a(1, log="a")), check(), logs(0), source(a(2, log="b")), logs(), check(), logs(0), text(0, "b"),
        instructions(a(3)), logs(), check([], [3]), logs(0), functions(a(4)), logs(), check([], [3], [4]), logs(0), done("reset"), logs(0),
        done("clear"), logs(), ids(), text(0), check(), logs(),
    ], BY_HAND),
    Row("1,024 logpoints", [
        go(BASE), source(*(a(i, hit=1 + i % 2, log="x") for i in range(MOST))), functions(*(a(i) for i in range(MOST))),
        check([], [], range(MOST)), logs(*range(0, MOST, 2)), check([], [], range(MOST)), logs(*range(MOST)), text(MOST - 1, "x"), text(MOST),
    ], BY_HAND),
    Row("a look where a program goes back counts no hits and waits for none", [
        go(BASE), look(), source(a(1, hit=3), a(2, BASE + 4)), instructions(a(3, hit=4294967295)), functions(a(4, hit=2), a(5)),
        look([1], [3], [4, 5]), ids(1, 3, 4, 5), look([1], [3], [4, 5]), look([1], [3], [4, 5]),
        check([], [], [5]), ids(5), look([1], [3], [4, 5]), check([], [], [4, 5]), check([1], [], [4, 5]), look([1], [3], [4, 5]),
        go(BASE + 4), look([2]), go(BASE + 8), look(), ids(), go(BASE + 2), look(),
        source(), go(BASE), look([], [3], [4, 5]), functions(), look([], [3]), done("forget"), ids(), done("clear"), look(),
    ], BACK),
    Row("a look where a program goes back heeds conditions, and logpoints say nothing at it", [
        go(BASE), source(a(1, condition="0"), a(2, condition="a0 == 5"), a(3, condition="[0]"), a(4, log="says"), a(5, condition="a0", log="says")),
        instructions(a(6, condition="a0 - 5")), functions(a(7, condition="pc == 65536"), a(8, condition="pc")),
        look([3], [6], [7, 8]), logs(), sets(10, 5), look([2, 3], [], [7, 8]), logs(), check([2, 3], [], [7, 8]), logs(3, 4),
        look([2, 3], [], [7, 8]), logs(), go(BASE + 4), look(), go(BASE), sets(10, 4), look([3], [6], [7, 8]), check([3], [6], [7, 8]), logs(3, 4),
    ], BACK),
    Row("a look where a program goes back at lists of 1,024 breakpoints", [
        go(BASE), source(*(a(i, hit=1 + i % 3, log="x" if i % 2 else None) for i in range(MOST))),
        functions(*(a(i, condition="a0 == %d" % i) for i in range(MOST))),
        look(range(0, MOST, 2), [], [0]), logs(), sets(10, MOST - 1), look(range(0, MOST, 2), [], [MOST - 1]), go(BASE + APART), look(),
    ], BACK),
    Row("lists of functions and logpoints that found no memory are set when they are set again", [
        go(BASE), source(a(1, hit=2, condition="a0 == 0", log="one"), a(2)), functions(a(3), a(4, condition="[0]")), logs(), check([2], [], [3, 4]), logs(),
        check([2], [], [3, 4]), logs(0), text(0, "one"), functions(), logs(), check([2]), logs(0), done("forget"), logs(),
    ], PROFILE, refused=True),
    Row("lists that found no memory are set when they are set again", [
        go(BASE), source(a(1, hit=2), a(2, condition="a0 == 0 || [0]")), check([2]), look([1, 2]),
        instructions(a(3), a(4, BASE + 4), a(5)), ids(), check([1, 2], [3, 5]),
        source(a(6)), ids(), check([6], [3, 5]),
    ], PROFILE, refused=True),
    tried("a list of functions or of logpoints that found no memory leaves what was there, with its ids and its logs", PROFILE,
          alike(go(BASE), source(a(1, log="a"), a(2)), functions(a(3)), check([2], [], [3]), logs(0)),
          [once(functions(a(6), a(7, BASE + 4))), ("breaks ids", "ids", "ids 2 3"), ("breaks logs", "logs", "logs 0"), (*check([2], [], [6]), check([2], [], [3])[1]),
           *alike(functions(a(6)), check([2], [], [6]), logs(0))],
          [once(source(a(8, log="b"), a(9))), ("breaks text 0", "b", "a"), ("breaks logs", "logs", "logs 0"), (*check([9], [], [6]), check([2], [], [6])[1]),
           *alike(source(a(8, log="b"), a(9)), check([9], [], [6]), text(0, "b"))]),
    tried("a list that found no memory leaves the list that was there, with its hits and its ids", PROFILE,
          alike(go(BASE), source(a(1), a(2, hit=2)), instructions(a(3)), check([1], [3])),
          [once(source(a(6), a(7, condition="a0 == 0"))), ("breaks ids", "ids", "ids 1 3"), (*check([6, 7], [3]), check([1, 2], [3])[1]),
           *alike(source(a(6), a(7, condition="a0 == 0")), check([6, 7], [3]))],
          [once(instructions(a(8), a(9, BASE + 4), a(10, hit=2))), ("breaks ids", "ids", "ids 6 7 3"), (*check([6, 7], [8]), check([6, 7], [3])[1]),
           *alike(instructions(a(8), a(9, BASE + 4), a(10, hit=2)), check([6, 7], [8]), has(BASE + 4, True), done("reset"), check([6, 7], [8]),
                  check([6, 7], [8, 10]), done("forget"), ids(), done("clear"), check(), has(BASE, False))]),
]
