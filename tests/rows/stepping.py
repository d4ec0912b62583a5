"""A debugged machine by ticks: where it stops and why, its calls, and what a run of many ticks answers."""
from support.players import Row
from support.programs import CALLS, COUNTS, PRINTS, RECURS, WRITES_ITSELF

PLAYER = "test_stepping"
TAKES_NONE = {"Calls::depth": "depth", "Calls::kept": "kept", "Calls::entry": "entry", "Runner::begin": "begin", "Runner::hart": "pc",
              "Runner::retired": "retired", "Runner::breaks": "ids", "Runner::memory": "word", "Breaks::clear": "clear",
              "Runner::recorded": "recorded", "Runner::turns_back": "turns_back"}
# The hart is made by the call that loads a program.
ALSO_MADE = {"Hart::new": "load", "Calls::note": "tick"}
BASE = 0x10000

BY_HAND = "worked by hand from docs/MACHINE.md, \"Running and stepping\""
BACK = "worked by hand from docs/MACHINE.md, \"Going back\""

FAULTS = b"lw a0, 2(zero)\n"
MANY = b"t: call t\n"
# The first call is made from another place than those after it.
DEEP = b"call t\nt: call t\n"

# The instruction at p is run three times, and each time the one before it has made it anew: it adds 1, 16 and 256.
WRITES_THE_NEXT = (b"_start: la t0, n\nla t2, p\nla t3, end\nr: lw t1, 0(t0)\nsw t1, 0(t2)\np: addi a0, a0, 1\naddi t0, t0, 4\nbne t0, t3, r\n"
                   b"ebreak\nn: addi a0, a0, 1\naddi a0, a0, 16\naddi a0, a0, 256\nend: nop\n")
# The upper byte of the instruction at p is 0, 1 and 2, so that it adds 1, 17 and 33.
WRITES_A_BYTE = b"_start: la t2, p\nli t3, 3\nr: sb t1, 3(t2)\np: addi a0, a0, 1\naddi t1, t1, 1\nblt t1, t3, r\nebreak\n"
# The upper half of it has a0 as the register that is read, and then adds 0, 1 and 2.
WRITES_A_HALF = b"_start: la t2, p\nli t1, 0x5\nli t3, 0x35\nr: sh t1, 2(t2)\np: addi a0, a0, 1\naddi t1, t1, 0x10\nblt t1, t3, r\nebreak\n"
# The instructions at a and b are 65,536 bytes apart, and run in turn. The store at a makes the one at b anew, which ran as it was before.
WRITES_FAR = (b"_start: la t2, b\nla t0, n\nlw t1, 0(t0)\nli t3, 3\nj b\na: sw t1, 0(t2)\naddi a0, a0, 1\nbeq a0, t3, end\nj b\nend: ebreak\n"
              b"n: addi a1, a1, 16\n.space 65512\nb: addi a1, a1, 1\nj a\n")
# What is stored 65,536 bytes from the instruction at p leaves that as it is.
STORES_FAR = b"_start: la t2, p\nli t3, 3\nlui t4, 16\nadd t2, t2, t4\np: addi a0, a0, 1\nsw t3, 0(t2)\nsb t3, 5(t2)\nblt a0, t3, p\nebreak\n"


def load(text, size=4096):
    return "load %d %s" % (size, text.hex()), "ok"


def does(command, wanted="ok"):
    return command, wanted


def ticks(*wanted):
    return [("tick", answer) for answer in wanted]


def runs(count, wanted):
    return "run %d" % count, wanted


def at(pc, depth=0, retired=None):
    found = [("pc", str(pc)), ("depth", str(depth))]
    return found + ([] if retired is None else [("retired", str(retired))])


# Stores into a page that was not written, and stops.
STORES_ANEW = b"lui a0, 0x20\nsw a0, 0(a0)\nebreak\n"

WENT = "Went"
GOAL = "Stopped(Goal)"
SOURCE = "Stopped(Source)"
INSTRUCTION = "Stopped(Instruction)"
FUNCTION = "Stopped(Function)"
EBREAK = "Stopped(Ebreak)"
ILLEGAL = "Stopped(Exception(Illegal))"

START = "Stopped(Start)"

# Programs that write over their own instructions: what is written, the text, how many moves come before the ebreak, and registers at that.
OVERWRITTEN = (
    ("the next instruction", WRITES_THE_NEXT, 21, ((10, 273),)), ("itself", WRITES_ITSELF, 14, ((10, 3),)),
    ("a byte of an instruction", WRITES_A_BYTE, 15, ((10, 51), (6, 3))), ("half of an instruction", WRITES_A_HALF, 16, ((10, 3),)),
    ("an instruction 65,536 bytes away", WRITES_FAR, 24, ((10, 3), (11, 33))), ("65,536 bytes from an instruction", STORES_FAR, 17, ((10, 3),)))


def back(kind):
    """A run that goes back begins."""
    return [does("begin " + kind), does("turns_back", "true")]


def recorded(count):
    return "recorded", str(count)


ROWS = [
    Row("a program without a goal runs to its end, and ends again",
        [load(CALLS)] + at(BASE, 0, 0) + ticks(WENT, WENT, WENT, WENT, WENT, WENT, "Ended(6)", "Ended(6)") + at(BASE + 0x10, 0, 6), BY_HAND,
        refused=True),
    Row("a step over a call stops after it",
        [load(CALLS)] + ticks(WENT) + [does("begin over line")] + ticks(WENT, WENT, WENT, GOAL) + at(BASE + 0xC), BY_HAND),
    Row("a step over by instructions stops at the next",
        [load(CALLS)] + ticks(WENT) + [does("begin over instruction")] + ticks(GOAL) + at(BASE + 8), BY_HAND),
    Row("a step over by instructions goes past a call",
        [load(CALLS)] + ticks(WENT, WENT) + [does("begin over instruction"), runs(9, "2 " + GOAL)] + at(BASE + 0xC), BY_HAND),
    Row("a step in stops in the callee",
        [load(CALLS)] + ticks(WENT) + [does("begin in line"), runs(9, "1 " + GOAL)] + at(BASE + 0x14, 1), BY_HAND),
    Row("a step in by instructions stops inside a line",
        [load(CALLS)] + ticks(WENT) + [does("begin in instruction")] + ticks(GOAL, GOAL) + at(BASE + 0x14, 1), BY_HAND),
    Row("a step out stops where the call returned to",
        [load(CALLS)] + ticks(WENT, WENT, WENT) + [does("begin out line"), runs(9, "1 " + GOAL)] + at(BASE + 0xC), BY_HAND),
    Row("a step out at the outermost level goes on",
        [load(CALLS), does("begin out instruction"), runs(9, "6 Ended(6)")], BY_HAND),
    Row("next does not stop in the callee when it recurses",
        [load(RECURS), does("source 1 %d 1" % (BASE + 0x24)), does("first go"), runs(100, "7 " + SOURCE)] + at(BASE + 0x24, 1)
        + [does("ids", "[1]"), does("source"), does("ids", "[]"), does("begin over line"), runs(100, "12 " + GOAL)] + at(BASE + 0x2C, 1)
        + [does("kept", "1"), does("entry 0", "Some(%d)" % (BASE + 8)), does("entry 1", "None")]
        + [does("begin out line"), runs(100, "2 " + GOAL)] + at(BASE + 0xC) + [does("begin out line"), runs(100, "1 Ended(0)")], BY_HAND,
        refused=True),
    Row("a printed number ends a run of ticks, and EBREAK stops",
        [load(PRINTS), runs(9, "2 7 Went"), runs(9, "0 " + EBREAK)] + at(BASE + 0x10, 0, 4) + [runs(1000, "1000 Spent")] + at(BASE + 0x10, 0, 1004),
        BY_HAND),
    Row("a breakpoint stops each time, and code that is written is met",
        [load(COUNTS), does("source 1 %d 1" % (BASE + 8)), does("first go"), runs(100, "4 " + SOURCE), does("x 10", "1"),
         does("write %d 13052500" % (BASE + 0xC)), does("begin go"), runs(100, "4 " + SOURCE), does("x 10", "3"), does("ids", "[1]")], BY_HAND),
    *(Row("a program that writes %s: as it wrote it, and from the start again" % what,
          [load(text, 262144)] + 2 * [runs(1000, "%d %s" % (moves, EBREAK)), *(does("x %d" % x, str(value)) for x, value in left), does("reload")], BY_HAND,
          refused=what == "itself") for what, text, moves, left in OVERWRITTEN),
    Row("what is written over parts of instructions that ran is met",
        [load(COUNTS, 262144), runs(8, "8 Spent"), does("x 10", "2")]
        + [step for at, written, value, link in ((0xF, "01", 19, 0), (0xE, "10006782", 1, BASE + 0x14), (0xB, "ff13053500", 4, BASE + 0x14)) for step in (
            does("write %d %s" % (BASE + at, written)), runs(5, "5 Spent"), does("x 10", str(value)), does("x 4", str(link)))]
        + [does("write %d %s" % (BASE, bytes(65540).hex())), runs(9, "0 " + ILLEGAL), does("reload"), runs(3, "3 Spent"),
           does("x 10", "1")], BY_HAND),
    Row("a store that finds no memory for its page ends a run, and the next makes it",
        [load(STORES_ANEW, 262144), runs(9, "2 " + EBREAK), runs(9, "0 " + ILLEGAL), does("word 131072", "Ok(131072)")] + at(BASE + 0xC, 0, 3), BY_HAND,
        refused=True, otherwise=[["ok", "1 NoMemory", "1 " + EBREAK, "Ok(131072)", str(BASE + 0xC), "0", "3"]]),
    Row("a tick that finds no memory for a page is made again",
        [load(STORES_ANEW, 262144)] + ticks(WENT, WENT, EBREAK) + [does("word 131072", "Ok(131072)")] + at(BASE + 0xC, 0, 3), BY_HAND, refused=True),
    Row("a write that finds no memory for one of its pages writes nothing",
        [load(STORES_ANEW, 262144), does("write 131070 01020304"), does("word 131068", "Ok(33619968)"), does("word 131072", "Ok(1027)")], BY_HAND,
        refused=True, otherwise=[["ok", "NoMemory", "Ok(0)", "Ok(0)"]]),
    Row("a first run begins with the check at the entry, another does not",
        [load(CALLS), does("source 4 %d 1" % BASE), does("instructions 5 %d 1" % BASE), does("first go")] + ticks(SOURCE) + at(BASE, 0, 0)
        + [does("ids", "[4, 5]")] + ticks(WENT) + at(BASE + 4, 0, 1) + [does("reload"), does("begin go")] + ticks(WENT) + at(BASE + 4, 0, 1),
        BY_HAND),
    Row("the check at the entry is one tick where it stops nothing",
        [load(CALLS), does("first in instruction")] + ticks(WENT) + at(BASE, 0, 0) + ticks(GOAL) + at(BASE + 4, 0, 1), BY_HAND),
    Row("a breakpoint of an instruction stops after one of a line, and before the goal",
        [load(CALLS), does("instructions 2 %d 1" % (BASE + 4)), does("begin in instruction")] + ticks(INSTRUCTION)
        + [does("source 1 %d 1" % (BASE + 8)), does("begin in instruction")] + ticks(SOURCE) + [does("ids", "[1]")], BY_HAND),
    Row("EBREAK comes before a breakpoint, whose id is listed",
        [load(PRINTS), does("source 9 %d 1" % (BASE + 0x10)), runs(9, "2 7 Went"), runs(9, "0 " + EBREAK), does("ids", "[9]")], BY_HAND),
    Row("a breakpoint of a function stops each call",
        [load(COUNTS), does("functions 5 %d 1" % (BASE + 0xC)), does("first go"), runs(99, "2 " + FUNCTION), does("ids", "[5]"), runs(99, "4 " + FUNCTION)]
        + at(BASE + 0xC, 1, 7), BY_HAND),
    Row("a breakpoint of a function comes after the others, and before the goal",
        [load(CALLS), does("functions 1 %d 1" % BASE), does("instructions 2 %d 1" % BASE), does("first go")] + ticks(INSTRUCTION)
        + [does("ids", "[2, 1]"), does("functions 3 %d 1" % (BASE + 4)), does("instructions"), does("begin in instruction")] + ticks(FUNCTION)
        + [does("functions"), does("begin in instruction")] + ticks(GOAL), BY_HAND),
    Row("a logpoint ends a run, which goes on",
        [load(COUNTS), does("source 1 %d 1 log here" % (BASE + 8)), does("first go"), runs(99, "4 Went"), does("logs", "[0]"), does("ids", "[]")]
        + at(BASE + 8, 0, 4) + [runs(5, "4 Went"), does("logs", "[0]")] + ticks(WENT) + [does("logs", "[]"), runs(4, "3 Went"), runs(4, "4 Spent")], BY_HAND),
    Row("a logpoint at the entry, where a number is printed, and at an EBREAK",
        [load(PRINTS), does("source 1 %d 1 log begins" % BASE), does("first go")] + ticks(WENT) + [does("logs", "[0]"), does("source 2 %d 1 log told" % (BASE + 0xC))]
        + [does("logs", "[]"), runs(9, "2 7 Went"), does("logs", "[0]"), does("source 3 %d 1 log after" % (BASE + 0x10)), runs(9, "0 " + EBREAK), does("logs", "[0]")],
        BY_HAND),
    Row("a step stops where a logpoint speaks, and a trap has no logs",
        [load(FAULTS), does("source 1 %d 1 log here" % BASE), does("first go")] + ticks(WENT, "Stopped(Exception(LoadMisaligned))") + [does("logs", "[]")]
        + [load(CALLS), does("source 1 %d 1 log here" % (BASE + 4)), does("begin in instruction")] + ticks(GOAL) + [does("logs", "[0]")], BY_HAND),
    Row("a trap stops with no ids, and is met again",
        [load(FAULTS), does("source 1 %d 1" % BASE), does("first go")] + ticks(SOURCE, "Stopped(Exception(LoadMisaligned))")
        + [does("ids", "[]")] + ticks("Stopped(Exception(LoadMisaligned))") + at(BASE, 0, 0), BY_HAND),
    Row("a breakpoint stops from its third hit on, and counts anew after a load",
        [load(COUNTS), does("source 1 %d 3" % (BASE + 8)), runs(100, "13 " + SOURCE), does("x 10", "3"), runs(100, "4 " + SOURCE),
         does("reload"), runs(100, "13 " + SOURCE)], BY_HAND),
    Row("a breakpoint stops where its condition is not 0",
        [load(COUNTS), does("source 1 %d 1 a0==2" % (BASE + 8)), runs(100, "8 " + SOURCE), does("x 10", "2"),
         does("source 1 %d 1 [0]" % (BASE + 8)), runs(100, "4 " + SOURCE), does("source 1 %d 1 0" % (BASE + 8)), runs(100, "100 Spent"),
         does("clear"), runs(10, "10 Spent")], BY_HAND, refused=True),
    Row("of 257 calls the newest 256 are kept",
        [load(MANY), runs(514, "514 Spent")] + at(BASE, 257, 514) + [does("kept", "256"), does("entry 255", "Some(%d)" % (BASE + 4)),
         does("entry 256", "None")], BY_HAND),
    Row("what is written and set is there, and outside memory nothing is",
        [load(COUNTS), does("set 10 41"), runs(4, "4 Spent"), does("x 10", "42"), does("word %d" % (BASE + 0xFFC), "Ok(0)"),
         does("write %d 01020304" % (BASE + 0xFFC)), does("word %d" % (BASE + 0xFFC), "Ok(67305985)"),
         does("write %d 0102" % (BASE + 0xFFF), "Outside"), does("word %d" % (BASE + 0xFFC), "Ok(67305985)"), does("reload"),
         does("word %d" % (BASE + 0xFFC), "Ok(0)"), does("x 10", "0"), does("x 2", str(BASE + 4096))], BY_HAND),
    Row("the greatest memory",
        [load(COUNTS, 16777216), does("x 2", str(BASE + 16777216)), does("word %d" % (BASE + 16777212), "Ok(0)"), runs(5, "5 Spent"), does("reload"),
         does("x 2", str(BASE + 16777216))] + at(BASE, 0, 0), BY_HAND),
    Row("a step back undoes one move, also where the way was by lines",
        [load(CALLS), recorded(0), does("turns_back", "false"), does("begin in line"), runs(9, "0 " + GOAL), runs(9, "1 " + GOAL), runs(9, "0 " + GOAL)]
        + at(BASE + 0x18, 1, 4) + [recorded(4)] + back("back") + ticks(GOAL) + at(BASE + 0x14, 1, 3)
        + [does("x 10", "5"), recorded(3), runs(9, "0 " + GOAL)] + at(BASE + 8, 0, 2) + ticks(GOAL, GOAL) + at(BASE, 0, 0)
        + [does("x 10", "0"), recorded(0), does("begin in instruction"), does("turns_back", "false")] + ticks(GOAL) + at(BASE + 4, 0, 1), BACK),
    Row("a step back into a function that has returned opens its call again, and one out of it closes that",
        [load(CALLS), runs(5, "5 Spent"), does("kept", "0")] + at(BASE + 0xC, 0, 5) + back("back") + ticks(GOAL) + at(BASE + 0x18, 1, 4)
        + [does("kept", "1"), does("entry 0", "Some(%d)" % (BASE + 8)), does("x 10", "6")] + ticks(GOAL, GOAL) + at(BASE + 8, 0, 2)
        + [does("kept", "0"), does("entry 0", "None"), does("x 10", "5")], BACK),
    Row("a step back brings a call back that was forgotten",
        [load(DEEP), runs(514, "514 Spent"), does("kept", "256"), does("entry 255", "Some(%d)" % (BASE + 0xC))] + at(BASE + 8, 257, 514) + back("back")
        + ticks(GOAL) + at(BASE + 0xC, 256, 513) + [does("kept", "256"), does("entry 255", "Some(%d)" % (BASE + 4)), does("entry 256", "None")], BACK),
    Row("a run back that no breakpoint stops ends where the past begins, and the program runs to the same end again",
        [load(CALLS), runs(9, "6 Ended(6)"), recorded(6)] + back("reverse") + [runs(3, "3 Spent")] + at(BASE + 0x14, 1, 3)
        + [does("x 10", "5"), runs(9, "2 " + START)] + at(BASE, 0, 0) + [does("x 10", "0"), does("begin go"), runs(9, "6 Ended(6)")]
        + at(BASE + 0x10, 0, 6), BACK),
    Row("where nothing is recorded a tick back undoes nothing",
        [load(CALLS)] + back("reverse") + ticks(START) + [runs(9, "0 " + START)] + back("back") + ticks(GOAL) + at(BASE, 0, 0)
        + [does("source 1 %d 9" % BASE)] + back("reverse") + ticks(SOURCE, SOURCE) + [does("ids", "[1]")] + back("back") + ticks(GOAL)
        + [does("ids", "[]")] + at(BASE, 0, 0), BACK),
    Row("a first run that goes back begins with the check at the entry too",
        [load(CALLS), does("first back")] + ticks(WENT, GOAL) + [does("source 1 %d 1" % BASE), does("first back")] + ticks(SOURCE) + [does("ids", "[1]")]
        + ticks(GOAL) + [does("ids", "[]")] + at(BASE, 0, 0), BACK),
    Row("a run back stops where a breakpoint stands, whatever hits it waits for, and counts none",
        [load(COUNTS), runs(12, "12 Spent"), does("source 1 %d 3" % (BASE + 8))] + back("reverse") + [runs(99, "2 " + SOURCE), does("ids", "[1]")]
        + at(BASE + 8, 0, 9) + [runs(99, "4 " + SOURCE), does("x 10", "1")] + at(BASE + 8, 0, 4) + [runs(99, "3 " + START), does("ids", "[]")]
        + at(BASE, 0, 0) + [does("begin go"), runs(99, "13 " + SOURCE), does("x 10", "3")], BACK),
    Row("a run back heeds conditions, and goes past a logpoint, which says nothing",
        [load(COUNTS), runs(20, "20 Spent"), does("source 1 %d 1 a0==1" % (BASE + 0xC))] + back("reverse") + [runs(99, "12 " + SOURCE), does("x 10", "1")]
        + at(BASE + 0xC, 1, 7) + [does("source 2 %d 1 log here" % (BASE + 8)), runs(99, "6 " + START), does("logs", "[]")] + at(BASE, 0, 0)
        + [does("source 1 %d 1 [0]" % (BASE + 0xC)), does("begin go"), runs(99, "1 " + SOURCE), runs(99, "4 " + SOURCE)] + at(BASE + 0xC, 1, 7)
        + back("reverse") + [runs(99, "4 " + SOURCE), does("source 1 %d 1 0" % BASE), runs(99, "1 " + START)], BACK),
    Row("of breakpoints at one address the line's comes first on the way back too, and then the instruction's",
        [load(CALLS), runs(3, "3 Spent"), does("functions 3 %d 1" % (BASE + 8))] + back("reverse") + ticks(FUNCTION) + [does("ids", "[3]")]
        + [step for kind, number, reason, ids in (("instructions", 2, INSTRUCTION, "[2, 3]"), ("source", 1, SOURCE, "[1, 2, 3]")) for step in (
            does("begin go"), runs(1, "1 Spent"), does("%s %d %d 1" % (kind, number, BASE + 8)), *back("reverse"), *ticks(reason), does("ids", ids))]
        + at(BASE + 8, 0, 2), BACK),
    Row("a number is printed again, and an ebreak stops on the way forth alone",
        [load(PRINTS), runs(9, "2 7 Went"), runs(9, "0 " + EBREAK), recorded(4)] + back("back") + ticks(GOAL) + at(BASE + 0xC, 0, 3)
        + [does("begin go")] + ticks(EBREAK) + at(BASE + 0x10, 0, 4) + back("reverse") + [runs(9, "3 " + START)] + at(BASE, 0, 0)
        + [does("begin go"), runs(9, "2 7 Went"), runs(9, "0 " + EBREAK)], BACK),
    Row("what trapped is not among the moves that are taken back",
        [load(b"li a0, 1\nlw a0, 2(zero)\n"), runs(9, "1 Stopped(Exception(LoadMisaligned))"), runs(9, "0 Stopped(Exception(LoadMisaligned))"), recorded(1)]
        + at(BASE + 4, 0, 1) + back("back") + ticks(GOAL) + at(BASE, 0, 0) + [does("x 10", "0"), recorded(0)], BACK),
    *(Row("a program that writes %s: back to its start, and forth again" % what,
          [load(text, 262144), runs(1000, "%d %s" % (moves, EBREAK))]
          + 2 * [recorded(moves + 1), *back("reverse"), runs(1000, "%d %s" % (moves, START)), *at(BASE, 0, 0), does("begin go"),
                 runs(1000, "%d %s" % (moves, EBREAK)), *(does("x %d" % x, str(value)) for x, value in left)], BACK)
      for what, text, moves, left in OVERWRITTEN),
    Row("the newest 65,536 moves are recorded",
        [load(COUNTS), runs(70000, "70000 Spent"), recorded(65536)] + back("reverse") + [runs(100000, "65535 " + START), does("x 10", "893")]
        + at(BASE + 8, 0, 4464) + [recorded(0)], BACK),
    Row("what is set gives up the past, and a breakpoint does not",
        [load(COUNTS), runs(5, "5 Spent"), does("source 1 %d 1" % (BASE + 0x100)), recorded(5), does("set 10 1"), recorded(0), runs(2, "2 Spent"), recorded(2),
         does("write %d 0102" % (BASE + 0xFFF), "Outside"), recorded(2), does("write %d 01" % (BASE + 0xFFF)), recorded(0), runs(1, "1 Spent"), recorded(1)]
        + back("reverse") + [runs(9, "0 " + START)] + at(BASE + 0xC, 1, 7) + [does("begin go"), runs(1, "1 Spent"), does("reload"), recorded(0)], BACK),
    Row("a store that found no memory is made again, and is taken back",
        [load(STORES_ANEW, 262144), does("turns_back", "false"), recorded(0)] + ticks(WENT, WENT, EBREAK) + [recorded(3), does("word 131072", "Ok(131072)")]
        + back("reverse") + ticks(WENT, WENT, START) + [recorded(0), does("word 131072", "Ok(0)"), does("x 10", "0")] + at(BASE, 0, 0), BACK, refused=True),
]
