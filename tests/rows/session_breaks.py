"""Breakpoints in a session: an editor sets them, they stop the program, other lists take their place, and they go with the editor."""
from rows.session_runs import EBREAK, ENTRY, GREATEST, GREATEST_RETIRED, LIMIT, PAUSE, STEP, in_slices, limited, without_memory
from support.breaks import ADDRESS, CONDITION, HIT, MOST, NO_CODE, UNKNOWN, at, body_of, is_not, is_set, on
from support.debugging import (BAD_ARGUMENTS, ENDED, EXHAUSTED, INITIALIZED, PATH, REPEATED, TERMINATED, TOO_MUCH, WAS_CANCELLED,
                               WRONG_PHASE, debugging, exits, launched, printed, stopped, success_text)
from support.players import Row
from support.programs import CALLS, CIRCLES, COUNTS, PRINTS, RECURS

PLAYER = "test_session"
PROFILE = "docs/PROTOCOL.md, \"Breakpoints\", and docs/MACHINE.md, \"Breakpoints\", worked by hand"

# COUNTS calls a function that counts in a0, for ever. Each round has 5 instructions, and pc is at the line after the call when the 4th of them
# has retired, and in the function, at its addition and at its return, after the 2nd and the 3rd.
ROUND, BACK, ADDITION, RETURN = 5, 4, 0x1000c, 0x10010

# Lines without an instruction, and with one each: the third and the fifth.
GAPS = b"# Goes in a circle.\n\ne: nop\n\nj e\n"
# Jumps to the last word of memory, after two instructions that load its address.
LEAPS = b"li t0, 0x10fffc\njr t0\n"
# A word that is no instruction, after one that is.
NO_INSTRUCTION = b"nop\n.word 0\n"

OTHER = "/w/q.s"
TOO_MANY = MOST + 1


def at_lines(*ids):
    """The stop at these breakpoints, one of a line among them."""
    return stopped("breakpoint", ids=ids)


def at_instructions(*ids):
    """The stop at these breakpoints, all of them of instructions."""
    return stopped("instruction breakpoint", ids=ids)


def back(number):
    """The breakpoint of this number after the call of COUNTS, as it is set: the line is 2."""
    return is_set(number, 0x10008, 2)


def counting(asked, entries, *new):
    """COUNTS with these breakpoints at lines, before its first instruction."""
    return launched(COUNTS, *new).sets(asked, entries).asks("configurationDone")


def in_a_circle(hits, *new):
    """CIRCLES with a breakpoint at its one instruction, before its first move."""
    return launched(CIRCLES, *new).sets([at(1, None, hits)], [is_set(1, 0x10000, 1)]).asks("configurationDone")


def each_round():
    script = counting([at(2), at(9)], [back(1), is_not(NO_CODE, 9)]).slices(100, 4, "Stopped", at_lines(1)).slices(100, 0, "Idle")
    assert b'{"breakpoints":[{"id":1,"instructionReference":"0x00010008","line":2,"verified":true},' \
           b'{"line":9,"message":"no code at or after this line","verified":false}]},"command":"setBreakpoints"' in script.taken
    return script.asks("continue").slices(100, 5, "Stopped", at_lines(1)).asks("continue").slices(100, 5, "Stopped", at_lines(1))


def in_a_recursion():
    """The program stops before the inner call; a step goes over that, whatever it calls in turn."""
    script = launched(RECURS).sets([at(9)], [is_set(1, 0x10024, 9)]).asks("configurationDone").slices(100, 7, "Stopped", at_lines(1))
    script.sets([], []).asks("next").slices(100, 13, "Stopped", STEP).asks("stepOut").slices(100, 3, "Stopped", STEP)
    return script.asks("stepOut").slices(100, 1, "Ended", *exits(0))


def at_an_address():
    script = launched(CALLS).sets_at_instructions([on("0x00010010", 4), on("0x00010010", 2)], [is_set(1, 0x10014), is_not(ADDRESS)])
    script.asks("configurationDone").slices(100, 3, "Stopped", at_instructions(1))
    assert b'{"breakpoints":[{"id":1,"instructionReference":"0x00010014","verified":true},' \
           b'{"message":"bad address","verified":false}]}' in script.taken
    assert b'{"allThreadsStopped":true,"hitBreakpointIds":[1],"reason":"instruction breakpoint","threadId":1}' in script.taken
    return script.asks("continue").slices(100, 3, "Ended", *exits(6))


# ---- before the first instruction


def at_entry():
    """The breakpoints at the entry are looked at before the first instruction of a program that was just loaded, and only there."""
    script = launched(CALLS).sets([at(1)], [is_set(1, 0x10000, 1)]).asks("configurationDone").slices(100, 0, "Stopped", at_lines(1))
    script.asks("continue").slices(5, 5, "Spent").asks("restart").slices(100, 0, "Stopped", at_lines(1)).asks("restart")
    script.slices(100, 0, "Stopped", at_lines(1)).asks("continue").slices(100, 6, "Ended", *exits(6))
    return script


def at_entry_by_an_instruction():
    script = launched(CALLS).sets_at_instructions([on("65536")], [is_set(1, 0x10000)]).asks("configurationDone")
    return script.slices(0, 0, "Stopped", at_instructions(1)).asks("stepIn").slices(9, 1, "Stopped", STEP)


def hidden_at_entry(script, stop):
    """A mark stops the program at its entry, and the breakpoint there does not then."""
    script.slices(100, 0, "Stopped", stop).asks("continue").slices(3, 3, "Spent").asks("restart")
    return script


def hidden_by_entry():
    script = launched(CALLS, stopOnEntry=True).sets([at(1)], [is_set(1, 0x10000, 1)]).asks("configurationDone")
    return hidden_at_entry(script, ENTRY).slices(100, 0, "Stopped", ENTRY).asks("continue").slices(100, 6, "Ended", *exits(6))


def hidden_by_pause():
    script = launched(CALLS).sets([at(1)], [is_set(1, 0x10000, 1)]).asks("configurationDone").asks("pause")
    return hidden_at_entry(script, PAUSE).slices(100, 0, "Stopped", at_lines(1))


def hidden_by_hold():
    script = launched(CALLS).sets([at(1)], [is_set(1, 0x10000, 1)]).asks("configurationDone").does("hold", "ok")
    return hidden_at_entry(script, PAUSE).slices(100, 0, "Stopped", at_lines(1))


def checked_once():
    """The look at the entry counts a hit, once, in a slice of no moves too; a restart begins to count anew."""
    script = in_a_circle("3").slices(0, 0, "Spent").slices(0, 0, "Spent").slices(9, 2, "Stopped", at_lines(1))
    script.asks("continue").slices(9, 1, "Stopped", at_lines(1))
    return script.asks("restart").slices(9, 2, "Stopped", at_lines(1))


def set_before_the_first_move():
    return debugging(CIRCLES).sets([at(1)], [is_set(1, 0x10000, 1)]).slices(9, 0, "Stopped", at_lines(1))


# ---- conditions

# Breakpoints after the call of COUNTS, and in which of the first six rounds they stop it. In round K a0 is K there.
CONDITIONS = [
    ("no condition", at(2), (1, 2, 3, 4, 5, 6)),
    ("texts that are empty", at(2, "", " "), (1, 2, 3, 4, 5, 6)),
    ("a comparison", at(2, "a0 == 3"), (3,)),
    ("blanks round the texts", at(2, "  a0 == 3 ", " 1 "), (3,)),
    ("a value that is not 0", at(2, "a0 - 3"), (1, 2, 4, 5, 6)),
    ("a bit", at(2, "a0 & 1"), (1, 3, 5)),
    ("one thing or another", at(2, "a0 == 2 || a0 == 5"), (2, 5)),
    ("0", at(2, "0"), ()),
    ("pc, which is where it stands", at(2, "pc == 0x10008 && ra == pc"), (1, 2, 3, 4, 5, 6)),
    ("a word of the program", at(2, "[0x1000c] == 0x00150513"), (1, 2, 3, 4, 5, 6)),
    ("a word outside memory, which has no value", at(2, "[0]"), (1, 2, 3, 4, 5, 6)),
    ("a word outside memory in the first rounds", at(2, "a0 < 3 && [0]"), (1, 2)),
    ("a hit condition", at(2, None, "3"), (3, 4, 5, 6)),
    ("a hit condition that is not met", at(2, None, "7"), ()),
    ("a condition and a hit condition", at(2, "a0 > 1", "2"), (3, 4, 5, 6)),
    ("a condition that is met now and then, and a hit condition", at(2, "a0 & 1", "2"), (3, 5)),
    ("a condition that is 0, and a hit condition", at(2, "0", "1"), ()),
]


def stops_in(asked, rounds):
    script, made, end = counting([asked], [back(1)]), 0, 5 * ROUND + BACK
    for number in rounds:
        moves = (number - 1) * ROUND + BACK - made
        script.slices(100, moves, "Stopped", at_lines(1)).asks("continue")
        made += moves
    return script.slices(end - made, end - made, "Spent")


# In the recursion the return address is at sp when the breakpoint is met: that of the outer call the first time, after 7 moves, that of the
# inner one the second time, after 6 more.
def a_condition_on_memory():
    script = launched(RECURS).sets([at(9, "[sp] == 0x1002c")], [is_set(1, 0x10024, 9)]).asks("configurationDone")
    return script.slices(100, 13, "Stopped", at_lines(1)).asks("continue").slices(100, 11, "Ended", *exits(0))


def conversation(most):
    """Breakpoints of both kinds, so many moves at a time."""
    script = launched(COUNTS).sets([at(2, "a0 == 3"), at(9)], [back(1), is_not(NO_CODE, 9)])
    script.sets_at_instructions([on("0x0001000c", 4, None, "2")], [is_set(2, RETURN)]).asks("configurationDone")
    in_slices(script, most, 8, "Stopped", {8: [at_instructions(2)]})
    in_slices(script.asks("continue"), most, 5, "Stopped", {5: [at_instructions(2)]})
    in_slices(script.asks("continue"), most, 1, "Stopped", {1: [at_lines(1)]})
    in_slices(script.sets_at_instructions([], []).asks("next"), most, 1, "Stopped", {1: [STEP]})
    in_slices(script.asks("restart"), most, 14, "Stopped", {14: [at_lines(1)]})
    return script.asks("disconnect")


def conversation_of_recurs(most):
    """A step over a call, so many moves at a time: the breakpoint in what is called stops it."""
    script = launched(RECURS).sets([at(9), at(12)], [is_set(1, 0x10024, 9), is_set(2, 0x10034, 12)]).asks("configurationDone")
    in_slices(script, most, 7, "Stopped", {7: [at_lines(1)]})
    in_slices(script.asks("next"), most, 6, "Stopped", {6: [at_lines(1)]})
    in_slices(script.asks("next"), most, 3, "Stopped", {3: [at_lines(2)]})
    in_slices(script.asks("stepOut"), most, 1, "Stopped", {1: [STEP]})
    in_slices(script.sets([], []).asks("continue"), most, 7, "Ended", events=exits(0))
    return script


def slices_of_each_size():
    for name, talk in (("at lines and at instructions", conversation), ("in a recursion", conversation_of_recurs)):
        scripts = {most: talk(most) for most in (1, 7, 100000)}
        assert len({script.taken for script in scripts.values()}) == 1
        for most, script in scripts.items():
            yield Row("breakpoints %s, %d moves at a time" % (name, most), script.steps, PROFILE)


# ---- several reasons to stop


def both_kinds():
    """Where breakpoints of both kinds stop the program, those of lines are named first, and are the reason."""
    script = launched(COUNTS).sets_at_instructions([on("0x00010008")], [is_set(1, 0x10008)]).sets([at(2)], [back(2)])
    script.asks("configurationDone").slices(99, 4, "Stopped", at_lines(2, 1)).asks("continue").slices(99, 5, "Stopped", at_lines(2, 1))
    script.sets([], []).asks("continue").slices(99, 5, "Stopped", at_instructions(1))
    script.sets([at(2, None, "2"), at(2)], [back(3), back(4)]).asks("continue").slices(99, 5, "Stopped", at_lines(4, 1))
    script.asks("continue").slices(99, 5, "Stopped", at_lines(3, 4, 1))
    script.sets([at(2, None, "2"), at(2, "0")], [back(5), back(6)]).asks("continue").slices(99, 5, "Stopped", at_instructions(1))
    return script.asks("continue").slices(99, 5, "Stopped", at_lines(5, 1))


def after_an_ebreak():
    """EBREAK retires: the breakpoints after it are looked at, and named. The reason stays."""
    script = launched(PRINTS).sets([at(5)], [is_set(1, 0x10010, 5)]).asks("configurationDone").slices(9, 4, "Stopped", printed(7), at_lines(1))
    script.asks("continue").slices(9, 1, "Stopped", at_lines(1)).sets([], [])
    script.sets_at_instructions([on("0x00010010")], [is_set(2, 0x10010)]).asks("restart")
    script.slices(9, 4, "Stopped", printed(7), stopped("breakpoint", ids=[2]))
    return script.asks("continue").slices(9, 1, "Stopped", at_instructions(2))


def before_an_ebreak():
    """What is printed is told before the stop, and the stop at the breakpoint before that at the EBREAK."""
    script = launched(PRINTS).sets([at(4)], [is_set(1, 0x1000c, 4)]).asks("configurationDone").slices(9, 3, "Stopped", printed(7), at_lines(1))
    return script.asks("continue").slices(9, 1, "Stopped", EBREAK)


def before_a_trap():
    """A trap names no breakpoint, also where one is at its instruction."""
    script = launched(NO_INSTRUCTION).sets_at_instructions([on("0x00010004")], [is_set(1, 0x10004)]).asks("configurationDone")
    script.slices(9, 1, "Stopped", at_instructions(1)).asks("continue").slices(9, 0, "Stopped", stopped("exception", "illegal instruction"))
    return script.asks("stepIn").slices(9, 0, "Stopped", stopped("exception", "illegal instruction"))


def at_the_end_of_memory():
    """A breakpoint need not be at an instruction of the program."""
    script = launched(LEAPS).sets_at_instructions([on("0x0010fffc"), on("0x0010fffc", 4)], [is_set(1, 0x10fffc), is_not(ADDRESS)])
    script.asks("configurationDone").slices(9, 3, "Stopped", at_instructions(1)).asks("continue")
    return script.slices(9, 0, "Stopped", stopped("exception", "illegal instruction"))


def before_an_exit():
    script = launched(CALLS).sets([at(4)], [is_set(1, 0x10010, 4)]).asks("configurationDone").slices(9, 6, "Stopped", at_lines(1))
    return script.asks("continue").slices(9, 0, "Ended", *exits(6))


def in_steps():
    """A breakpoint that is met comes before the goal of a step, also where both are."""
    script = launched(CALLS, stopOnEntry=True).sets(
        [at(2), at(5), at(6, "a0 == 6")], [is_set(1, 0x10004, 2), is_set(2, 0x10014, 5), is_set(3, 0x10018, 6)]).asks("configurationDone")
    script.slices(9, 0, "Stopped", ENTRY).asks("next").slices(9, 1, "Stopped", at_lines(1)).asks("next").slices(9, 2, "Stopped", at_lines(2))
    script.asks("stepOut").slices(9, 1, "Stopped", at_lines(3)).asks("stepOut").slices(9, 1, "Stopped", STEP)
    return script.asks("continue").slices(9, 1, "Ended", *exits(6))


def at_the_limit():
    """The breakpoint of the last instruction that may retire stops the program, and after that the limit."""
    script = in_a_circle("6", *limited(retired=5)).slices(9, 5, "Stopped", at_lines(1)).asks("continue").slices(9, 0, "Stopped", LIMIT)
    return script.asks("restart").slices(9, 5, "Stopped", at_lines(1))


def in_a_pause():
    """A pause stops the program before its next move, and no breakpoint is named."""
    script = in_a_circle("9").slices(5, 5, "Spent").asks("pause").slices(9, 0, "Stopped", PAUSE)
    return script.asks("continue").slices(9, 3, "Stopped", at_lines(1))


# ---- lists are replaced


def while_it_runs():
    script = debugging(CIRCLES).slices(1000, 1000, "Spent").sets([at(1)], [is_set(1, 0x10000, 1)]).runs(True)
    script.slices(1000, 1, "Stopped", at_lines(1)).asks("continue").sets([], []).runs(True).slices(1000, 1000, "Spent")
    script.sets_at_instructions([on("65536", None, None, "3")], [is_set(2, 0x10000)]).slices(2, 2, "Spent")
    return script.slices(9, 1, "Stopped", at_instructions(2)).asks("continue").slices(9, 1, "Stopped", at_instructions(2))


def marked_meanwhile():
    """A mark stays where breakpoints are set, and counts before them."""
    script = debugging(CIRCLES).slices(5, 5, "Spent").asks("pause").sets([at(1)], [is_set(1, 0x10000, 1)]).slices(9, 0, "Stopped", PAUSE)
    script.asks("restart").does("hold", "ok").sets_at_instructions([on("65536")], [is_set(2, 0x10000)]).slices(9, 0, "Stopped", PAUSE)
    return script.asks("continue").slices(9, 1, "Stopped", at_lines(1, 2))


def in_a_step():
    """A step goes on to its goal where breakpoints are set meanwhile, or to one of these."""
    script = launched(COUNTS, stopOnEntry=True).asks("configurationDone").slices(9, 0, "Stopped", ENTRY).asks("next").slices(2, 2, "Spent")
    script.sets([at(4, "0")], [is_set(1, RETURN, 4)]).sets_at_instructions([], []).slices(9, 2, "Stopped", STEP).asks("next")
    script.slices(9, 1, "Stopped", STEP).asks("next").slices(2, 2, "Spent").sets([at(4)], [is_set(2, RETURN, 4)])
    return script.slices(9, 1, "Stopped", at_lines(2))


def hits_begin_anew():
    """The breakpoints of a list that takes the place of another were not hit yet."""
    return counting([at(2, None, "3")], [back(1)]).slices(9, 9, "Spent").sets([at(2, None, "3")], [back(2)]) \
        .slices(99, 15, "Stopped", at_lines(2))


def hits_of_the_other_kind_stay():
    script = counting([at(2, None, "3")], [back(1)]).slices(9, 9, "Spent")
    script.sets_at_instructions([on("0x00010010", None, "0")], [is_set(2, RETURN)]).slices(99, 5, "Stopped", at_lines(1)).sets([], [])
    script.sets_at_instructions([on("0x00010010", None, None, "3")], [is_set(3, RETURN)]).asks("continue").slices(10, 10, "Spent")
    return script.sets([at(4, "0")], [is_set(4, RETURN, 4)]).slices(99, 4, "Stopped", at_instructions(3))


def hits_begin_anew_at_a_restart():
    script = counting([at(2, None, "2")], [back(1)]).sets_at_instructions([on("0x0001000c", None, None, "5")], [is_set(2, ADDITION)])
    script.slices(99, 9, "Stopped", at_lines(1)).asks("restart").slices(99, 9, "Stopped", at_lines(1)).sets([], []).asks("continue")
    script.slices(99, 13, "Stopped", at_instructions(2)).asks("restart").slices(99, 22, "Stopped", at_instructions(2))
    return script


def another_source():
    """Breakpoints of a source that is not the program's change nothing, and get no numbers."""
    script = counting([at(2, None, "3")], [back(1)]).slices(9, 9, "Spent")
    script.sets([at(1), at(9, "("), at(1, None, "0")], [is_not(UNKNOWN, 1), is_not(UNKNOWN, 9), is_not(UNKNOWN, 1)], path=OTHER)
    script.sets([], [], path=OTHER).sets([at(2)], [is_not(UNKNOWN, 2)], path="p.s").asks("setBreakpoints", body=body_of([]))
    script.asks("setBreakpoints", body=body_of([is_not(UNKNOWN, 2)]), source={"name": "p.s"}, lines=[2])
    return script.slices(99, 5, "Stopped", at_lines(1)).sets([at(2)], [back(2)])


def none_can_be_set():
    """A list of which none can be set is an empty list."""
    script = counting([at(2)], [back(1)]).sets([at(9), at(2, "("), at(2, None, "0"), at(9, "(", "0"), at(9, None, "0")],
                                               [is_not(NO_CODE, 9), is_not(CONDITION, 2), is_not(HIT, 2), is_not(CONDITION, 9), is_not(HIT, 9)])
    script.slices(99, 99, "Spent").sets_at_instructions([on("x"), on("65536", None, "q"), on("65537", None, "1", "x")],
                                                        [is_not(ADDRESS), is_not(CONDITION), is_not(HIT)])
    return script.slices(99, 99, "Spent").sets([at(2), at(9), at(3)], [back(2), is_not(NO_CODE, 9), is_set(3, ADDITION, 3)])


def many():
    """As many as may be asked for, of both kinds: the answer is longer than what may wait, and all are named."""
    entries = [back(number) for number in range(1, MOST + 1)]
    script = launched(COUNTS).sends("setBreakpoints", source={"path": PATH}, breakpoints=MOST * [at(2)])
    script.answers("setBreakpoints", body=body_of(entries))
    assert len(script.waiting) > 65536
    script.sends("threads").does("turn", "Full").does("pending", "1").takes().answers("threads").takes()
    script.sets_at_instructions(MOST * [on("0x00010008")], [is_set(number, 0x10008) for number in range(MOST + 1, 2 * MOST + 1)])
    script.asks("configurationDone").slices(99, 4, "Stopped", at_lines(*range(1, 2 * MOST + 1)))
    return script.asks("continue").slices(99, 5, "Stopped", at_lines(*range(1, 2 * MOST + 1)))


def too_many():
    """One more than that are refused, whatever their source is, and nothing changes."""
    script = counting([at(2)], [back(1)]).sets_at_instructions([on("0x00010010", None, "0")], [is_set(2, RETURN)])
    script.asks("setBreakpoints", TOO_MUCH, source={"path": PATH}, breakpoints=TOO_MANY * [at(2)])
    script.asks("setBreakpoints", TOO_MUCH, source={"path": OTHER}, breakpoints=TOO_MANY * [at(9)])
    script.asks("setBreakpoints", TOO_MUCH, source={"path": PATH}, lines=TOO_MANY * [2])
    script.asks("setInstructionBreakpoints", TOO_MUCH, breakpoints=TOO_MANY * [on("x")])
    return script.slices(99, 4, "Stopped", at_lines(1)).sets([at(2)], [back(3)])


# ---- how they are asked for


def lines_alone():
    script = launched(COUNTS).asks("setBreakpoints", body=body_of([back(1), is_not(NO_CODE, 9)]), source={"path": PATH}, lines=[2, 9])
    return script.asks("configurationDone").slices(99, 4, "Stopped", at_lines(1)).asks(
        "setBreakpoints", body=body_of([]), source={"path": PATH}).asks("continue").slices(99, 99, "Spent")


def lines_beside_breakpoints():
    script = launched(COUNTS).asks("setBreakpoints", body=body_of([back(1)]), source={"path": PATH}, breakpoints=[at(2)], lines=[1, 3])
    return script.asks("configurationDone").slices(99, 4, "Stopped", at_lines(1))


def lines_without_code():
    """A breakpoint goes to the next line with an instruction."""
    script = launched(GAPS).sets([at(0), at(4), at(6)], [is_set(1, 0x10000, 3), is_set(2, 0x10004, 5), is_not(NO_CODE, 6)])
    script.asks("configurationDone").slices(9, 0, "Stopped", at_lines(1)).asks("continue").slices(9, 1, "Stopped", at_lines(2))
    return script.asks("continue").slices(9, 1, "Stopped", at_lines(1))


def lines_from_0():
    """Lines are counted as the editor of the connection said."""
    script = debugging(COUNTS).drops().connects().asks("initialize", linesStartAt1=False, columnsStartAt1=False).launches(COUNTS)
    script.sets([at(1), at(8)], [is_set(1, 0x10008, 1), is_not(NO_CODE, 8)]).asks("configurationDone").slices(9, 4, "Stopped", at_lines(1))
    script.drops().connects().asks("initialize", columnsStartAt1=False).launches(COUNTS)
    return script.sets([at(2), at(9)], [back(2), is_not(NO_CODE, 9)]).asks("configurationDone").slices(9, 4, "Stopped", at_lines(2))


def a_column_and_a_mode():
    """They are not looked at."""
    script = launched(COUNTS).asks("setBreakpoints", body=body_of([back(1)]), source={"path": PATH},
                                   breakpoints=[{**at(2), "column": 3, "mode": "x"}])
    return script.asks("configurationDone").slices(99, 4, "Stopped", at_lines(1))


def another_program():
    """The program's path is that of its own launch."""
    script = counting([at(2)], [back(1)]).drops().connects().asks("initialize")
    script.asks("launch", file=COUNTS, events=[INITIALIZED], program=OTHER).sets([at(2)], [is_not(UNKNOWN, 2)])
    return script.sets([at(2)], [back(2)], path=OTHER).asks("configurationDone").slices(99, 4, "Stopped", at_lines(2))


def of_an_ended_program():
    """A program that has ended has breakpoints as any other."""
    script = debugging(CALLS).slices(100, 6, "Ended", *exits(6)).sets([at(1), at(7)], [is_set(1, 0x10000, 1), is_not(NO_CODE, 7)])
    return script.sets_at_instructions([on("65536")], [is_set(2, 0x10000)]).slices(9, 0, "Idle").asks("continue", ENDED)


def of_a_program_that_was_ended_early():
    script = launched(CALLS).asks("terminate", events=[TERMINATED]).sets([at(1)], [is_set(1, 0x10000, 1)])
    return script.sets_at_instructions([on("65536")], [is_set(2, 0x10000)]).asks("configurationDone", ENDED)


def refused(refusal, **request):
    """A request that is refused sets nothing and takes no numbers."""
    script = counting([at(2)], [back(1)]).asks("setBreakpoints", refusal, source={"path": PATH}, **request)
    return script.slices(99, 4, "Stopped", at_lines(1)).sets([at(2)], [back(2)])


def refused_before_a_launch():
    script = debugging(COUNTS).drops().connects().asks("setBreakpoints", WRONG_PHASE, source={"path": PATH}, breakpoints=[at(2)])
    script.asks("initialize").asks("setBreakpoints", WRONG_PHASE, source={"path": PATH}, breakpoints=[at(2)])
    script.asks("setInstructionBreakpoints", WRONG_PHASE, breakpoints=[on("65536")]).slices(99, 99, "Spent")
    return script.launches(COUNTS).asks("configurationDone").slices(99, 99, "Spent").sets([at(2)], [back(1)])


def cancelled():
    script = counting([at(2)], [back(1)])
    for command, arguments in (("setBreakpoints", {"source": {"path": PATH}, "breakpoints": []}),
                               ("setInstructionBreakpoints", {"breakpoints": [on("65536", 12)]})):
        script.sends(command, **arguments)
        number = script.asked
        script.sends("cancel", requestId=number).answers(command, WAS_CANCELLED, seq=number).answers("cancel").takes()
    return script.slices(99, 4, "Stopped", at_lines(1)).sets([at(2)], [back(2)])


# ---- numbers


def numbers_rise():
    """No number is given again, on whatever connection."""
    script = launched(COUNTS).sets([at(2), at(9), at(3)], [back(1), is_not(NO_CODE, 9), is_set(2, ADDITION, 3)]).sets([at(2)], [back(3)])
    script.sets_at_instructions([on("x"), on("65536")], [is_not(ADDRESS), is_set(4, 0x10000)]).sets([], []).sets([at(2)], [back(5)])
    script.asks("configurationDone").asks("restart").sets([at(2)], [back(6)]).drops().connects().asks("initialize").launches(COUNTS)
    script.sets([at(2)], [back(7)]).sets_at_instructions([on("65536")], [is_set(8, 0x10000)]).asks("disconnect").drops()
    return script.connects().asks("initialize").launches(CALLS).sets_at_instructions([on("65536")], [is_set(9, 0x10000)])


def the_last_number():
    """As many numbers are given as may be. A list that needs more is refused, and nothing changes."""
    script = launched(COUNTS, *limited(ref=4)).sets([at(1), at(9), at(3)], [is_set(1, 0x10000, 1), is_not(NO_CODE, 9), is_set(2, ADDITION, 3)])
    script.asks("setBreakpoints", EXHAUSTED, source={"path": PATH}, breakpoints=3 * [at(2)])
    script.asks("setInstructionBreakpoints", EXHAUSTED, breakpoints=[on("65536"), on("x"), on("65536"), on("65536")])
    script.sets([at(2), at(9, "("), at(2, None, "2")], [back(3), is_not(CONDITION, 9), back(4)])
    script.asks("setInstructionBreakpoints", EXHAUSTED, breakpoints=[on("x"), on("65536")])
    script.asks("setBreakpoints", EXHAUSTED, source={"path": PATH}, lines=[1])
    return script.asks("configurationDone").slices(99, 4, "Stopped", at_lines(3)).asks("continue").slices(99, 5, "Stopped", at_lines(3, 4))


def after_the_last_number():
    """A list that needs no number is set, too many are still refused as that, and another source as ever; so it stays."""
    script = counting([at(2)], [back(1)], *limited(ref=1)).asks("setBreakpoints", TOO_MUCH, source={"path": PATH}, breakpoints=TOO_MANY * [at(2)])
    script.asks("setInstructionBreakpoints", TOO_MUCH, breakpoints=TOO_MANY * [on("65536")]).sets([at(2)], [is_not(UNKNOWN, 2)], path=OTHER)
    script.asks("setBreakpoints", BAD_ARGUMENTS, source={"path": PATH}, breakpoints=[{"line": -1}])
    script.slices(99, 4, "Stopped", at_lines(1)).sets([at(9)], [is_not(NO_CODE, 9)]).asks("continue").slices(99, 99, "Spent")
    script.sets_at_instructions([on("x")], [is_not(ADDRESS)]).sets([], []).drops().connects().asks("initialize").launches(COUNTS)
    script.asks("setBreakpoints", EXHAUSTED, source={"path": PATH}, breakpoints=[at(2)]).asks("setBreakpoints", REPEATED, seq=1, lines=[2])
    return script.asks("configurationDone").slices(99, 99, "Spent")


# ---- they go with the editor


def gone_with_a_drop():
    script = counting([at(2)], [back(1)]).sets_at_instructions([on("0x00010010", None, "a0 == 2")], [is_set(2, RETURN)])
    script.slices(99, 4, "Stopped", at_lines(1)).asks("continue").does("recv " + b"Content-Le".hex(), "ok").drops().slices(100, 100, "Spent")
    script.connects().asks("initialize").slices(100, 100, "Spent").launches(COUNTS).asks("configurationDone")
    return script.slices(100, 100, "Spent").sets([at(2)], [back(3)]).slices(100, 4, "Stopped", at_lines(3))


def gone_with_a_disconnect():
    script = counting([at(2)], [back(1)]).sets_at_instructions([on("0x00010010", None, "a0 == 2")], [is_set(2, RETURN)])
    script.slices(99, 4, "Stopped", at_lines(1)).asks("continue").asks("disconnect", terminateDebuggee=False).does("finished", "true")
    return script.runs(True).slices(100, 100, "Spent").drops().slices(100, 100, "Spent")


def gone_at_the_entry():
    """The look at the entry is still due, and meets none."""
    return in_a_circle(None).drops().runs(True).slices(9, 9, "Spent")


# ---- events that find no memory


def anew():
    """Breakpoints of both kinds, in little memory, from the first to the end of the program."""
    script = launched(CALLS, 4096, GREATEST, GREATEST, GREATEST_RETIRED)
    script.sets([at(5, "a0 == 5", "1"), at(9)], [is_set(1, 0x10014, 5), is_not(NO_CODE, 9)])
    script.sets_at_instructions([on("0x00010014", 4), on("x")], [is_set(2, 0x10018), is_not(ADDRESS)]).sets([at(1)], [is_not(UNKNOWN, 1)], path=OTHER)
    script.asks("configurationDone").slices(9, 3, "Stopped", at_lines(1)).sets([at(6)], [is_set(3, 0x10018, 6)])
    script.asks("continue").slices(9, 1, "Stopped", at_lines(3, 2)).asks("restart").slices(9, 4, "Stopped", at_lines(3, 2))
    return script.asks("continue").slices(9, 2, "Ended", *exits(6)).asks("disconnect").does("finished", "true")


def stop_told_by_a_turn(found):
    """A stop that is owed is told, with its breakpoints, before the request that takes them away is answered."""
    script = counting([at(2, None, "2")], [back(1)]).does("slice_once 99", "9 %s" % ("Stopped" if found else "NoMemory")).runs(not found)
    script.sends("setBreakpoints", source={"path": PATH}, breakpoints=[])
    script.does("turn", "Answered").does("pending", "0" if found else "1").does("turn", "Nothing" if found else "Answered")
    script.tells(at_lines(1)).queues(lambda seq: success_text("setBreakpoints", script.asked, seq, body_of([]))).takes().runs(False)
    return script.asks("continue").slices(99, 99, "Spent")


def stop_told_by_a_slice(found):
    """The move is not made again, and its hit not counted twice."""
    script = counting([at(2, None, "2"), at(2, None, "4")], [back(1), back(2)])
    script.does("slice_once 99", "9 %s" % ("Stopped" if found else "NoMemory"))
    script.does("slice_once 99", "0 Idle" if found else "0 Stopped").tells(at_lines(1)).takes().runs(False)
    script.asks("continue").slices(99, 5, "Stopped", at_lines(1)).asks("continue").slices(99, 5, "Stopped", at_lines(1, 2))
    return script


def entry_told_by_a_slice(found):
    """The look at the entry is not made again."""
    script = in_a_circle(None).does("slice_once 9", "0 %s" % ("Stopped" if found else "NoMemory")).runs(not found)
    script.does("slice_once 9", "0 Idle" if found else "0 Stopped").tells(at_lines(1)).takes()
    return script.asks("continue").slices(9, 1, "Stopped", at_lines(1))


def stop_made_by_a_drop(found):
    """The stop that is owed is made, and told to nobody."""
    script = counting([at(2)], [back(1)]).does("slice_once 99", "4 %s" % ("Stopped" if found else "NoMemory")).drops().runs(False)
    return script.slices(99, 0, "Idle").connects().does("waiting", "").does("turn", "Nothing")


FOUND_NONE = [
    ("a turn tells the stop that is owed, with its breakpoints", stop_told_by_a_turn),
    ("a slice tells the stop at a breakpoint that is owed", stop_told_by_a_slice),
    ("a slice tells the stop at the entry that is owed", entry_told_by_a_slice),
    ("a drop makes the stop at a breakpoint that is owed", stop_made_by_a_drop),
]

ROWS = [
    Row("a breakpoint stops the program each time", each_round().steps, PROFILE),
    Row("a breakpoint in a recursion", in_a_recursion().steps, PROFILE),
    Row("a breakpoint at an address", at_an_address().steps, PROFILE),
    Row("a breakpoint at the entry", at_entry().steps, PROFILE),
    Row("a breakpoint at the entry, by its address", at_entry_by_an_instruction().steps, PROFILE),
    Row("a stop at the entry hides the breakpoint there", hidden_by_entry().steps, PROFILE),
    Row("a pause hides the breakpoint at the entry", hidden_by_pause().steps, PROFILE),
    Row("a hold hides the breakpoint at the entry", hidden_by_hold().steps, PROFILE),
    Row("the breakpoints at the entry are looked at once", checked_once().steps, PROFILE),
    Row("a breakpoint that is set before the first move", set_before_the_first_move().steps, PROFILE),
    *(Row("a breakpoint with a condition: " + name, stops_in(asked, rounds).steps, PROFILE) for name, asked, rounds in CONDITIONS),
    Row("a breakpoint with a condition on memory", a_condition_on_memory().steps, PROFILE),
    *slices_of_each_size(),
    Row("breakpoints of both kinds at one address", both_kinds().steps, PROFILE),
    Row("a breakpoint after an EBREAK", after_an_ebreak().steps, PROFILE),
    Row("a breakpoint at an EBREAK", before_an_ebreak().steps, PROFILE),
    Row("a breakpoint at a trap", before_a_trap().steps, PROFILE),
    Row("a breakpoint at the end of memory", at_the_end_of_memory().steps, PROFILE),
    Row("a breakpoint before an exit", before_an_exit().steps, PROFILE),
    Row("breakpoints in steps", in_steps().steps, PROFILE),
    Row("a breakpoint at the limit", at_the_limit().steps, PROFILE),
    Row("a breakpoint in a pause", in_a_pause().steps, PROFILE),
    Row("breakpoints of a program that runs", while_it_runs().steps, PROFILE),
    Row("breakpoints of a program that is to pause", marked_meanwhile().steps, PROFILE),
    Row("breakpoints that are set in a step", in_a_step().steps, PROFILE),
    Row("the hits of a new list begin anew", hits_begin_anew().steps, PROFILE),
    Row("the hits of the other list stay", hits_of_the_other_kind_stay().steps, PROFILE),
    Row("a restart keeps breakpoints, and their hits begin anew", hits_begin_anew_at_a_restart().steps, PROFILE),
    Row("breakpoints of another source", another_source().steps, PROFILE),
    Row("breakpoints that cannot be set", none_can_be_set().steps, PROFILE),
    Row("1,024 breakpoints of each kind", many().steps, PROFILE),
    Row("1,025 breakpoints", too_many().steps, PROFILE),
    Row("lines alone", lines_alone().steps, PROFILE),
    Row("lines beside breakpoints", lines_beside_breakpoints().steps, PROFILE),
    Row("breakpoints at lines without code", lines_without_code().steps, PROFILE),
    Row("lines that count from 0", lines_from_0().steps, PROFILE),
    Row("a column and a mode", a_column_and_a_mode().steps, PROFILE),
    Row("breakpoints of another program", another_program().steps, PROFILE),
    Row("breakpoints of a program that has ended", of_an_ended_program().steps, PROFILE),
    Row("breakpoints of a program that was ended before it ran", of_a_program_that_was_ended_early().steps, PROFILE),
    Row("breakpoints with bad arguments", refused(BAD_ARGUMENTS, breakpoints=[at(2), {"condition": "1"}]).steps, PROFILE),
    Row("breakpoints with a number that came before", refused(REPEATED, seq=2, breakpoints=[]).steps, PROFILE),
    Row("breakpoints before a launch", refused_before_a_launch().steps, PROFILE),
    Row("breakpoints that are cancelled", cancelled().steps, PROFILE),
    Row("numbers of breakpoints rise", numbers_rise().steps, PROFILE),
    Row("the last number of a breakpoint", the_last_number().steps, PROFILE),
    Row("after the last number of a breakpoint", after_the_last_number().steps, PROFILE),
    Row("breakpoints go with the connection", gone_with_a_drop().steps, PROFILE),
    Row("breakpoints go with a disconnect", gone_with_a_disconnect().steps, PROFILE),
    Row("breakpoints go before the entry was looked at", gone_at_the_entry().steps, PROFILE),
    Row("breakpoints where events found no memory and are given again", anew().steps, PROFILE, refused=True),
    *(without_memory(name, session) for name, session in FOUND_NONE),
]
