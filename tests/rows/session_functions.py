"""Function breakpoints in a session: an editor sets them by the names of labels, they stop the program, and other lists take their place."""
from rows.session_breaks import ADDITION, TOO_MANY, at_instructions, at_lines, back
from rows.session_runs import GREATEST, GREATEST_RETIRED, STEP, limited
from support.breaks import ADDRESS, CONDITION, FUNCTION, HIT, MOST, at, body_of, is_not, is_set, named, on
from support.debugging import (BAD_ARGUMENTS, EXHAUSTED, INITIALIZED, PATH, TOO_MUCH, WAS_CANCELLED, WRONG_PHASE, debugging, exits, launched,
                               printed, stopped)
from support.players import Row
from support.programs import CALLS, CIRCLES, COUNTS, PRINTS, RECURS

PLAYER = "test_session"
PROFILE = "docs/PROTOCOL.md, \"Breakpoints\", and docs/MACHINE.md, \"Breakpoints\", worked by hand"

# A label on data that is no multiple of 4, one on data that is, and one at the end of the program.
DATA = b"_start: li a0, 1\ne: j e\n.byte 1\nb: .byte 2\n.align 2\nw: .word 3\nlast:\n"
# The label f lies elsewhere than in CALLS.
MOVED = b"f: addi a0, a0, 1\nret\n_start: li a0, 5\ncall f\nli a7, 93\necall\n"


def at_functions(*ids):
    """The stop at these breakpoints, all of them of functions."""
    return stopped("function breakpoint", ids=ids)


def calling(asked, entries, *new):
    """COUNTS, which calls f in each round, with these breakpoints, before its first instruction."""
    return launched(COUNTS, *new).sets_at_functions(asked, entries).asks("configurationDone")


def f(number):
    return is_set(number, ADDITION)


def each_call():
    script = calling([named("f"), named("g")], [f(1), is_not(FUNCTION)]).slices(99, 2, "Stopped", at_functions(1))
    assert b'{"breakpoints":[{"id":1,"instructionReference":"0x0001000c","verified":true},' \
           b'{"message":"unknown function","verified":false}]},"command":"setFunctionBreakpoints"' in script.taken
    assert b'{"allThreadsStopped":true,"hitBreakpointIds":[1],"reason":"function breakpoint","threadId":1}' in script.taken
    return script.slices(99, 0, "Idle").asks("continue").slices(99, 5, "Stopped", at_functions(1))


def with_conditions():
    script = calling([named("f", "a0 == 3"), named("f", None, "3"), named("f", "a0 & 1", "2")], [f(1), f(2), f(3)])
    script.slices(99, 12, "Stopped", at_functions(2)).asks("continue").slices(99, 5, "Stopped", at_functions(1, 2, 3))
    return script.asks("restart").slices(99, 12, "Stopped", at_functions(2))


def judged():
    """Conditions are looked at before the name, and the name before the address."""
    return launched(DATA).sets_at_functions(
        [named("g", "("), named("g", None, "0"), named("g", "(", "0"), named("b", None, "x"), named("g"), named(""), named("b"), named("w"),
         named("last"), named("_start"), named("E"), named("e:"), named("  e "), named("\te"), named("e", "", " ")],
        [is_not(CONDITION), is_not(HIT), is_not(CONDITION), is_not(HIT), is_not(FUNCTION), is_not(FUNCTION), is_not(ADDRESS),
         is_set(1, 0x1000c), is_set(2, 0x10010), is_set(3, 0x10000), is_not(FUNCTION), is_not(FUNCTION), is_set(4, 0x10004),
         is_not(FUNCTION), is_set(5, 0x10004)]).asks("configurationDone").slices(9, 0, "Stopped", at_functions(3)).asks(
             "continue").slices(9, 1, "Stopped", at_functions(4, 5))


def outside_memory():
    """The end of a program that fills memory is no address of an instruction."""
    script = launched(b"e: j e\n.space 4088\nlast: nop\nend:\n", 4096, GREATEST, GREATEST, GREATEST_RETIRED)
    return script.sets_at_functions([named("last"), named("end")], [is_set(1, 0x10ffc), is_not(ADDRESS)])


def at_the_entry():
    script = launched(CALLS).sets_at_functions([named("_start")], [is_set(1, 0x10000)]).asks("configurationDone")
    script.slices(99, 0, "Stopped", at_functions(1)).asks("continue").slices(3, 3, "Spent").asks("restart")
    return script.slices(99, 0, "Stopped", at_functions(1)).asks("continue").slices(99, 6, "Ended", *exits(6))


def three_kinds():
    """Where breakpoints of several kinds stop the program, those of lines are named first and those of functions last, and the first is the reason."""
    script = launched(COUNTS).sets_at_functions([named("f")], [f(1)]).sets_at_instructions([on("0x0001000c")], [f(2)])
    script.sets([at(3)], [is_set(3, ADDITION, 3)]).asks("configurationDone").slices(99, 2, "Stopped", at_lines(3, 2, 1))
    script.sets([], []).asks("continue").slices(99, 5, "Stopped", at_instructions(2, 1)).sets_at_instructions([], []).asks("continue")
    script.slices(99, 5, "Stopped", at_functions(1)).sets([at(3, None, "2")], [is_set(4, ADDITION, 3)])
    script.sets_at_instructions([on("0x0001000c", None, "0")], [f(5)]).asks("continue").slices(99, 5, "Stopped", at_functions(1))
    return script.asks("continue").slices(99, 5, "Stopped", at_lines(4, 1))


def in_a_step():
    """A function breakpoint comes before the goal of a step, also where both are."""
    script = launched(CALLS, stopOnEntry=True).sets_at_functions([named("f")], [is_set(1, 0x10014)]).asks("configurationDone")
    script.slices(9, 0, "Stopped", stopped("entry")).asks("next").slices(9, 1, "Stopped", STEP).asks("stepIn")
    script.slices(9, 2, "Stopped", at_functions(1)).asks("restart").slices(9, 0, "Stopped", stopped("entry")).asks("next")
    script.slices(9, 1, "Stopped", STEP).asks("next").slices(9, 2, "Stopped", at_functions(1)).sets_at_functions([], [])
    return script.asks("stepOut").slices(9, 2, "Stopped", STEP)


def after_an_ebreak():
    """EBREAK retires: the breakpoint after it is named, and the reason stays."""
    script = launched(PRINTS).sets_at_functions([named("e")], [is_set(1, 0x10010)]).asks("configurationDone")
    script.slices(9, 4, "Stopped", printed(7), stopped("breakpoint", ids=[1]))
    return script.asks("continue").slices(9, 1, "Stopped", at_functions(1))


def in_a_recursion():
    script = launched(RECURS).sets_at_functions([named("g", None, "2")], [is_set(1, 0x10014)]).asks("configurationDone")
    return script.slices(99, 9, "Stopped", at_functions(1)).asks("continue").slices(99, 6, "Stopped", at_functions(1))


def replaced():
    """Each list of functions takes the place of the one before, and no other list's; hits of the others stay."""
    script = launched(COUNTS).sets([at(2, None, "3")], [back(1)]).sets_at_functions([named("f", None, "2")], [f(2)]).asks("configurationDone")
    script.slices(99, 7, "Stopped", at_functions(2)).sets_at_functions([named("g")], [is_not(FUNCTION)]).asks("continue")
    script.slices(99, 7, "Stopped", at_lines(1)).sets_at_functions([named("f")], [f(3)]).sets([], []).asks("continue")
    script.slices(99, 3, "Stopped", at_functions(3)).sets_at_functions([], []).asks("continue")
    return script.slices(99, 99, "Spent")


def while_it_runs():
    script = debugging(CIRCLES).slices(99, 99, "Spent").sets_at_functions([named("e")], [is_set(1, 0x10000)]).runs(True)
    return script.slices(99, 1, "Stopped", at_functions(1)).asks("continue").sets_at_functions([], []).slices(99, 99, "Spent")


def where_the_label_is_now():
    """A name is looked up in the program that was launched last."""
    script = launched(CALLS).sets_at_functions([named("f")], [is_set(1, 0x10014)]).drops().connects().asks("initialize")
    script.asks("launch", file=MOVED, events=[INITIALIZED], program=PATH).sets_at_functions([named("f")], [is_set(2, 0x10000)])
    return script.asks("configurationDone").slices(99, 3, "Stopped", at_functions(2))


def refused(refusal, **request):
    """A request that is refused sets nothing and takes no numbers."""
    script = calling([named("f")], [f(1)]).asks("setFunctionBreakpoints", refusal, **request)
    return script.slices(99, 2, "Stopped", at_functions(1)).sets_at_functions([named("f")], [f(2)])


def in_other_phases():
    script = debugging(COUNTS).drops().connects().asks("setFunctionBreakpoints", WRONG_PHASE, breakpoints=[])
    script.asks("initialize").asks("setFunctionBreakpoints", WRONG_PHASE, breakpoints=[named("f")])
    return script.launches(COUNTS).sets_at_functions([named("f")], [f(1)])


def cancelled():
    script = calling([named("f")], [f(1)]).sends("setFunctionBreakpoints", breakpoints=[])
    number = script.asked
    script.sends("cancel", requestId=number).answers("setFunctionBreakpoints", WAS_CANCELLED, seq=number).answers("cancel").takes()
    return script.slices(99, 2, "Stopped", at_functions(1))


def many():
    """As many as may be asked for, of all kinds, are all named."""
    script = launched(COUNTS).sends("setFunctionBreakpoints", breakpoints=MOST * [named("f")])
    script.answers("setFunctionBreakpoints", body=body_of([f(number) for number in range(1, MOST + 1)])).takes()
    script.sets_at_instructions(MOST * [on("0x0001000c")], [f(number) for number in range(MOST + 1, 2 * MOST + 1)])
    script.sets(MOST * [at(3)], [is_set(number, ADDITION, 3) for number in range(2 * MOST + 1, 3 * MOST + 1)]).asks("configurationDone")
    ids = [*range(2 * MOST + 1, 3 * MOST + 1), *range(MOST + 1, 2 * MOST + 1), *range(1, MOST + 1)]
    return script.slices(99, 2, "Stopped", at_lines(*ids)).asks("continue").slices(99, 5, "Stopped", at_lines(*ids))


def the_last_number():
    script = launched(COUNTS, *limited(ref=2)).sets_at_functions([named("f"), named("g")], [f(1), is_not(FUNCTION)])
    script.asks("setFunctionBreakpoints", EXHAUSTED, breakpoints=2 * [named("f")]).sets_at_functions([named("f")], [f(2)])
    script.asks("setFunctionBreakpoints", EXHAUSTED, breakpoints=[named("f")]).asks("configurationDone")
    return script.slices(99, 2, "Stopped", at_functions(2)).sets_at_functions([named("g")], [is_not(FUNCTION)])


def gone_with_a_drop():
    script = calling([named("f")], [f(1)]).slices(99, 2, "Stopped", at_functions(1)).asks("continue").drops().slices(99, 99, "Spent")
    return script.connects().asks("initialize").launches(COUNTS).asks("configurationDone").slices(99, 99, "Spent")


def anew():
    """Function breakpoints in little memory, from the first to the end of the program."""
    script = launched(CALLS, 4096, GREATEST, GREATEST, GREATEST_RETIRED)
    script.sets_at_functions([named("f", "a0 == 5", "1"), named("g")], [is_set(1, 0x10014), is_not(FUNCTION)])
    script.asks("configurationDone").slices(9, 3, "Stopped", at_functions(1)).sets_at_functions([named("_start")], [is_set(2, 0x10000)])
    script.asks("restart").slices(9, 0, "Stopped", at_functions(2)).sets_at_functions([], [])
    return script.asks("continue").slices(9, 6, "Ended", *exits(6)).asks("disconnect").does("finished", "true")


ROWS = [
    Row("a function breakpoint stops the program at each call", each_call().steps, PROFILE),
    Row("function breakpoints with conditions", with_conditions().steps, PROFILE),
    Row("why a function breakpoint is not set", judged().steps, PROFILE),
    Row("functions outside memory", outside_memory().steps, PROFILE),
    Row("a function breakpoint at the entry", at_the_entry().steps, PROFILE),
    Row("breakpoints of three kinds at one address", three_kinds().steps, PROFILE),
    Row("function breakpoints in steps", in_a_step().steps, PROFILE),
    Row("a function breakpoint after an EBREAK", after_an_ebreak().steps, PROFILE),
    Row("a function breakpoint in a recursion", in_a_recursion().steps, PROFILE),
    Row("function breakpoints are replaced", replaced().steps, PROFILE),
    Row("function breakpoints of a program that runs", while_it_runs().steps, PROFILE),
    Row("a function is where its label is now", where_the_label_is_now().steps, PROFILE),
    Row("1,025 function breakpoints", refused(TOO_MUCH, breakpoints=TOO_MANY * [named("g")]).steps, PROFILE),
    Row("function breakpoints without a name", refused(BAD_ARGUMENTS, breakpoints=[named("f"), {"condition": "1"}]).steps, PROFILE),
    Row("function breakpoints without a list", refused(BAD_ARGUMENTS).steps, PROFILE),
    Row("function breakpoints in other phases", in_other_phases().steps, PROFILE),
    Row("function breakpoints that are cancelled", cancelled().steps, PROFILE),
    Row("1,024 breakpoints of three kinds", many().steps, PROFILE),
    Row("the last number of a function breakpoint", the_last_number().steps, PROFILE),
    Row("function breakpoints go with the connection", gone_with_a_drop().steps, PROFILE),
    Row("function breakpoints where events found no memory and are given again", anew().steps, PROFILE, refused=True),
]
