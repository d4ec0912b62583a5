"""Logpoints in a session: breakpoints at lines that say something and do not stop the program."""
from rows.session_breaks import OTHER, TOO_MANY, at_instructions, at_lines, back
from rows.session_functions import at_functions, f
from rows.session_runs import EBREAK, ENTRY, GREATEST, GREATEST_RETIRED, PAUSE, PRINTS_ON, STEP, in_slices, limited, without_memory
from support.breaks import CONDITION, FUNCTION, LONGEST_LOG, MOST, NO_CODE, UNKNOWN, at, body_of, is_not, is_set, named, on
from support.debugging import PATH, TOO_MUCH, exits, launched, logged, printed, stopped, success_text
from support.players import Row
from support.programs import CALLS, CIRCLES, COUNTS, PRINTS

PLAYER = "test_session"
PROFILE = "docs/PROTOCOL.md, \"Breakpoints\", and docs/MACHINE.md, \"Breakpoints\", worked by hand"

# An illegal instruction after one that is none.
TRAPS = b"nop\n.word 0\n"


def at_the_return(*asked):
    """COUNTS with these breakpoints after its call, before its first instruction: in round K a0 is K there, after 5 K - 1 instructions."""
    return launched(COUNTS).sets(asked, [back(number) for number in range(1, len(asked) + 1)]).asks("configurationDone")


def beside_a_function():
    """In COUNTS f is called after 2 instructions and after 7, and the log comes between, with its braces as they stand."""
    script = launched(COUNTS).sets_at_functions([named("f", None, "2"), named("g")], [f(1), is_not(FUNCTION)])
    script.sets([at(2, log="back {a0}")], [back(2)]).asks("configurationDone").slices(100, 7, "Stopped", logged("back {a0}"), at_functions(1))
    assert b'{"body":{"category":"console","output":"back {a0}\\n"},"event":"output","seq":7,"type":"event"}' in script.taken
    assert script.taken.endswith(b'{"body":{"allThreadsStopped":true,"hitBreakpointIds":[1],"reason":"function breakpoint","threadId":1},'
                                 b'"event":"stopped","seq":8,"type":"event"}')
    return script


def each_round():
    """It never stops the program, however long that runs."""
    return at_the_return(at(2, log="back")).slices(30, 30, "Spent", *6 * [logged("back")]).slices(3, 3, "Spent").slices(
        1, 1, "Spent", logged("back")).asks("pause").slices(9, 0, "Stopped", PAUSE)


def counted():
    """Its hits count like those of another: it says something from its number on, where its condition is met."""
    script = at_the_return(at(2, None, "3", "third"), at(2, "a0 & 1", None, "odd"), at(2, "a0 & 1", "2", "odd again"), at(2, "0", None, "never"))
    script.slices(5, 5, "Spent", logged("odd")).slices(5, 5, "Spent").slices(5, 5, "Spent", logged("third"), logged("odd"), logged("odd again"))
    script.slices(5, 5, "Spent", logged("third")).asks("restart").slices(10, 10, "Spent", logged("odd"))
    return script.slices(5, 5, "Spent", logged("third"), logged("odd"), logged("odd again"))


def between_a_number_and_a_stop():
    """What was printed is told first, then each log in the order of the list, and then the stop, which names no logpoint."""
    script = launched(PRINTS).sets([at(4, log="one"), at(4, None, "1"), at(4, log="two"), at(5, log="three")],
                                   [is_set(1, 0x1000c, 4), is_set(2, 0x1000c, 4), is_set(3, 0x1000c, 4), is_set(4, 0x10010, 5)])
    script.sets_at_instructions([on("0x0001000c")], [is_set(5, 0x1000c)]).asks("configurationDone")
    script.slices(9, 3, "Stopped", printed(7), logged("one"), logged("two"), at_lines(2, 5)).asks("continue")
    return script.slices(9, 1, "Stopped", logged("three"), EBREAK).asks("continue").slices(2, 2, "Spent", logged("three"), logged("three"))


def between_numbers():
    """The output of a program that prints on, and what a logpoint after each says."""
    script = launched(PRINTS_ON).sets([at(4, log="told")], [is_set(1, 0x1000c, 4)]).asks("configurationDone")
    return script.slices(6, 6, "Spent", *2 * [printed(7), logged("told")])


def at_the_entry():
    script = launched(CALLS).sets([at(1, log="begins"), at(1, None, "2", "never")], [is_set(1, 0x10000, 1), is_set(2, 0x10000, 1)])
    script.asks("configurationDone").slices(0, 0, "Spent", logged("begins")).slices(3, 3, "Spent")
    return script.asks("restart").slices(9, 6, "Ended", logged("begins"), *exits(6))


def hidden_at_the_entry():
    """A program that stops at its entry has not looked at its breakpoints."""
    script = launched(CALLS, stopOnEntry=True).sets([at(1, log="never")], [is_set(1, 0x10000, 1)]).asks("configurationDone")
    return script.slices(9, 0, "Stopped", ENTRY).asks("continue").slices(9, 6, "Ended", *exits(6))


def full_at_the_entry():
    """Logs of the entry that are more than may wait: the slice ends before the first move, and the next request waits."""
    count, text = 65, LONGEST_LOG * "x"
    script = launched(CALLS).sets(count * [at(1, log=text)], [is_set(number, 0x10000, 1) for number in range(1, count + 1)])
    script.asks("configurationDone").does("slice 9", "0 Full").tells(*count * [logged(text)])
    assert len(script.waiting) > 65536
    return script.sends("threads").does("turn", "Full").takes().answers("threads").takes().slices(9, 6, "Ended", *exits(6))


def in_a_step():
    """A step goes on past it to its goal, also where both are at one address."""
    script = launched(CALLS, stopOnEntry=True).sets([at(2, log="call"), at(5, log="in")], [is_set(1, 0x10004, 2), is_set(2, 0x10014, 5)])
    script.asks("configurationDone").slices(9, 0, "Stopped", ENTRY).asks("next").slices(9, 1, "Stopped", logged("call"), STEP)
    script.asks("next").slices(9, 4, "Stopped", logged("in"), STEP).asks("restart").slices(9, 0, "Stopped", ENTRY)
    return script.asks("stepIn").slices(9, 1, "Stopped", logged("call"), STEP).asks("stepIn").slices(9, 2, "Stopped", logged("in"), STEP)


def before_what_stays():
    """What neither retires nor goes on is met after the log: a trap, and an exit."""
    script = launched(TRAPS).sets([at(1, log="first")], [is_set(1, 0x10000, 1)]).asks("configurationDone")
    script.slices(9, 1, "Stopped", logged("first"), stopped("exception", "illegal instruction"))
    script.drops().connects().asks("initialize").launches(CALLS).sets([at(4, log="exits")], [is_set(2, 0x10010, 4)])
    return script.asks("configurationDone").slices(9, 6, "Ended", logged("exits"), *exits(6))


def of_every_text():
    """An empty text is none, and a blank one is said as it stands; what is not ASCII is counted in bytes."""
    longest = LONGEST_LOG // 2 * "\u00e9"
    script = launched(COUNTS).sets([at(2, log=""), at(2, log=" "), at(2, log="{a0} {{}} \u00fc"), at(2, log=longest)],
                                   [back(number) for number in (1, 2, 3, 4)]).asks("configurationDone")
    return script.slices(99, 4, "Stopped", logged(" "), logged("{a0} {{}} \u00fc"), logged(longest), at_lines(1))


def escaped():
    script = launched(COUNTS).sets([at(2, log='a "b"\\\n\tc')], [back(1)]).asks("configurationDone")
    return script.slices(4, 4, "Spent", logged('a \\"b\\"\\\\\\n\\tc'))


def too_long(path, *more):
    """One byte more than may be is refused, whatever its source is and however many others there are; it sets nothing and takes no number."""
    script = at_the_return(at(2, log="back"))
    script.asks("setBreakpoints", TOO_MUCH, source={"path": path}, breakpoints=[*more, at(9, "(", log=(LONGEST_LOG + 1) * "x")])
    script.asks("setBreakpoints", TOO_MUCH, source={"path": path}, breakpoints=[at(2, log=LONGEST_LOG // 2 * "\u00e9" + "x"), *more])
    return script.slices(4, 4, "Spent", logged("back")).sets([at(2)], [back(2)])


def not_set():
    """A logpoint that cannot be set says nothing; one of another source sets none."""
    script = at_the_return(at(2, log="back")).sets([at(9, log="x"), at(2, "(", log="x")], [is_not(UNKNOWN, 9), is_not(UNKNOWN, 2)], path=OTHER)
    script.slices(4, 4, "Spent", logged("back")).sets([at(9, log="x"), at(2, "(", log="x")], [is_not(NO_CODE, 9), is_not(CONDITION, 2)])
    return script.slices(99, 99, "Spent")


def of_lines_alone():
    """A log message stands at a breakpoint of a line: those of instructions and of functions have none."""
    script = launched(COUNTS).sets_at_instructions([{**on("0x00010008"), "logMessage": "x"}], [is_set(1, 0x10008)])
    script.sets_at_functions([{**named("f"), "logMessage": "x"}], [f(2)]).asks("configurationDone")
    return script.slices(99, 2, "Stopped", at_functions(2)).asks("continue").slices(99, 2, "Stopped", at_instructions(1))


def replaced():
    """A list takes its place, and its hits begin anew."""
    script = at_the_return(at(2, None, "2", "a")).slices(9, 9, "Spent", logged("a")).sets([at(2, None, "2", "b")], [back(2)])
    script.slices(5, 5, "Spent").slices(5, 5, "Spent", logged("b")).sets([at(2)], [back(3)]).slices(99, 5, "Stopped", at_lines(3))
    return script.sets([], []).asks("continue").slices(99, 99, "Spent")


def gone_with_a_drop():
    return at_the_return(at(2, log="back")).slices(4, 4, "Spent", logged("back")).drops().slices(99, 99, "Spent")


def conversation(most):
    """Logs between numbers and stops, so many moves at a time."""
    script = launched(PRINTS_ON).sets([at(4, None, "2", "told"), at(3, "a0 == 7", "4", "again")], [is_set(1, 0x1000c, 4), is_set(2, 0x10008, 3)])
    script.sets_at_instructions([on("0x0001000c", None, None, "4")], [is_set(3, 0x1000c)]).asks("configurationDone")
    told = {3: [printed(7)], 5: [printed(7), logged("told")], 7: [printed(7), logged("told")], 8: [logged("again")],
            9: [printed(7), logged("told"), at_instructions(3)]}
    in_slices(script, most, 9, "Stopped", told)
    return script.asks("disconnect")


def slices_of_each_size():
    scripts = {most: conversation(most) for most in (1, 2, 7, 100000)}
    assert len({script.taken for script in scripts.values()}) == 1
    for most, script in scripts.items():
        yield Row("logpoints, %d moves at a time" % most, script.steps, PROFILE)


def many():
    """As many as may be asked for speak at once."""
    script = launched(CIRCLES).sets(MOST * [at(1, None, "2", "x")], [is_set(number, 0x10000, 1) for number in range(1, MOST + 1)])
    script.asks("configurationDone").does("slice 9", "1 Full").tells(*MOST * [logged("x")])
    return script.takes().does("slice 1", "1 Full").tells(*MOST * [logged("x")]).takes()


def the_last_numbers():
    """Where few numbers of messages are left, the logs that get none are not sent."""
    script = launched(COUNTS, *limited(seq=6)).sets([at(2, log="a"), at(2, log="b")], [back(1), back(2)]).asks("configurationDone")
    return script.slices(9, 9, "Spent", logged("a"))


# ---- events that find no memory


def anew():
    """Logpoints in little memory, from the first to the end of the program."""
    script = launched(CALLS, 4096, GREATEST, GREATEST, GREATEST_RETIRED)
    script.sets([at(1, log="begins"), at(5, "a0 == 5", "1", "in {a0}"), at(9, log="x")],
                [is_set(1, 0x10000, 1), is_set(2, 0x10014, 5), is_not(NO_CODE, 9)])
    script.asks("configurationDone").slices(9, 6, "Ended", logged("begins"), logged("in {a0}"), *exits(6))
    return script.asks("disconnect").does("finished", "true")


def told_by_a_slice(found):
    """The move is not made again; its logs are told once, before the stop."""
    script = launched(PRINTS).sets([at(4, log="one"), at(4), at(4, log="two")], [is_set(number, 0x1000c, 4) for number in (1, 2, 3)])
    script.asks("configurationDone").does("slice_once 9", "3 %s" % ("Stopped" if found else "NoMemory")).runs(not found)
    script.does("slice_once 9", "0 Idle" if found else "0 Stopped").tells(printed(7), logged("one"), logged("two"), at_lines(2)).takes()
    return script.runs(False)


def told_by_a_turn(found):
    """Logs that are owed are told before a request is answered, which takes the logpoints away."""
    script = at_the_return(at(2, log="back")).does("slice_once 4", "4 %s" % ("Spent" if found else "NoMemory"))
    script.sends("setBreakpoints", source={"path": PATH}, breakpoints=[])
    script.does("turn", "Answered").does("pending", "0" if found else "1").does("turn", "Nothing" if found else "Answered")
    script.tells(logged("back")).queues(lambda seq: success_text("setBreakpoints", script.asked, seq, body_of([]))).takes()
    return script.slices(99, 99, "Spent")


def gone_with_a_drop_that_owes(found):
    """Logs that are owed go with the editor."""
    script = at_the_return(at(2, log="back")).does("slice_once 4", "4 %s" % ("Spent" if found else "NoMemory")).drops().runs(True)
    return script.slices(99, 99, "Spent").connects().does("waiting", "").does("turn", "Nothing")


FOUND_NONE = [
    ("a slice tells the logs that are owed", told_by_a_slice),
    ("a turn tells the logs that are owed", told_by_a_turn),
    ("a drop forgets the logs that are owed", gone_with_a_drop_that_owes),
]

ROWS = [
    Row("a logpoint, and a function breakpoint after it", beside_a_function().steps, PROFILE),
    Row("a logpoint does not stop the program", each_round().steps, PROFILE),
    Row("logpoints count their hits", counted().steps, PROFILE),
    Row("logs between a number and a stop", between_a_number_and_a_stop().steps, PROFILE),
    Row("logs between numbers", between_numbers().steps, PROFILE),
    Row("a logpoint at the entry", at_the_entry().steps, PROFILE),
    Row("a stop at the entry hides the logpoint there", hidden_at_the_entry().steps, PROFILE),
    Row("logs at the entry that are more than may wait", full_at_the_entry().steps, PROFILE),
    Row("logpoints in steps", in_a_step().steps, PROFILE),
    Row("logs before a trap and before an exit", before_what_stays().steps, PROFILE),
    Row("texts of logpoints", of_every_text().steps, PROFILE),
    Row("a text with characters that JSON escapes", escaped().steps, PROFILE),
    Row("a text that is too long", too_long(PATH).steps, PROFILE),
    Row("a text that is too long, for another source", too_long(OTHER).steps, PROFILE),
    Row("a text that is too long, among as many others as may be", too_long(PATH, *(MOST - 1) * [at(2)]).steps, PROFILE),
    Row("a text that is too long, among too many others", too_long(PATH, *TOO_MANY * [at(2)]).steps, PROFILE),
    Row("logpoints that are not set", not_set().steps, PROFILE),
    Row("log messages of other breakpoints", of_lines_alone().steps, PROFILE),
    Row("logpoints are replaced", replaced().steps, PROFILE),
    Row("logpoints go with the connection", gone_with_a_drop().steps, PROFILE),
    *slices_of_each_size(),
    Row("1,024 logpoints speak at once", many().steps, PROFILE),
    Row("logs after the last number of a message", the_last_numbers().steps, PROFILE),
    Row("logpoints where events found no memory and are given again", anew().steps, PROFILE, refused=True),
    *(without_memory(name, session) for name, session in FOUND_NONE),
]
