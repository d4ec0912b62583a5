"""The numbers of frames and scopes: who gets one, in which order, how long it is good, and when there is no further one."""
from rows.session_breaks import at_lines, back
from rows.session_runs import ENTRY, GREATEST, PAUSE, STEP, limited, without_memory
from support.breaks import at, body_of, is_set, on
from support.debugging import (BAD_ARGUMENTS, ENDED, EXHAUSTED, NO_THREAD, NOT_STOPPED, REPEATED, TERMINATED, WAS_CANCELLED, WRONG_PHASE,
                               exits, stopped, success_text)
from support.looks import (BAD_EXPRESSION, BASE, CONTINUED, END, NOT_WRITABLE, STALE, UNKNOWN_NAME, UNKNOWN_REFERENCE, frame_at, frames,
                           loaded, looking, registers, stack)
from support.players import Row
from support.programs import CALLS, CIRCLES, COUNTS

PLAYER = "test_session"
PROFILE = "docs/PROTOCOL.md, worked by hand"

# The first instruction of CALLS, and the two frames where it stands in its function.
START = (BASE, "_start", 1)
INNER, OUTER = (0x10014, "f", 5), (0x10008, "_start+8", 2)


def at_entry(file=CALLS, *new, **arguments):
    return looking(file, *new, stopOnEntry=True, **arguments).slices(9, 0, "Stopped", ENTRY)


def known(*new):
    """The program stands at its entry. Its frame has the number 1, its registers 2, and its stack 3."""
    return at_entry(CALLS, *new).trace([frame_at(1, *START)]).scopes(1, 2, 3)


def in_a_circle(*new):
    """The same of a program that is one jump, to itself."""
    return at_entry(CIRCLES, *new).trace([frame_at(1, BASE, "e", 1)]).scopes(1, 2, 3)


def in_a_function(*new):
    """CALLS stands in its function, and nothing has a number."""
    script = loaded(CALLS, *new).sets([at(5)], [is_set(1, 0x10014, 5)]).asks("configurationDone")
    return script.slices(9, 3, "Stopped", at_lines(1))


def each_with(script, refusal, *numbers):
    """Each request that takes a number refuses each of these so."""
    for number in numbers:
        script.asks("scopes", refusal, frameId=number).asks("variables", refusal, variablesReference=number)
        script.asks("setVariable", refusal, variablesReference=number, name="a0", value="1")
        script.asks("evaluate", refusal, expression="a0", frameId=number)
    return script


# ---- within a stop


def one_number():
    """Whatever is asked for again has the number that it had."""
    script = in_a_function().trace([frame_at(1, *INNER), frame_at(2, *OUTER)]).scopes(1, 3, 4).scopes(1, 3, 4).scopes(2)
    script.trace([frame_at(1, *INNER), frame_at(2, *OUTER)]).trace([frame_at(2, *OUTER)], 2, startFrame=1).scopes(1, 3, 4)
    script.lists(3, registers(0x10014, ra=0x1000c, a0=5)).lists(4, [])
    return script.asks("stepIn").slices(9, 1, "Stopped", STEP).trace([frame_at(5, 0x10018, "f+4", 6), frame_at(6, *OUTER)]).scopes(5, 7, 8)


def of_the_wrong_kind():
    """A number of a frame is none of a scope, and a number of a scope is none of a frame; one that was never given is neither."""
    script = in_a_function().trace([frame_at(1, *INNER), frame_at(2, *OUTER)]).scopes(1, 3, 4)
    for number in (1, 2, 5, 0, -1, GREATEST, -GREATEST - 1):
        script.asks("variables", UNKNOWN_REFERENCE, variablesReference=number)
        script.asks("setVariable", UNKNOWN_REFERENCE, variablesReference=number, name="q", value="z")
    for number in (3, 4, 5, 0, -1, GREATEST, -GREATEST - 1):
        script.asks("scopes", UNKNOWN_REFERENCE, frameId=number).asks("evaluate", UNKNOWN_REFERENCE, expression="1 +", frameId=number)
    return script.lists(3, registers(0x10014, ra=0x1000c, a0=5)).scopes(2)


def of_no_stop():
    """A number that was not given yet is unknown, and is given later."""
    script = each_with(at_entry(), UNKNOWN_REFERENCE, 1, 2, 3).trace([frame_at(1, *START)])
    return script.asks("variables", UNKNOWN_REFERENCE, variablesReference=2).scopes(1, 2, 3).lists(3, [])


def kept():
    """What does not let the program go on leaves the numbers as they are: looks, changes, breakpoints, a pause, what is refused or cancelled."""
    script = known().sets([at(5)], [is_set(1, 0x10014, 5)]).asks("pause").slices(9, 0, "Idle").does("hold", "ok").asks("threads").scopes(1, 2, 3)
    script.sets_at_instructions([on("65536")], [is_set(2, BASE)]).asks("setExceptionBreakpoints", filters=[]).asks("cancel")
    script.sets_variable(2, "sp", str(END - 8), END - 8).writes("0x0010fff8", b"\1\2\3\4", 4).lists(3, stack(0x04030201, 0)).evaluates("a0", 0)
    script.asks("continue", NO_THREAD, threadId=2).asks("next", BAD_ARGUMENTS, threadId=1, granularity="word").asks("stepIn", REPEATED, seq=1)
    script.asks("attach", WRONG_PHASE).asks("launch", WRONG_PHASE, program="/w/q.s").asks("configurationDone", WRONG_PHASE)
    script.sends("continue").sends("cancel", requestId=script.asked).answers("continue", WAS_CANCELLED, seq=script.asked - 1).answers("cancel")
    script.takes().runs(False)
    return script.scopes(1, 2, 3).lists(2, registers(BASE, END - 8)).trace([frame_at(1, *START)])


# ---- until the program goes on

# What lets a program go on, so many moves, and the stop that follows; a pause, where that is told to stop it.
RESUMES = [
    ("continue", 0, PAUSE), ("continue", 5, PAUSE), ("next", 1, STEP), ("stepIn", 1, STEP), ("stepOut", 0, PAUSE), ("stepOut", 9, PAUSE),
    ("restart", 0, ENTRY),
]


def ended_by(command, moves, stop):
    """While the program goes on no number is looked at; in its next stop the numbers of the one before are stale, and others are given."""
    script = each_with(in_a_circle().asks(command), NOT_STOPPED, 1, 2, 99).asks("stackTrace", NOT_STOPPED, threadId=1)
    if stop is PAUSE:
        script.slices(moves, moves, "Spent").asks("pause").slices(moves, 0, "Stopped", stop)
    else:
        script.slices(9, moves, "Stopped", stop)
    each_with(each_with(script, STALE, 1, 2, 3), UNKNOWN_REFERENCE, 4, 5, 6, 0)
    script.trace([frame_at(4, BASE, "e", 1)]).scopes(4, 5, 6)
    each_with(script, STALE, 1, 2, 3)
    return each_with(script.scopes(4, 5, 6).lists(6, []), UNKNOWN_REFERENCE, 7, 99)


def in_one_piece():
    """A step, and a look that comes with it: the look is refused, as the program goes on. Then what was given before is stale."""
    script = known().sends("stepIn", seq=7, threadId=1).sends("variables", variablesReference=2)
    script.answers("stepIn", seq=7).answers("variables", NOT_STOPPED).takes()
    assert b'"message":"notStopped","request_seq":8,"seq":9,' in script.taken
    script.slices(9, 1, "Stopped", STEP).asks("variables", STALE, variablesReference=2).asks("variables", UNKNOWN_REFERENCE, variablesReference=99)
    script.asks("scopes", STALE, frameId=1).trace([frame_at(4, 0x10004, "_start+4", 2)])
    return script.asks("variables", UNKNOWN_REFERENCE, variablesReference=4)


def a_repeat_in_a_stop():
    """A request with a number that came before changes nothing; and cancels, as they reach a request that waits or come too late."""
    script = at_entry().reads("0x00010000", 4, BASE, b"\x13\x05\x50\0", seq=5).writes("0x00010000", bytes(4), REPEATED, seq=5)
    script.reads("0x00010000", 4, BASE, b"\x13\x05\x50\0").asks("stackTrace", REPEATED, seq=6, threadId=1)
    script.asks("evaluate", REPEATED, seq=1, expression=1)
    script.sends("writeMemory", seq=8, memoryReference="65536", data="AAAAAA==").sends("cancel", requestId=8)
    script.answers("writeMemory", WAS_CANCELLED, seq=8).answers("cancel").takes().reads("0x00010000", 4, BASE, b"\x13\x05\x50\0")
    script.trace([frame_at(1, *START)]).sends("scopes", frameId=1).sends("cancel", requestId=12).answers("scopes", WAS_CANCELLED, seq=12)
    return script.answers("cancel").takes().asks("variables", UNKNOWN_REFERENCE, variablesReference=2).scopes(1, 2, 3)


def after_many_stops():
    """Every number of an earlier stop is stale, and the next is unknown."""
    script = at_entry(CIRCLES)
    for number in range(1, 1001):
        script.trace([frame_at(number, BASE, "e", 1)]).asks("next").slices(9, 1, "Stopped", STEP)
    each_with(each_with(script, STALE, 1, 2, 100, 999, 1000), UNKNOWN_REFERENCE, 1001, 0)
    return script.trace([frame_at(1001, BASE, "e", 1)]).scopes(1001, 1002, 1003)


def after_stops_without_looks():
    """Numbers are given where somebody looks, and not before."""
    script = known()
    for moves in (1, 2, 1):
        script.asks("stepIn").slices(9, moves, "Stopped", STEP)
    return script.trace([frame_at(4, 0x10018, "f+4", 6), frame_at(5, *OUTER)])


def when_the_program_ends():
    """A program that has ended is not looked into, whatever the number."""
    script = known().asks("continue").slices(9, 6, "Ended", *exits(6))
    each_with(script, ENDED, 1, 2, 99)
    script.asks("stackTrace", ENDED, threadId=2).asks("readMemory", ENDED, memoryReference="x", count=1)
    script.writes("x", b"", ENDED).asks("disassemble", ENDED, memoryReference="x", instructionCount=9999).evaluates("1 +", ENDED)
    return script


# ---- until the editor goes


def gone_with_a_drop():
    """A new editor is given new numbers, and those of the one before are stale, also where the program has not moved."""
    script = known().drops().attaches(ENTRY)
    each_with(each_with(script, STALE, 1, 2, 3), UNKNOWN_REFERENCE, 4)
    return script.trace([frame_at(4, *START)]).scopes(4, 5, 6).drops().attaches(ENTRY).asks("scopes", STALE, frameId=4).trace([frame_at(7, *START)])


def gone_with_a_disconnect():
    script = known().asks("disconnect", terminateDebuggee=False).does("finished", "true").drops().attaches(ENTRY)
    return each_with(each_with(script, STALE, 1, 2, 3), UNKNOWN_REFERENCE, 4).trace([frame_at(4, *START)])


def looks_after_a_disconnect():
    """In one piece with a disconnect, a look is refused, as is any request."""
    script = known().sends("disconnect", terminateDebuggee=False).sends("scopes", frameId=1).sends("evaluate", expression="a0")
    script.answers("disconnect", seq=script.asked - 2).answers("scopes", WRONG_PHASE, seq=script.asked - 1).answers("evaluate", WRONG_PHASE)
    return script.takes().does("finished", "true")


def gone_with_another_program():
    """Numbers go on to rise over all programs and editors."""
    script = known().asks("terminate", events=[TERMINATED]).asks("scopes", ENDED, frameId=1).drops().begins(CIRCLES, stopOnEntry=True)
    script.slices(9, 0, "Stopped", ENTRY)
    return each_with(script, STALE, 1, 2, 3).trace([frame_at(4, BASE, "e", 1)]).scopes(4, 5, 6).asks("scopes", STALE, frameId=1)


def joined_while_it_runs():
    """An editor that joins a program that runs is told so, and what another editor was given is stale."""
    script = loaded(COUNTS).sets([at(2)], [back(1)]).asks("configurationDone").slices(99, 4, "Stopped", at_lines(1))
    script.trace([frame_at(1, 0x10008, "_start+8", 2)]).asks("continue").does("recv " + b"Content-Le".hex(), "ok").drops().slices(100, 100, "Spent")
    taken = len(script.taken)
    script.attaches(CONTINUED)
    assert b'{"allThreadsContinued":true,"threadId":1},"event":"continued","seq":5,' in script.taken[taken:]
    script.asks("pause").slices(9, 0, "Stopped", PAUSE).asks("scopes", STALE, frameId=1).trace([frame_at(2, 0x10008, "_start+8", 2)])
    return script


# ---- the last number


def the_last_number():
    """Scopes that would need a further number are refused, and none of them is given one; what has a number keeps it."""
    script, two = in_a_function(*limited(ref=3)), [frame_at(1, *INNER), frame_at(2, *OUTER)]
    script.trace(two).asks("scopes", EXHAUSTED, frameId=1).scopes(2).trace(two).asks("scopes", EXHAUSTED, frameId=1)
    script.asks("variables", UNKNOWN_REFERENCE, variablesReference=3).evaluates("a0", 5, frameId=2).reads("0x00010000", 1, BASE, b"\x13")
    return script.asks("stepIn").slices(9, 1, "Stopped", STEP).trace([frame_at(3, 0x10018, "f+4", 6)], 2, levels=1)


def the_last_number_of_a_frame():
    """Frames that would need a further number are refused, all of them; fewer are shown."""
    script = in_a_function(*limited(ref=3)).trace([frame_at(1, *OUTER)], 2, startFrame=1).asks("stepIn").slices(9, 1, "Stopped", STEP)
    inner = frame_at(2, 0x10018, "f+4", 6)
    script.trace([inner], 2, levels=1).trace([inner, frame_at(3, *OUTER)]).asks("stepIn").slices(9, 1, "Stopped", STEP)
    script.asks("stackTrace", EXHAUSTED, threadId=1).trace([], 1, startFrame=1).asks("stackTrace", EXHAUSTED, threadId=1, levels=1)
    return script.asks("continue").slices(9, 1, "Ended", *exits(6))


def all_or_none():
    """A look that needs two numbers where there is one is given none, and another has it."""
    script = in_a_function(*limited(ref=2)).trace([frame_at(1, *INNER)], 2, levels=1).asks("scopes", EXHAUSTED, frameId=1)
    script.asks("variables", UNKNOWN_REFERENCE, variablesReference=2).trace([frame_at(1, *INNER), frame_at(2, *OUTER)]).scopes(2)
    script.asks("scopes", EXHAUSTED, frameId=1).asks("stepOut").slices(9, 2, "Stopped", STEP).asks("stackTrace", EXHAUSTED, threadId=1)
    return script.asks("scopes", STALE, frameId=1).asks("scopes", UNKNOWN_REFERENCE, frameId=3).evaluates("a0", 6)


def three_numbers():
    """As many as there are suffice, in whichever order they are asked for."""
    script = known(*limited(ref=3)).trace([frame_at(1, *START)]).scopes(1, 2, 3).lists(3, []).sets_variable(2, "a0", "1", 1)
    script.asks("next").slices(9, 1, "Stopped", STEP).asks("stackTrace", EXHAUSTED, threadId=1)
    return script.drops().attaches(STEP).asks("stackTrace", EXHAUSTED, threadId=1).asks("scopes", STALE, frameId=3)


def breakpoints_count_for_themselves():
    """The last number of a breakpoint leaves those of frames, and these leave it."""
    script = loaded(CALLS, *limited(ref=2)).sets([at(5), at(6)], [is_set(1, 0x10014, 5), is_set(2, 0x10018, 6)]).asks("configurationDone")
    script.slices(9, 3, "Stopped", at_lines(1)).trace([frame_at(1, *INNER), frame_at(2, *OUTER)])
    script.asks("setInstructionBreakpoints", EXHAUSTED, breakpoints=[on("65536")]).scopes(2)
    return script.asks("setInstructionBreakpoints", body=body_of([]), breakpoints=[])


# ---- of two reasons for a refusal the first is answered

# The request, with its arguments, and the refusal. In the stop the frame has the number 4, its registers 5, its stack 6; 1 to 3 are of the
# stop before.
ORDERS = [
    ("a stale number before what is no name", STALE, "setVariable", {"variablesReference": 2, "name": "q", "value": "1"}),
    ("a stale number before what cannot be written", STALE, "setVariable", {"variablesReference": 2, "name": "pc", "value": "1"}),
    ("a stale number before what is no value", STALE, "setVariable", {"variablesReference": 2, "name": "a0", "value": "z"}),
    ("a number of another kind before what is no name", UNKNOWN_REFERENCE, "setVariable", {"variablesReference": 4, "name": "q", "value": "1"}),
    ("what is no name before what is no value", UNKNOWN_NAME, "setVariable", {"variablesReference": 5, "name": "q", "value": "z"}),
    ("what cannot be written before what is no value", NOT_WRITABLE, "setVariable", {"variablesReference": 5, "name": "zero", "value": "z"}),
    ("a stale number before what is no expression", STALE, "evaluate", {"expression": "1 +", "frameId": 1}),
    ("an unknown number before what is no expression", UNKNOWN_REFERENCE, "evaluate", {"expression": "1 +", "frameId": 7}),
    ("bad arguments before a stale number", BAD_ARGUMENTS, "variables", {"variablesReference": 2, "filter": "all"}),
    ("bad arguments before an unknown number", BAD_ARGUMENTS, "variables", {"variablesReference": 99, "start": -1}),
    ("bad arguments before no thread", BAD_ARGUMENTS, "stackTrace", {"threadId": 2, "levels": -1}),
    ("no thread", NO_THREAD, "stackTrace", {"threadId": 0}),
    ("no expression, of no frame", BAD_EXPRESSION, "evaluate", {"expression": ""}),
]


def in_order(refusal, command, arguments):
    script = known().asks("stepIn").slices(9, 1, "Stopped", STEP).trace([frame_at(4, 0x10004, "_start+4", 2)]).scopes(4, 5, 6)
    return script.asks(command, refusal, **arguments).lists(5, registers(0x10004, a0=5))


# A program runs: what is asked wrongly, and where. All but bad arguments, a repeat and no thread is answered by that it runs.
WHILE_IT_RUNS = [
    (NO_THREAD, "stackTrace", {"threadId": 2}), (NOT_STOPPED, "stackTrace", {"threadId": 1, "startFrame": 99}),
    (NOT_STOPPED, "scopes", {"frameId": 1}), (NOT_STOPPED, "scopes", {"frameId": 99}), (NOT_STOPPED, "variables", {"variablesReference": 2}),
    (NOT_STOPPED, "setVariable", {"variablesReference": 2, "name": "q", "value": "z"}),
    (NOT_STOPPED, "evaluate", {"expression": "1 +", "frameId": 99}),
    (NOT_STOPPED, "disassemble", {"memoryReference": "x", "instructionCount": 9999}),
    (NOT_STOPPED, "readMemory", {"memoryReference": "x", "count": 99999}),
    (NOT_STOPPED, "writeMemory", {"memoryReference": "x", "data": "AA=="}), (BAD_ARGUMENTS, "writeMemory", {"memoryReference": "x", "data": "A"}),
    (BAD_ARGUMENTS, "evaluate", {"expression": "a0", "frameId": "x"}), (BAD_ARGUMENTS, "readMemory", {"memoryReference": "65536", "count": -1}),
]


def while_it_runs():
    script = in_a_circle().asks("continue").slices(5, 5, "Spent")
    for refusal, command, arguments in WHILE_IT_RUNS:
        script.asks(command, refusal, **arguments)
    return script.slices(5, 5, "Spent")


def anew():
    """Looks and changes of two stops, where events found no memory and are given again: no number is given twice, or left out."""
    script = in_a_function(4096, GREATEST, GREATEST, 1 << 62).trace([frame_at(1, *OUTER)], 2, startFrame=1)
    script.trace([frame_at(2, *INNER), frame_at(1, *OUTER)]).scopes(2, 3, 4)
    script.lists(3, registers(0x10014, BASE + 4096, ra=0x1000c, a0=5)[9:12], start=9, count=3)
    script.sets_variable(3, "sp", "0x00010ff8", 0x10ff8).writes("0x00010ff8", b"\1\2\3\4", 4)
    script.lists(4, stack(0x04030201, 0)).evaluates("[sp]", 0x04030201)
    script.asks("stepOut").slices(9, 2, "Stopped", STEP).asks("variables", STALE, variablesReference=3).trace([frame_at(5, 0x1000c, "_start+12", 3)])
    return script.scopes(5, 6, 7).sets_variable(6, "a0", "9", 9).asks("continue").slices(9, 1, "Ended", *exits(9)).asks("disconnect")


# Each of these is a session in which a slice is not made again where it finds no memory, as found says; all else is the same.


def sliced_once(found):
    """The program comes to its breakpoint, and that is told, or not yet."""
    script = loaded(COUNTS).sets([at(2)], [back(1)]).asks("configurationDone")
    return script.does("slice_once 99", "4 %s" % ("Stopped" if found else "NoMemory")).runs(not found)


def turns(script, found):
    """A request waits. What is owed is told first, and by that turn nothing is answered."""
    return script.does("turn", "Answered").does("pending", "0" if found else "1").does("turn", "Nothing" if found else "Answered").tells(at_lines(1))


def frames_after_what_is_owed(found):
    """A stop that is owed is told before frames are shown: they are those of that stop."""
    script = turns(sliced_once(found).sends("stackTrace", threadId=1), found)
    shown = frames([frame_at(1, 0x10008, "_start+8", 2)], 1)
    return script.queues(lambda seq: success_text("stackTrace", script.asked, seq, shown)).takes().runs(False).scopes(1, 2, 3)


def joined_after_what_is_owed(found):
    """A stop that is owed is made where the connection is dropped; the next editor is told of it."""
    return sliced_once(found).drops().runs(False).attaches(stopped("breakpoint")).trace([frame_at(1, 0x10008, "_start+8", 2)])


FOUND_NONE = [
    ("a stop that is owed is told before frames are shown", frames_after_what_is_owed),
    ("a stop that is owed is told to the editor that joins", joined_after_what_is_owed),
]

ROWS = [
    Row("a frame and a scope have one number in a stop", one_number().steps, PROFILE),
    Row("numbers of another kind, and of none", of_the_wrong_kind().steps, PROFILE),
    Row("a number that was not given yet", of_no_stop().steps, PROFILE),
    Row("numbers stay while the program stands", kept().steps, PROFILE),
    *(Row("numbers end with %s, %d moves" % (command, moves), ended_by(command, moves, stop).steps, PROFILE) for command, moves, stop in RESUMES),
    Row("a look in one piece with a step", in_one_piece().steps, PROFILE, refused=True),
    Row("a repeat in a stop, and cancels", a_repeat_in_a_stop().steps, PROFILE),
    Row("numbers after 1,000 stops", after_many_stops().steps, PROFILE),
    Row("numbers after stops in which nobody looked", after_stops_without_looks().steps, PROFILE),
    Row("numbers of a program that has ended", when_the_program_ends().steps, PROFILE),
    Row("numbers go with the connection", gone_with_a_drop().steps, PROFILE),
    Row("numbers go with a disconnect", gone_with_a_disconnect().steps, PROFILE),
    Row("looks in one piece with a disconnect", looks_after_a_disconnect().steps, PROFILE),
    Row("numbers of another program", gone_with_another_program().steps, PROFILE),
    Row("an editor joins a program that runs", joined_while_it_runs().steps, PROFILE, refused=True),
    Row("the last number of a reference", the_last_number().steps, PROFILE, refused=True),
    Row("the last number of a frame", the_last_number_of_a_frame().steps, PROFILE),
    Row("two numbers, where there is one", all_or_none().steps, PROFILE),
    Row("three numbers suffice", three_numbers().steps, PROFILE),
    Row("breakpoints have a count of their own", breakpoints_count_for_themselves().steps, PROFILE),
    *(Row("of two reasons the first is answered: " + name, in_order(refusal, command, arguments).steps, PROFILE)
      for name, refusal, command, arguments in ORDERS),
    Row("looks while the program runs", while_it_runs().steps, PROFILE),
    Row("looks and changes where events found no memory and are given again", anew().steps, PROFILE, refused=True),
    *(without_memory(name, session) for name, session in FOUND_NONE),
]
