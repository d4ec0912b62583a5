"""Editors that join a program that is there: what they are told of it, what they may do with it, and what becomes of it when they go."""
from rows.session_breaks import NO_INSTRUCTION, at_instructions, at_lines, back
from rows.session_runs import EBREAK, ENTRY, EXITS, KEEPS, LIMIT, PAUSE, STEP, limited
from support.breaks import NO_CODE, UNKNOWN, at, is_not, is_set, on
from support.debugging import (ASSEMBLY_FAILED, BAD_ARGUMENTS, ENDED, INITIALIZED, PATH, REPEATED, TERMINATED, WAS_CANCELLED, WRONG_PHASE,
                               exits, printed, stopped)
from support.looks import BASE, CONTINUED, NO_MACHINE, Looking, frame_at, frame_of_no_line, loaded, looking, registers
from support.players import Row
from support.program import frame
from support.programs import CALLS, CIRCLES, COUNTS, PRINTS, RECURS
from support.texts import refused

PLAYER = "test_session"
PROFILE = "docs/PROTOCOL.md, worked by hand"


def running():
    """A program that runs, and whose editor has gone."""
    return looking(CIRCLES).slices(10, 10, "Spent").drops()


def standing(file=CALLS, **arguments):
    """A program that stands at its first instruction, and whose editor has gone."""
    return looking(file, stopOnEntry=True, **arguments).slices(9, 0, "Stopped", ENTRY).drops()


def given(file=CIRCLES, *new):
    """A program that is there from the beginning."""
    return Looking(*(new or limited()), PATH, file.hex())


def joining(script, **arguments):
    """An editor has joined the program, and has not said all."""
    return script.connects().asks("initialize", **arguments).asks("attach", events=[INITIALIZED])


def refused_attach(script, refusal):
    return script.connects().asks("initialize").asks("attach", refusal)


# ---- where there is none, or it has ended


def of_none():
    """Where no program is there an editor cannot join one, and may launch one instead."""
    script = refused_attach(Looking(), NO_MACHINE).asks("configurationDone", WRONG_PHASE)
    script.asks("launch", ASSEMBLY_FAILED, "line 1: Undefined", file=b"j x", program=PATH)
    script.asks("attach", NO_MACHINE).asks("attach", REPEATED, seq=1).launches(CALLS).asks("attach", WRONG_PHASE).asks("configurationDone")
    return script.slices(9, 6, "Ended", *exits(6)).asks("attach", WRONG_PHASE)


def of_ended():
    """Nobody joins a program that has ended, however it ended, and however often that is asked."""
    script = refused_attach(looking(CALLS).slices(9, 6, "Ended", *exits(6)).drops(), ENDED).asks("attach", ENDED).launches(CIRCLES)
    script = refused_attach(script.asks("terminate", events=[TERMINATED]).drops(), ENDED).drops().begins(CIRCLES).asks("disconnect").drops()
    script = refused_attach(script, ENDED).drops().begins(EXITS).drops().slices(9, 2, "Ended")
    return refused_attach(script, ENDED)


def with_any_arguments():
    """None of them is looked at."""
    script = running().connects().asks("attach", WRONG_PHASE, pid=7).asks("initialize").asks("attach", events=[INITIALIZED], program=7, restart=[])
    return script.asks("configurationDone", events=[CONTINUED])


def with_no_object():
    """Arguments that are no object are bad ones, before it matters that there is no program."""
    script = Looking().connects().asks("initialize")
    piece = frame({"seq": 2, "type": "request", "command": "attach", "arguments": []})
    script.does("recv " + piece.hex(), "ok").does("turn", "Answered")
    return script.does("waiting", refused(*BAD_ARGUMENTS, "attach", 2, 2).hex())


# ---- what an editor that joins is told


def of_running():
    """A program that runs is not disturbed: it makes no move while an editor joins it, and goes on when that has said all."""
    script = joining(running()).runs(False).slices(10, 0, "Idle").does("waiting", "").asks("threads")
    script.sets([at(9)], [is_not(NO_CODE, 9)])
    script.asks("configurationDone", events=[CONTINUED]).runs(True).slices(10, 10, "Spent").asks("pause").slices(10, 0, "Stopped", PAUSE)
    return script.trace([frame_at(1, BASE, "e", 1)]).asks("continue").slices(10, 10, "Spent")


def of_what_prints():
    """What is printed while nobody is there is told to nobody; after that the new editor is told all."""
    script = looking(b"li a7, 1\ne: ecall\naddi a0, a0, 1\nj e\n").slices(2, 2, "Spent", printed(0)).drops().slices(6, 6, "Spent")
    script.connects().slices(3, 3, "Spent").does("waiting", "").asks("initialize").slices(3, 3, "Spent").does("waiting", "")
    script.asks("attach", events=[INITIALIZED]).slices(3, 0, "Idle").asks("configurationDone", events=[CONTINUED])
    return script.slices(3, 3, "Spent", printed(5)).asks("pause").slices(3, 0, "Stopped", PAUSE).drops().attaches(PAUSE)


# Programs that stand, and whose editor has gone: how each came to its stop, and what the next editor is told, without the breakpoints' numbers.
def at_a_breakpoint():
    return loaded(COUNTS).sets([at(2)], [back(1)]).asks("configurationDone").slices(99, 4, "Stopped", at_lines(1))


def at_an_instruction():
    script = loaded(COUNTS).sets_at_instructions([on("0x00010008")], [is_set(1, 0x10008)]).asks("configurationDone")
    return script.slices(99, 4, "Stopped", at_instructions(1))


def at_an_exception():
    return looking(NO_INSTRUCTION).slices(9, 1, "Stopped", stopped("exception", "illegal instruction"))


def after_a_step():
    return looking(CALLS, stopOnEntry=True).slices(9, 0, "Stopped", ENTRY).asks("next").slices(9, 1, "Stopped", STEP)


STOPS = [
    ("its entry", lambda: looking(CALLS, stopOnEntry=True).slices(9, 0, "Stopped", ENTRY), ENTRY, frame_at(1, BASE, "_start", 1)),
    ("a step", after_a_step, STEP, frame_at(1, 0x10004, "_start+4", 2)),
    ("a pause", lambda: looking(CIRCLES).asks("pause").slices(9, 0, "Stopped", PAUSE), PAUSE, frame_at(1, BASE, "e", 1)),
    ("a breakpoint at a line", at_a_breakpoint, EBREAK, frame_at(1, 0x10008, "_start+8", 2)),
    ("a breakpoint at an instruction", at_an_instruction, stopped("instruction breakpoint"), frame_at(1, 0x10008, "_start+8", 2)),
    ("an EBREAK", lambda: looking(PRINTS).slices(9, 4, "Stopped", printed(7), EBREAK), EBREAK, frame_at(1, 0x10010, "e", 5)),
    ("an exception", at_an_exception, stopped("exception", "illegal instruction"), frame_of_no_line(1, 0x10004)),
    ("the limit", lambda: looking(CIRCLES, *limited(retired=5)).slices(9, 5, "Stopped", LIMIT), LIMIT, frame_at(1, BASE, "e", 1)),
]


def of_standing(reach, stop, shown):
    """The editor is told why the program stopped last, and looks; it does not run by that. Another one is told the same."""
    script = reach().drops().attaches(stop).runs(False).slices(9, 0, "Idle").trace([shown])
    return script.drops().attaches(stop).trace([{**shown, "id": 2}])


def of_a_hold():
    """What stops while nobody is there is told to who comes."""
    script = looking(PRINTS).slices(2, 2, "Spent").drops().slices(9, 2, "Stopped").attaches(EBREAK).drops().begins(CIRCLES).drops()
    script.does("hold", "ok").slices(9, 0, "Stopped").attaches(PAUSE).asks("continue").drops()
    return joining(script).does("hold", "ok").slices(9, 0, "Idle").asks("configurationDone", events=[CONTINUED]).slices(9, 0, "Stopped", PAUSE)


def of_given():
    """A program that is there from the beginning stands at its entry; it is not begun anew when an editor has said all."""
    script = given(CALLS).runs(False).attaches(ENTRY).runs(False).slices(9, 0, "Idle").trace([frame_at(1, BASE, "_start", 1)]).scopes(1, 2, 3)
    script.lists(2, registers(BASE)).sets([at(1), at(5)], [is_set(1, BASE, 1), is_set(2, 0x10014, 5)])
    script.asks("continue").slices(9, 3, "Stopped", at_lines(2))
    script.asks("restart").slices(9, 0, "Stopped", at_lines(1)).asks("continue").slices(9, 3, "Stopped", at_lines(2))
    return script.asks("continue").slices(9, 3, "Ended", *exits(6)).asks("restart", ENDED)


def of_given_with_little_memory():
    script = given(RECURS, 4096, *limited()[1:]).attaches(ENTRY).trace([frame_at(1, BASE, "_start", 1)]).scopes(1, 2, 3)
    return script.lists(2, registers(BASE, BASE + 4096)).asks("disassemble", body='{"instructions":[]}', memoryReference="0", instructionCount=0)


def with_lines_from_0():
    """The editor that joins counts lines and columns as it says, and not as the one that launched the program."""
    script = joining(standing(), linesStartAt1=False, columnsStartAt1=False).sets([at(4)], [is_set(1, 0x10014, 4)])
    script.asks("configurationDone", events=[ENTRY]).trace([frame_at(1, BASE, "_start", 0, column=0)])
    script.asks("continue").slices(9, 3, "Stopped", at_lines(1))
    return script.trace([frame_at(2, 0x10014, "f", 4, column=0), frame_at(3, 0x10008, "_start+8", 1, column=0)])


# ---- what it does with the program


def with_breakpoints():
    """The source is that of the launch; breakpoints of the editor that has gone are gone, and their numbers are not given again."""
    script = at_a_breakpoint().asks("continue").drops().slices(9, 9, "Spent")
    script = joining(script).sets([at(3)], [is_set(2, 0x1000c, 3)]).sets([at(2)], [is_not(UNKNOWN, 2)], path="/w/q.s")
    return script.asks("configurationDone", events=[CONTINUED]).slices(9, 4, "Stopped", at_lines(2))


def before_the_entry_was_looked_at():
    """The look at the entry is made when the program goes on, also where the editor that launched it has gone before."""
    script = joining(looking(CIRCLES).drops()).sets([at(1)], [is_set(1, BASE, 1)]).asks("configurationDone", events=[CONTINUED])
    return script.slices(9, 0, "Stopped", at_lines(1)).asks("continue").slices(9, 1, "Stopped", at_lines(1))


def after_the_entry():
    """A program that stands at its entry goes on from there, and a breakpoint there is not looked at once more."""
    script = joining(standing(CIRCLES)).sets([at(1, None, "2")], [is_set(1, BASE, 1)]).asks("configurationDone", events=[ENTRY])
    return script.asks("continue").slices(9, 2, "Stopped", at_lines(1))


def restarted():
    """The program is loaded anew as it was launched; with a stop at its entry, if that was asked for then."""
    script = looking(KEEPS).slices(99, 8, "Stopped", printed(8), EBREAK).drops().attaches(EBREAK)
    script.asks("continue").slices(99, 9, "Stopped", printed(9), EBREAK)
    script.asks("restart").slices(99, 8, "Stopped", printed(8), EBREAK).drops()
    script.begins(CALLS, stopOnEntry=True).drops().attaches(CONTINUED).slices(2, 2, "Spent").asks("restart").slices(9, 0, "Stopped", ENTRY)
    return script.trace([frame_at(1, BASE, "_start", 1)])


def terminated():
    script = joining(running()).asks("terminate", events=[TERMINATED]).asks("configurationDone", ENDED)
    return refused_attach(script.drops(), ENDED)


def terminated_later():
    script = standing().attaches(ENTRY).asks("terminate", events=[TERMINATED]).asks("stackTrace", ENDED, threadId=1)
    return refused_attach(script.drops(), ENDED)


def stepped():
    script = standing(RECURS).attaches(ENTRY).asks("stepIn").slices(9, 1, "Stopped", STEP).asks("stepIn").slices(9, 2, "Stopped", STEP)
    script.trace([frame_at(1, 0x10014, "g", 5), frame_at(2, 0x10008, "_start+8", 2)]).drops().attaches(STEP)
    script.trace([frame_at(3, 0x10014, "g", 5), frame_at(4, 0x10008, "_start+8", 2)]).asks("stepOut").slices(99, 20, "Stopped", STEP)
    return script.trace([frame_at(5, 0x1000c, "_start+12", 3)]).asks("continue").slices(9, 1, "Ended", *exits(0))


# ---- what becomes of it


def left(script, wanted, **arguments):
    """After a disconnect with these arguments the program runs or not."""
    script.asks("disconnect", **arguments).does("finished", "true").runs(wanted).slices(9, 9 if wanted else 0, "Spent" if wanted else "Idle")
    return script.does("waiting", "").drops()


def left_running():
    """An editor that has joined a program leaves it, unless it says otherwise."""
    script = left(running().attaches(CONTINUED), True)
    script = left(script.attaches(CONTINUED), True, terminateDebuggee=False)
    script = left(joining(script), True)
    script = left(script.attaches(CONTINUED), False, suspendDebuggee=True)
    script = left(script.attaches(PAUSE), False, suspendDebuggee=True)
    return left(script.attaches(PAUSE), False).attaches(PAUSE).asks("continue").slices(5, 5, "Spent")


def left_standing():
    script = left(left(standing().attaches(ENTRY), False).attaches(ENTRY), False, suspendDebuggee=True)
    script = left(joining(script), False).attaches(ENTRY).asks("disconnect", terminateDebuggee=True, suspendDebuggee=True).runs(False).drops()
    return refused_attach(script, ENDED)


def ended_by_who_joined():
    script = left(running().attaches(CONTINUED), False, terminateDebuggee=True)
    return refused_attach(script, ENDED)


def left_by_who_launched():
    """The editor that launched a program ends it when it disconnects, unless it says otherwise; the next one joins what is left."""
    script = left(looking(CIRCLES), True, terminateDebuggee=False).attaches(CONTINUED).drops().begins(CIRCLES)
    return left(script, False, terminateDebuggee=False, suspendDebuggee=True).attaches(PAUSE).asks("continue").slices(5, 5, "Spent")


def dropped_before_all_is_said():
    script = joining(running()).runs(False).drops().runs(True).slices(9, 9, "Spent")
    return joining(script).asks("attach", WRONG_PHASE).asks("launch", WRONG_PHASE, program=PATH).asks("configurationDone", events=[CONTINUED])


def cancelled():
    script = running().connects().asks("initialize").sends("attach").sends("cancel", requestId=2).answers("attach", WAS_CANCELLED, seq=2)
    script.answers("cancel").takes().asks("configurationDone", WRONG_PHASE).slices(5, 5, "Spent").asks("attach", events=[INITIALIZED])
    return script.asks("configurationDone", events=[CONTINUED])


def last_number():
    """The event after the answer has the last number: the connection closes, and the program goes on."""
    script = looking(CIRCLES, *limited(seq=5)).slices(5, 5, "Spent").drops().connects().asks("initialize").asks("attach", events=[INITIALIZED])
    script.sends("configurationDone").answers("configurationDone").tells(CONTINUED).takes().does("finished", "true").runs(True)
    return script.slices(5, 5, "Spent")


ROWS = [
    Row("no program is there to join", of_none().steps, PROFILE),
    Row("a program that has ended is not joined", of_ended().steps, PROFILE),
    Row("attach looks at none of its arguments", with_any_arguments().steps, PROFILE),
    Row("attach with arguments that are no object", with_no_object().steps, PROFILE),
    Row("a program that runs is joined", of_running().steps, PROFILE, refused=True),
    Row("a program that prints is joined", of_what_prints().steps, PROFILE),
    *(Row("a program is joined that stands after " + name, of_standing(reach, stop, shown).steps, PROFILE) for name, reach, stop, shown in STOPS),
    Row("a program is joined that stopped while nobody was there", of_a_hold().steps, PROFILE),
    Row("a program that is there from the beginning is joined", of_given().steps, PROFILE, refused=True),
    Row("a program with little memory is joined", of_given_with_little_memory().steps, PROFILE),
    Row("an editor that joins counts lines from 0", with_lines_from_0().steps, PROFILE),
    Row("breakpoints of an editor that joins", with_breakpoints().steps, PROFILE),
    Row("an editor joins before the entry was looked at", before_the_entry_was_looked_at().steps, PROFILE),
    Row("an editor joins at the entry", after_the_entry().steps, PROFILE),
    Row("an editor that joined restarts the program", restarted().steps, PROFILE),
    Row("an editor that joins terminates the program", terminated().steps, PROFILE),
    Row("an editor that joined terminates the program", terminated_later().steps, PROFILE),
    Row("an editor that joined steps, and the next one too", stepped().steps, PROFILE),
    Row("an editor that joined leaves a program that runs", left_running().steps, PROFILE),
    Row("an editor that joined leaves a program that stands", left_standing().steps, PROFILE),
    Row("an editor that joined ends the program", ended_by_who_joined().steps, PROFILE),
    Row("an editor that launched leaves a program to the next", left_by_who_launched().steps, PROFILE),
    Row("an editor goes before it has said all", dropped_before_all_is_said().steps, PROFILE),
    Row("an attach that is cancelled", cancelled().steps, PROFILE),
    Row("the last number after an attach", last_number().steps, PROFILE),
]
