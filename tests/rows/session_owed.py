"""A slice finds no memory for what it has to tell, and before that is told the editor goes, or asks for something: of a stop at a breakpoint, of
what a logpoint says, and of an exit.

Each is a session in which that slice is not made again where it finds no memory, as found says; all else is the same.
"""
from rows.session_breaks import at_lines, back
from rows.session_functions import f
from rows.session_runs import EBREAK, EXITS, PAUSE, without_memory
from support.breaks import at, is_set, named, on
from support.debugging import ENDED, INITIALIZED, TERMINATED, WRONG_PHASE, exits, logged, printed, stopped, success_text
from support.looks import CONTINUED, frame_at, loaded, looking
from support.programs import CALLS, COUNTS, PRINTS

PLAYER = "test_session"

# ---- stops


def at_a_line(found):
    script = loaded(COUNTS).sets([at(2)], [back(1)]).asks("configurationDone")
    return script.does("slice_once 99", "4 %s" % ("Stopped" if found else "NoMemory"))


def at_an_instruction(found):
    script = loaded(COUNTS).sets_at_instructions([on("0x00010008")], [is_set(1, 0x10008)]).asks("configurationDone")
    return script.does("slice_once 99", "4 %s" % ("Stopped" if found else "NoMemory"))


def at_a_function(found):
    script = loaded(COUNTS).sets_at_functions([named("f")], [f(1)]).asks("configurationDone")
    return script.does("slice_once 99", "2 %s" % ("Stopped" if found else "NoMemory"))


def after_a_number(found):
    """The program prints 7, and stops at the breakpoint and the logpoint behind that."""
    script = loaded(PRINTS).sets([at(4), at(4, log="one")], [is_set(1, 0x1000c, 4), is_set(2, 0x1000c, 4)]).asks("configurationDone")
    return script.does("slice_once 9", "3 %s" % ("Stopped" if found else "NoMemory"))


# How a program comes to its stop, what the next editor is told of it, and the frames there.
BEHIND = [frame_at(1, 0x10008, "_start+8", 2)]
STOPS = [
    ("a breakpoint at a line", at_a_line, stopped("breakpoint"), BEHIND),
    ("a breakpoint at an instruction", at_an_instruction, stopped("instruction breakpoint"), BEHIND),
    ("a function breakpoint", at_a_function, stopped("function breakpoint"), [frame_at(1, 0x1000c, "f", 3), frame_at(2, 0x10004, "_start+4", 1)]),
]


def joined(reach, stop, frames):
    """The stop that is owed is told to nobody when the connection is dropped, and to the next editor without numbers, since the breakpoints went
    with the connection. So the program goes on, and stops at none; their numbers are not given again."""
    def session(found):
        script = reach(found).drops().runs(False).slices(99, 0, "Idle").attaches(stop).runs(False).trace(frames)
        script.asks("continue").slices(99, 99, "Spent").asks("pause").slices(9, 0, "Stopped", PAUSE)
        return script.sets([at(2)], [back(2)]).asks("continue").runs(True)
    return session


def joined_after_a_number(found):
    """What was printed and what the logpoint says is lost; the EBREAK at the same place is still to be met."""
    script = after_a_number(found).drops().runs(False).attaches(stopped("breakpoint")).runs(False)
    assert script.taken.endswith(b'{"body":{"allThreadsStopped":true,"reason":"breakpoint","threadId":1},"event":"stopped","seq":5,"type":"event"}')
    return script.asks("continue").slices(9, 1, "Stopped", EBREAK)


def launched_anew(found):
    """Another program takes the place of the one that owes its stop, of which nobody is told."""
    script = at_a_line(found).drops().connects().asks("initialize").launches(CALLS).sets([at(5)], [is_set(2, 0x10014, 5)])
    script.asks("configurationDone").slices(9, 3, "Stopped", at_lines(2)).asks("continue").slices(9, 3, "Ended", *exits(6))
    return script.asks("disconnect").does("finished", "true")


def held(found):
    """A hold changes nothing: the program stops for its breakpoint, and not once more for the hold."""
    script = at_a_line(found).does("hold", "ok").does("slice_once 99", "0 %s" % ("Idle" if found else "Stopped"))
    return script.tells(at_lines(1)).takes().runs(False).asks("continue").slices(99, 5, "Stopped", at_lines(1))


def answered_after(script, found, command, *told, **arguments):
    """A request is answered with success once what is owed was told: the turn that tells it answers nothing."""
    script.sends(command, **arguments).does("turn", "Answered").does("pending", "0" if found else "1")
    script.does("turn", "Nothing" if found else "Answered").tells(*told)
    return script.queues(lambda seq: success_text(command, script.asked, seq)).takes()


def paused(found):
    """When a pause is answered the stop was told, so the program stands still and is not marked."""
    script = answered_after(at_a_line(found), found, "pause", at_lines(1)).runs(False)
    return script.asks("continue").slices(99, 5, "Stopped", at_lines(1))


def left_at_a_stop(found):
    """All that a move has to tell comes before the answer: what was printed, the log and the stop. The program stands still then."""
    script = answered_after(after_a_number(found), found, "disconnect", printed(7), logged("one"), at_lines(1), terminateDebuggee=False)
    script.does("finished", "true").runs(False).slices(9, 0, "Idle").drops().attaches(stopped("breakpoint"))
    return script.asks("continue").slices(9, 1, "Stopped", EBREAK)


# ---- what a logpoint says


def logs(found, **arguments):
    """COUNTS comes to its logpoint, which speaks; then the editor disconnects."""
    script = loaded(COUNTS).sets([at(2, log="back")], [back(1)]).asks("configurationDone")
    script.does("slice_once 4", "4 %s" % ("Spent" if found else "NoMemory")).runs(True)
    return answered_after(script, found, "disconnect", logged("back"), **arguments).does("finished", "true")


def logs_and_ends(found):
    script = logs(found).runs(False).slices(99, 0, "Idle").does("waiting", "").drops()
    return script.connects().asks("initialize").asks("attach", ENDED)


def logs_and_runs_on(found):
    """The logpoint is gone, for whoever joins the program too."""
    script = logs(found, terminateDebuggee=False).runs(True).slices(99, 99, "Spent").does("waiting", "").drops()
    assert script.taken.endswith(
        b'Content-Length: 89\r\n\r\n{"body":{"category":"console","output":"back\\n"},"event":"output","seq":6,"type":"event"}'
        b'Content-Length: 81\r\n\r\n{"command":"disconnect","request_seq":5,"seq":7,"success":true,"type":"response"}')
    return script.attaches(CONTINUED).slices(99, 99, "Spent")


def logs_and_is_suspended(found):
    script = logs(found, terminateDebuggee=False, suspendDebuggee=True).runs(False).slices(99, 0, "Idle").does("waiting", "").drops()
    return script.attaches(PAUSE).trace(BEHIND).asks("continue").slices(99, 99, "Spent")


# ---- an exit, which is not made before it is told


def exiting(found):
    script = looking(EXITS).does("slice_once 9", "2 %s" % ("Ended" if found else "NoMemory"))
    return script.tells(*exits(-1)) if found else script


def terminated(found):
    """A program that has not exited yet is terminated: there is no code."""
    script = exiting(found).sends("terminate")
    script = script.answers("terminate", ENDED) if found else script.answers("terminate").tells(TERMINATED)
    assert found or script.waiting.endswith(b'{"event":"terminated","seq":6,"type":"event"}') and b"exited" not in script.waiting
    return script.runs(False).does("slice 9", "0 Idle").shows()


def paused_before_it(found):
    """A pause comes before the exit."""
    script = exiting(found).sends("pause")
    script = script.answers("pause", ENDED) if found else script.answers("pause")
    script = script.does("slice 9", "0 Idle") if found else script.does("slice 9", "0 Stopped").tells(PAUSE)
    script.shows().sends("continue")
    script = script.answers("continue", ENDED) if found else script.answers("continue")
    return script.does("slice 9", "0 Idle").shows() if found else script.does("slice 9", "0 Ended").tells(*exits(-1)).shows()


def joined_before_it(found):
    """The next editor joins a program that still runs, and is told of its exit."""
    script = exiting(found).drops().runs(not found).connects().asks("initialize").sends("attach")
    script = script.answers("attach", ENDED) if found else script.answers("attach").tells(INITIALIZED)
    script.shows().sends("configurationDone")
    script = script.answers("configurationDone", WRONG_PHASE) if found else script.answers("configurationDone").tells(CONTINUED)
    script = script.does("slice 9", "0 Idle") if found else script.does("slice 9", "0 Ended").tells(*exits(-1))
    return script.shows().runs(False)


def left_before_it(found):
    """An editor that leaves the program to itself is not told of its exit."""
    script = exiting(found).sends("disconnect", terminateDebuggee=False).answers("disconnect").shows().runs(not found)
    script.does("slice 9", "0 Idle" if found else "0 Ended").shows().drops().connects().asks("initialize")
    return script.asks("attach", ENDED)


FOUND_NONE = [
    *(("a stop that is owed, and an editor that joins: " + name, joined(reach, stop, frames)) for name, reach, stop, frames in STOPS),
    ("a number, a log and a stop that are owed, and an editor that joins", joined_after_a_number),
    ("a stop that is owed, and another program is launched", launched_anew),
    ("a stop that is owed, and a hold", held),
    ("a stop that is owed, and a pause", paused),
    ("a number, a log and a stop that are owed, and disconnect", left_at_a_stop),
    ("a log that is owed, and disconnect ends the program", logs_and_ends),
    ("a log that is owed, and disconnect leaves the program", logs_and_runs_on),
    ("a log that is owed, and disconnect suspends the program", logs_and_is_suspended),
    ("an exit that was not told, and terminate", terminated),
    ("an exit that was not told, and a pause", paused_before_it),
    ("an exit that was not told, and an editor that joins", joined_before_it),
    ("an exit that was not told, and disconnect leaves the program", left_before_it),
]

ROWS = [without_memory(name, session) for name, session in FOUND_NONE]
