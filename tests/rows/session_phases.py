"""What each request answers in each phase of a connection, and in which order the reasons for a refusal are looked at."""
from support.breaks import MOST, at, body_of, on
from support.debugging import (BAD_ARGUMENTS, ENDED, GONE, INITIALIZED, NO_HISTORY, NO_THREAD, NOT_STOPPED, PATH, REPEATED, TERMINATED,
                               TOO_MUCH, UNKNOWN, WAS_CANCELLED, WRONG_PHASE, Debugging, debugging, exits, stopped)
from support.looks import BASE, CONTINUED, NO_MACHINE, UNKNOWN_REFERENCE, frame_at, frames, memory, text
from support.players import Row
from support.programs import CALLS, CIRCLES

PLAYER = "test_session"
PROFILE = "docs/PROTOCOL.md, worked by hand"

# The requests, with arguments that each takes.
THREAD = {"threadId": 1}
REQUESTS = {"initialize": {}, "launch": {"program": PATH}, "configurationDone": {}, "threads": {}, "setBreakpoints": {"breakpoints": []},
            "setInstructionBreakpoints": {"breakpoints": []}, "setExceptionBreakpoints": {"filters": []}, "continue": THREAD, "next": THREAD,
            "stepIn": THREAD, "stepOut": THREAD, "stepBack": THREAD, "reverseContinue": THREAD, "pause": THREAD, "restart": {},
            "terminate": {}, "cancel": {}, "disconnect": {}, "attach": {}, "stackTrace": THREAD, "scopes": {"frameId": 1},
            "variables": {"variablesReference": 1},
            "setVariable": {"variablesReference": 1, "name": "a0", "value": "1"}, "evaluate": {"expression": "pc"},
            "disassemble": {"memoryReference": "65536", "instructionCount": 0}, "readMemory": {"memoryReference": "65536", "count": 0},
            "writeMemory": {"memoryReference": "65536", "data": ""}, "goto": {"threadId": 1, "targetId": 1}}
STEPS = ("continue", "next", "stepIn", "stepOut")
# Those that need a move that is recorded.
BACK = ("stepBack", "reverseContinue")
# Those that name a number, of which none was given here; and those that need none.
NAMING = ("scopes", "variables", "setVariable")
LOOKS = ("stackTrace", "evaluate", "disassemble", "readMemory", "writeMemory")
BREAKPOINTS = ("setBreakpoints", "setInstructionBreakpoints", "setExceptionBreakpoints")
TOO_MANY = MOST + 1


def fresh():
    return Debugging().connects()


def initialized():
    return fresh().asks("initialize")


def configuring():
    return initialized().launches(CIRCLES)


def configuring_an_ended_program():
    return configuring().asks("terminate", events=[TERMINATED])


def running():
    return debugging(CIRCLES)


def standing():
    return debugging(CIRCLES, stopOnEntry=True).slices(100, 0, "Stopped", stopped("entry"))


def moved():
    return standing().asks("stepIn").slices(100, 1, "Stopped", stopped("step"))


def ended():
    return debugging(CALLS).slices(100, 6, "Ended", *exits(6))


def gone(script):
    """The editor has gone, and another one has said who it is."""
    return script.drops().connects().asks("initialize")


def joining(script):
    """The same, and it joins the program."""
    return gone(script).asks("attach", events=[INITIALIZED])


def joined_running():
    return joining(running()).asks("configurationDone", events=[CONTINUED])


def joined_standing():
    return joining(standing()).asks("configurationDone", events=[stopped("entry")])


def joined_moved():
    return joining(moved()).asks("configurationDone", events=[stopped("step")])


def left():
    return initialized().sends("disconnect").answers("disconnect").takes()


def answers_of(taken, refused, other=WRONG_PHASE):
    """The refusal of each request, None for those that are taken: some have one of their own, and the rest this one."""
    return {command: None if command in taken else refused.get(command, other) for command in REQUESTS}


EVERYWHERE = ("cancel", "disconnect")
UNSERVED = {"goto": UNKNOWN}
OF_ENDED = {command: ENDED for command in (*STEPS, *BACK, *NAMING, *LOOKS, "pause", "restart", "terminate")}
OF_RUNNING = {command: NOT_STOPPED for command in (*STEPS, *BACK, *NAMING, *LOOKS)}
OF_MOVED = {command: UNKNOWN_REFERENCE for command in NAMING}
OF_STANDING = {**OF_MOVED, **{command: NO_HISTORY for command in BACK}}
JOINED = ("configurationDone", "threads", *BREAKPOINTS, "terminate", *EVERYWHERE)

# The phases, each with how it is reached and what is refused in it.
PHASES = [
    ("nothing was agreed", fresh, answers_of(("initialize", *EVERYWHERE), UNSERVED)),
    ("initialize was answered", initialized, answers_of(("launch", "threads", *EVERYWHERE), {"attach": NO_MACHINE, **UNSERVED})),
    ("initialize was answered, and a program runs", lambda: gone(running()), answers_of(("launch", "attach", "threads", *EVERYWHERE), UNSERVED)),
    ("initialize was answered, and a program stands still", lambda: gone(standing()), answers_of(
        ("launch", "attach", "threads", *EVERYWHERE), UNSERVED)),
    ("initialize was answered, and a program has ended", lambda: gone(ended()), answers_of(
        ("launch", "threads", *EVERYWHERE), {"attach": ENDED, **UNSERVED})),
    ("a program was launched", configuring, answers_of(JOINED, UNSERVED)),
    ("a program was launched, and ended", configuring_an_ended_program, answers_of(
        ("threads", *BREAKPOINTS, *EVERYWHERE), {"configurationDone": ENDED, "terminate": ENDED, **UNSERVED})),
    ("a program that runs was joined", lambda: joining(running()), answers_of(JOINED, UNSERVED)),
    ("a program that stands still was joined", lambda: joining(standing()), answers_of(JOINED, UNSERVED)),
    ("a program runs", running, answers_of(
        ("threads", *BREAKPOINTS, "pause", "restart", "terminate", *EVERYWHERE), {**OF_RUNNING, **UNSERVED})),
    ("a program runs that was joined", joined_running, answers_of(
        ("threads", *BREAKPOINTS, "pause", "restart", "terminate", *EVERYWHERE), {**OF_RUNNING, **UNSERVED})),
    ("a program stands still", standing, answers_of(
        ("threads", *BREAKPOINTS, *STEPS, *LOOKS, "pause", "restart", "terminate", *EVERYWHERE), {**OF_STANDING, **UNSERVED})),
    ("a program stands still that was joined", joined_standing, answers_of(
        ("threads", *BREAKPOINTS, *STEPS, *LOOKS, "pause", "restart", "terminate", *EVERYWHERE), {**OF_STANDING, **UNSERVED})),
    ("a program stands still after a move", moved, answers_of(
        ("threads", *BREAKPOINTS, *STEPS, *BACK, *LOOKS, "pause", "restart", "terminate", *EVERYWHERE), {**OF_MOVED, **UNSERVED})),
    ("a program stands still after a move, and was joined", joined_moved, answers_of(
        ("threads", *BREAKPOINTS, *STEPS, *BACK, *LOOKS, "pause", "restart", "terminate", *EVERYWHERE), {**OF_MOVED, **UNSERVED})),
    ("a program has ended", ended, answers_of(("threads", *BREAKPOINTS, *EVERYWHERE), {**OF_ENDED, **UNSERVED})),
]

# The events that follow the answer of each, where the editor launched the program; what an editor is told that has joined it.
EVENTS = {"launch": [INITIALIZED], "attach": [INITIALIZED], "terminate": [TERMINATED]}
TOLD = {"a program that runs was joined": [CONTINUED], "a program that stands still was joined": [stopped("entry")]}
BODIES = {
    **dict.fromkeys(("setBreakpoints", "setInstructionBreakpoints"), body_of([])), "stackTrace": frames([frame_at(1, BASE, "e", 1)], 1),
    "evaluate": text({"result": "0x00010000", "variablesReference": 0}), "disassemble": text({"instructions": []}),
    "readMemory": memory(BASE, b""), "writeMemory": text({"bytesWritten": 0})}


def asked_in(name, reach, command, refusal):
    """The request in the phase of this name, that is so reached."""
    file = CIRCLES if command == "launch" else None
    events = [] if refusal else TOLD.get(name, []) if command == "configurationDone" else EVENTS.get(command, [])
    return reach().asks(command, refusal, file=file, events=events, body=BODIES.get(command), **REQUESTS[command])


def refused_after_disconnect():
    """Each request in one piece with `disconnect`: none is taken after it."""
    script = initialized().sends("disconnect")
    for command, arguments in REQUESTS.items():
        script.sends(command, **arguments)
    script.answers("disconnect", seq=2)
    for seq, command in enumerate(REQUESTS, 3):
        script.answers(command, UNSERVED.get(command, WRONG_PHASE), seq=seq)
    return script.takes().does("finished", "true")


# Two reasons apply to each of these requests, and the first of them is answered: how its phase is reached, the request, its arguments.
BOTH = [
    ("a repeat of an unknown name", lambda: initialized(), REPEATED, "goto", {"seq": 1}),
    ("a repeat with bad arguments", lambda: initialized(), REPEATED, "launch", {"seq": 1}),
    ("a repeat in the wrong phase", lambda: initialized(), REPEATED, "next", {"seq": 1, "threadId": 1}),
    ("a repeat where the program has ended", ended, REPEATED, "next", {"seq": 1, "threadId": 1}),
    ("a repeat of no thread", running, REPEATED, "next", {"seq": 1, "threadId": 2}),
    ("a repeat where the program runs", running, REPEATED, "continue", {"seq": 1, "threadId": 1}),
    ("an unknown name with bad arguments", initialized, UNKNOWN, "goto", {"threadId": "one"}),
    ("an unknown name in the wrong phase", fresh, UNKNOWN, "goto", {"threadId": 1}),
    ("an unknown name where the program has ended", ended, UNKNOWN, "goto", {"threadId": 1}),
    ("bad arguments in the wrong phase", fresh, BAD_ARGUMENTS, "launch", {}),
    ("bad arguments where there is no program", initialized, BAD_ARGUMENTS, "continue", {"threadId": "one"}),
    ("bad arguments where the program has ended", ended, BAD_ARGUMENTS, "pause", {"threadId": None}),
    ("bad arguments where the program runs", running, BAD_ARGUMENTS, "next", {"threadId": 1, "granularity": "word"}),
    ("the wrong phase where there is no program", initialized, WRONG_PHASE, "pause", {"threadId": 1}),
    ("the wrong phase where the program has ended", configuring_an_ended_program, WRONG_PHASE, "restart", {}),
    ("the wrong phase with no thread", configuring, WRONG_PHASE, "next", {"threadId": 2}),
    ("the wrong phase where the program runs", lambda: running().drops().connects(), WRONG_PHASE, "next", {"threadId": 1}),
    ("the end with no thread", ended, ENDED, "pause", {"threadId": 2}),
    ("the end with no thread, of a step", ended, ENDED, "stepOut", {"threadId": 0}),
    ("no thread where the program runs", running, NO_THREAD, "stepIn", {"threadId": -1}),
    ("a repeat of bad breakpoints", configuring, REPEATED, "setBreakpoints", {"seq": 2, "breakpoints": [{}]}),
    ("a repeat of breakpoints in the wrong phase", initialized, REPEATED, "setInstructionBreakpoints", {"seq": 1, "breakpoints": []}),
    ("a repeat of too many breakpoints", configuring, REPEATED, "setBreakpoints", {"seq": 1, "lines": TOO_MANY * [1]}),
    ("bad breakpoints in the wrong phase", fresh, BAD_ARGUMENTS, "setBreakpoints", {"lines": [1.5]}),
    ("bad breakpoints where there is no program", initialized, BAD_ARGUMENTS, "setInstructionBreakpoints", {}),
    ("a bad breakpoint among too many", configuring, BAD_ARGUMENTS, "setBreakpoints", {"breakpoints": TOO_MANY * [at(1)] + [at(-1)]}),
    ("breakpoints in the wrong phase where there is no program", initialized, WRONG_PHASE, "setBreakpoints", {"breakpoints": [at(1)]}),
    ("too many breakpoints in the wrong phase", initialized, WRONG_PHASE, "setInstructionBreakpoints", {"breakpoints": TOO_MANY * [on("x")]}),
    ("too many breakpoints of another source", running, TOO_MUCH, "setBreakpoints", {"source": {"path": ""}, "lines": TOO_MANY * [1]}),
    ("a repeat of a look", standing, REPEATED, "stackTrace", {"seq": 1, "threadId": 2}),
    ("a repeat of a join", initialized, REPEATED, "attach", {"seq": 1}),
    ("a bad look in the wrong phase", fresh, BAD_ARGUMENTS, "scopes", {"frameId": "one"}),
    ("a bad look where there is no program", initialized, BAD_ARGUMENTS, "readMemory", {"memoryReference": 65536, "count": 1}),
    ("a bad look where the program has ended", ended, BAD_ARGUMENTS, "writeMemory", {"memoryReference": "65536", "data": "A"}),
    ("a bad look where the program runs", running, BAD_ARGUMENTS, "disassemble", {"memoryReference": "65536"}),
    ("a look in the wrong phase where there is no program", initialized, WRONG_PHASE, "evaluate", {"expression": "1 +"}),
    ("a look in the wrong phase with no thread", configuring, WRONG_PHASE, "stackTrace", {"threadId": 2}),
    ("a look in the wrong phase where the program has ended", configuring_an_ended_program, WRONG_PHASE, "scopes", {"frameId": 1}),
    ("a join in the wrong phase where there is no program", fresh, WRONG_PHASE, "attach", {}),
    ("a join in the wrong phase where the program has ended", ended, WRONG_PHASE, "attach", {}),
    ("the end with no thread, of a look", ended, ENDED, "stackTrace", {"threadId": 2}),
    ("no thread where the program runs, of a look", running, NO_THREAD, "stackTrace", {"threadId": 2}),
    ("a repeat where nothing is recorded", standing, REPEATED, "stepBack", {"seq": 1, "threadId": 1}),
    ("bad arguments where nothing is recorded", standing, BAD_ARGUMENTS, "reverseContinue", {"threadId": "one"}),
    ("a bad granularity where nothing is recorded", standing, BAD_ARGUMENTS, "stepBack", {"threadId": 1, "granularity": "word"}),
    ("the wrong phase where nothing is recorded", configuring, WRONG_PHASE, "stepBack", {"threadId": 1}),
    ("the end where nothing is recorded", ended, ENDED, "reverseContinue", {"threadId": 2}),
    ("no thread where nothing is recorded", standing, NO_THREAD, "stepBack", {"threadId": 2}),
    ("no thread where the program runs, of a run back", running, NO_THREAD, "reverseContinue", {"threadId": 2}),
    ("too many breakpoints where the program has ended", ended, TOO_MUCH, "setInstructionBreakpoints", {"breakpoints": TOO_MANY * [on("x")]}),
]


def cancelled(reach, command, **arguments):
    """A request that is cancelled, whatever else applies to it."""
    script = reach().sends(command, **arguments)
    number = script.asked
    script.sends("cancel", requestId=number)
    return script.wants("none").answers(command, WAS_CANCELLED, seq=number).answers("cancel").takes()


CANCELLED = [
    ("an unknown name", initialized, "goto", {}),
    ("bad arguments", initialized, "launch", {}),
    ("the wrong phase", fresh, "pause", THREAD),
    ("a launch, of which no file is wanted", initialized, "launch", {"program": PATH}),
    ("the end", ended, "restart", {}),
    ("no thread", standing, "next", {"threadId": 2}),
    ("a program that runs", running, "next", THREAD),
    ("nothing is recorded", standing, "stepBack", THREAD),
    ("too many breakpoints", configuring, "setBreakpoints", {"lines": TOO_MANY * [1]}),
    ("no program to join", initialized, "attach", {}),
    ("a number that was not given", standing, "scopes", {"frameId": 7}),
    ("a look while the program runs", running, "evaluate", {"expression": "1 +"}),
]


def cancels_that_name_none():
    script = running()
    for number in (0, -1, 99):
        script.asks("cancel", GONE, requestId=number)
    return script.asks("cancel", BAD_ARGUMENTS, requestId="one")


ROWS = [
    Row("%s, where %s" % (command, name), asked_in(name, reach, command, refusal).steps, PROFILE)
    for name, reach, refusals in PHASES for command, refusal in refusals.items()] + [
    Row("no request is taken after disconnect", refused_after_disconnect().steps, PROFILE),
] + [Row("of two reasons the first is answered: " + name, reach().asks(command, refusal, **arguments).steps, PROFILE)
     for name, reach, refusal, command, arguments in BOTH] + [
    Row("a cancel is answered before any other reason: " + name, cancelled(reach, command, **arguments).steps, PROFILE)
    for name, reach, command, arguments in CANCELLED] + [
    Row("cancels that name no request that waits", cancels_that_name_none().steps, PROFILE),
]
