"""Programs that are debugged: launched, given time in slices, stepped through, paused, restarted and ended; and what is told of them."""
from support.debugging import (ASSEMBLY_FAILED, ENDED, INITIALIZED, PATH, TERMINATED, UNREADABLE, WAS_CANCELLED, WRONG_PHASE, Debugging,
                               debugging, exits, printed, stopped, success_text)
from support.players import Row
from support.programs import CALLS, CIRCLES, COUNTS, PRINTS, RECURS, WRITES_ITSELF

PLAYER = "test_session"
TAKES_NONE = {"Session::connect": "connect", "Session::hold": "hold", "Session::sent": "sent", "Session::drop_connection": "drop",
              "Session::waiting": "waiting", "Session::runnable": "runnable", "Session::pending": "pending", "Session::wants_file": "wants_file",
              "Session::finished": "finished"}
PROFILE = "docs/PROTOCOL.md and docs/MACHINE.md, worked by hand"

MIB = 1 << 20
GREATEST = 2147483647
GREATEST_RETIRED = 1 << 62
LIMIT = stopped("exception", "instruction limit")
ENTRY, PAUSE, STEP, EBREAK = stopped("entry"), stopped("pause"), stopped("step"), stopped("breakpoint")

# Prints 7 for ever.
PRINTS_ON = b"li a0, 7\nli a7, 1\ne: ecall\nj e\n"
# Prints one more than it keeps, which it counts on.
KEEPS = b"_start: la t0, n\nlw a0, 0(t0)\naddi a0, a0, 1\nsw a0, 0(t0)\nli a7, 1\necall\nebreak\nj _start\nn: .word 7\n"
# Exits with -1.
EXITS = b"li a0, -1\nli a7, 93\necall\n"
# Exits with what it has stored at the end of memory.
STORES = b"li a0, 7\nsw a0, -4(sp)\nlw a0, -4(sp)\nli a7, 93\necall\n"
# Stores into a page that was not written, and stops.
STORES_FAR = b"lui a0, 0x80\nsw a0, 0(a0)\nebreak\n"
# Counts for ever, in memory of its own.
KEEPS_ON = b"_start: la t0, n\ne: lw a0, 0(t0)\naddi a0, a0, 1\nsw a0, 0(t0)\ncall f\nj e\nf: ret\nn: .word 7\n"
# Stops at once, and again and again.
STOPS = b"e: ebreak\nj e\n"


def limited(seq=GREATEST, ref=GREATEST, retired=GREATEST_RETIRED):
    """What a session with such limits is made of."""
    return MIB, seq, ref, retired


def at_entry(file=CALLS, *new):
    return debugging(file, *new, stopOnEntry=True).slices(100, 0, "Stopped", ENTRY)


def in_slices(script, most, moves, ending, told=(), events=()):
    """The program is given time, so many moves at most at once, until so many were made and it stops or ends. told: what each of some moves
    tells, by its number; events: what the end tells. The last move stops the program where told has it, and else a further one is not made."""
    left, made, told = moves, 0, dict(told)
    while True:
        moved = min(most, left)
        now = [event for number in range(made + 1, made + moved + 1) for event in told.get(number, [])]
        left, made = left - moved, made + moved
        if left == 0 and (moved < most or moves in told):
            return script.slices(most, moved, ending, *now, *events)
        script.slices(most, moved, "Spent", *now)


def conversation_of_calls(most):
    script = debugging(CALLS)
    in_slices(script, most, 6, "Ended", events=exits(6))
    return script.runs(False)


def conversation_of_prints(most):
    script = debugging(PRINTS)
    in_slices(script, most, 4, "Stopped", {3: [printed(7)], 4: [EBREAK]})
    script.asks("continue").slices(most, most, "Spent").asks("pause").slices(most, 0, "Stopped", PAUSE)
    return script.asks("restart").asks("terminate", events=[TERMINATED])


def conversation_of_recurs(most):
    script = debugging(RECURS)
    return in_slices(script, most, 24, "Ended", events=exits(0))


def conversation_of_counts(most):
    script = debugging(COUNTS, *limited(retired=1001))
    return in_slices(script, most, 1001, "Stopped", events=[LIMIT])


PROGRAMS = [("calls a function and exits", conversation_of_calls), ("prints and stops", conversation_of_prints),
            ("calls itself and exits", conversation_of_recurs), ("counts until it may no more", conversation_of_counts)]


def slices_of_each_size():
    """Rows of each program with slices of 1, 7 and 100,000 moves: the bytes are the same."""
    for name, conversation in PROGRAMS:
        scripts = {most: conversation(most) for most in (1, 7, 100000)}
        assert len({script.taken for script in scripts.values()}) == 1
        for most, script in scripts.items():
            yield Row("a program that %s, %d moves at a time" % (name, most), script.steps, PROFILE)


def two_pieces():
    """A launched program stands still at its entry; then it goes on and exits."""
    script = Debugging().connects().sends("initialize").sends("launch", program=PATH, stopOnEntry=True).sends("configurationDone")
    script.wants("none").answers("initialize", seq=1).runs(False)
    script.wants(PATH).answers("launch", file=CALLS, seq=2).tells(INITIALIZED).wants("none").runs(False)
    script.answers("configurationDone", seq=3).runs(True).takes()
    script.slices(100, 0, "Stopped", ENTRY).runs(False).slices(100, 0, "Idle")
    script.asks("continue").runs(True).slices(100, 6, "Ended", *exits(6)).runs(False)
    assert script.taken.endswith(b'\r\n\r\n{"event":"terminated","seq":8,"type":"event"}')
    return script


def prints_then_stops():
    script = debugging(PRINTS).slices(100, 4, "Stopped", printed(7), EBREAK)
    assert len(script.taken) == 1221 and script.taken.endswith(
        b'{"body":{"allThreadsStopped":true,"reason":"breakpoint","threadId":1},"event":"stopped","seq":6,"type":"event"}')
    return script


def full(most):
    """A program that prints for ever, in slices of so many moves, with nothing taken until more than 65,536 bytes wait; and once more."""
    script, made = debugging(PRINTS_ON), 0
    for number in (0, 1):
        begun = made
        while len(script.waiting) <= 65536:
            script.tells(printed(7))
            made += 3 if made == 0 else 2
        left = made - begun
        while left >= most:
            script.does("slice %d" % most, "%d %s" % (most, "Full" if left == most else "Spent"))
            left -= most
        if left:
            script.does("slice %d" % most, "%d Full" % left)
        script.does("slice 5", "0 Full").does("turn", "Full").does("hold", "ok").does("slice 5", "0 Full").runs(True).takes()
        script.slices(5, 0, "Stopped", PAUSE).asks("continue")
    return script


TRAPS = [
    ("instruction access fault", b"li t0, 0\njr t0\n", 2), ("illegal instruction", b".word 0\n", 0),
    ("instruction address misaligned", b"li t0, 2\njr t0\n", 1), ("load address misaligned", b"lw a0, 1(zero)\n", 0),
    ("load access fault", b"lw a0, 0(zero)\n", 0), ("store address misaligned", b"nop\nsw a0, 2(zero)\n", 1),
    ("store access fault", b"sb a0, 0(zero)\n", 0), ("unknown environment call", b"li a7, 2\necall\n", 1),
]


def traps(text, file, moves):
    """A trap is no move, and is met again."""
    stop = stopped("exception", text)
    script = debugging(file).slices(100, moves, "Stopped", stop).asks("continue").slices(100, 0, "Stopped", stop)
    return script.asks("stepIn", threadId=1, granularity="instruction").slices(1, 0, "Stopped", stop)


# Files without an image: what is wrong, and the bytes.
FILES = [
    ("line 1: NotUtf8", b"\xff"), ("line 2: NotUtf8", b"nop\nj \xc3\n"), ("line 1: Syntax", b"1 nop\n"),
    ("line 2: UnknownInstruction", b"nop\nfly a0\n"),
    ("line 1: BadOperand", b"li a0\n"), ("line 3: OutOfRange", b"nop\nnop\naddi a0, a0, 2048\n"), ("line 2: TwiceDefined", b"f: nop\nf: nop\n"),
    ("line 1: Undefined", b"j x"), ("line 2: TooLarge", b"nop\n.space 1048576\n"), ("line 0: TooLarge", b"#" * 1048577),
]


def unassembled(said, file):
    """A file without an image is refused, and the program can be launched again."""
    script = Debugging().connects().asks("initialize", linesStartAt1=False, columnsStartAt1=False)
    script.asks("launch", ASSEMBLY_FAILED, said, file=file, program=PATH).runs(False).asks("configurationDone", WRONG_PHASE)
    return script.launches(CALLS).asks("configurationDone").slices(100, 6, "Ended", *exits(6))


def unread():
    script = Debugging().connects().asks("initialize").sends("launch", program="/no such file").wants("/no such file")
    script.answers("launch", UNREADABLE).takes().asks("setExceptionBreakpoints", WRONG_PHASE, filters=[])
    return script.launches(CALLS).asks("configurationDone").slices(6, 6, "Spent").slices(0, 0, "Spent").slices(1, 0, "Ended", *exits(6))


def unwanted():
    """A file is wanted by the first request that waits, where that is a launch that is taken."""
    script = Debugging().wants("none").connects().wants("none").sends("launch", program=PATH).wants("none")
    script.answers("launch", WRONG_PHASE, file=CALLS).sends("initialize").sends("threads").sends("launch", program=PATH).wants("none")
    script.answers("initialize", seq=2).wants("none").answers("threads", file=b"\xff", seq=3).wants(PATH)
    script.sends("cancel", requestId=4).wants("none").answers("launch", WAS_CANCELLED, seq=4).answers("cancel").runs(False)
    script.sends("launch", program=PATH).wants(PATH).answers("launch", file=CALLS).tells(INITIALIZED).wants("none")
    return script.sends("launch", program="/other").wants("none").answers("launch", WRONG_PHASE, file=CIRCLES).takes()


def paused():
    """A pause stops the program before its next move, and tells one stop however often it is asked."""
    script = debugging(CIRCLES).slices(1000, 1000, "Spent").asks("pause").slices(1000000, 0, "Stopped", PAUSE)
    script.asks("pause").slices(10, 0, "Idle").asks("continue").slices(10, 10, "Spent")
    script.asks("pause").asks("pause").does("hold", "ok").slices(0, 0, "Stopped", PAUSE).slices(0, 0, "Idle")
    return script.asks("continue").slices(3, 3, "Spent")


def held():
    script = Debugging().does("hold", "ok").begins(CIRCLES).does("hold", "ok").does("hold", "ok").slices(10, 0, "Stopped", PAUSE)
    script.does("hold", "ok").asks("continue").slices(10, 10, "Spent").does("hold", "ok").asks("pause").slices(10, 0, "Stopped", PAUSE)
    return script.asks("continue").slices(10, 10, "Spent")


def marked_at_entry():
    """The mark of the entry comes first, and the others find it there; it is gone with the stop."""
    script = debugging(CIRCLES, stopOnEntry=True).asks("pause").does("hold", "ok").slices(10, 0, "Stopped", ENTRY)
    script.asks("continue").slices(10, 10, "Spent").asks("restart").asks("pause").slices(10, 0, "Stopped", ENTRY)
    script.asks("continue").slices(1, 1, "Spent").asks("pause").asks("restart").slices(10, 0, "Stopped", PAUSE)
    return script.asks("continue").slices(10, 10, "Spent")


def marked_before_it_ends():
    script = debugging(CALLS).slices(6, 6, "Spent").asks("pause").slices(1, 0, "Stopped", PAUSE)
    return script.asks("continue").slices(1, 0, "Ended", *exits(6)).asks("continue", ENDED).slices(1, 0, "Idle")


def steps():
    """Steps by lines and by instructions: over a call, in, and out."""
    script = at_entry().asks("stepIn").slices(9, 1, "Stopped", STEP).asks("next").slices(9, 4, "Stopped", STEP)
    script.asks("restart").slices(9, 0, "Stopped", ENTRY).asks("next").slices(1, 1, "Stopped", STEP)
    script.asks("stepIn").slices(9, 2, "Stopped", STEP).asks("stepOut").slices(1, 1, "Spent").slices(1, 1, "Stopped", STEP)
    script.asks("stepOut").slices(9, 1, "Ended", *exits(6)).asks("restart", ENDED)
    return script


def steps_by_instructions():
    script = at_entry().asks("stepIn", threadId=1, granularity="line").slices(9, 1, "Stopped", STEP)
    script.asks("next", threadId=1, granularity="instruction").slices(9, 1, "Stopped", STEP)
    script.asks("stepIn", threadId=1, granularity="instruction").slices(9, 1, "Stopped", STEP)
    script.asks("next", threadId=1, granularity="instruction").slices(9, 1, "Stopped", STEP)
    script.asks("stepOut", threadId=1, granularity="instruction").slices(9, 1, "Stopped", STEP)
    return script.asks("next", threadId=1, granularity="statement").slices(9, 1, "Stopped", STEP)


def steps_in_slices(most):
    """A step over a call of 4 instructions, some moves at a time."""
    script = at_entry().asks("stepIn").slices(9, 1, "Stopped", STEP).asks("next")
    return in_slices(script, most, 4, "Stopped", {4: [STEP]})


def steps_and_pauses():
    """A pause stops a step, and nothing of that is left."""
    script = at_entry(CIRCLES).asks("stepOut").slices(5, 5, "Spent").asks("pause").slices(5, 0, "Stopped", PAUSE)
    return script.asks("continue").slices(5, 5, "Spent")


def restarts():
    """A program that has changed its own memory is loaded anew; it goes on with its registers where it only continues."""
    script = debugging(KEEPS).slices(99, 8, "Stopped", printed(8), EBREAK).asks("continue").slices(99, 9, "Stopped", printed(9), EBREAK)
    script.asks("restart").runs(True).slices(99, 8, "Stopped", printed(8), EBREAK)
    script.asks("continue").slices(5, 5, "Spent").asks("restart").slices(5, 5, "Spent").slices(99, 3, "Stopped", printed(8), EBREAK)
    return script


def restarts_what_wrote_itself():
    """A program that has changed its own instructions is loaded anew, by a restart and by a launch."""
    script = debugging(WRITES_ITSELF).slices(99, 15, "Stopped", EBREAK).asks("restart").slices(99, 15, "Stopped", EBREAK)
    script.asks("disconnect").drops().begins(WRITES_ITSELF).slices(7, 7, "Spent").asks("restart").slices(99, 15, "Stopped", EBREAK)
    return script


def restarts_what_runs():
    return debugging(CIRCLES).slices(1000, 1000, "Spent").asks("pause").slices(1000000, 0, "Stopped", PAUSE).asks("pause") \
        .asks("restart").slices(10, 10, "Spent")


def limits():
    """As many instructions retire as may; after that the program stops again and again, until it is loaded anew."""
    script = debugging(CIRCLES, *limited(retired=5)).slices(1000, 5, "Stopped", LIMIT).asks("continue").slices(1000, 0, "Stopped", LIMIT)
    assert b'\r\n\r\n{"body":{"allThreadsStopped":true,"reason":"exception","text":"instruction limit","threadId":1},' \
           b'"event":"stopped","seq":5,"type":"event"}' in script.taken
    script.asks("stepIn").slices(1, 0, "Stopped", LIMIT).asks("continue").slices(0, 0, "Spent").slices(1, 0, "Stopped", LIMIT)
    script.asks("restart").slices(5, 5, "Spent").asks("pause").slices(5, 0, "Stopped", PAUSE)
    return script.asks("continue").slices(5, 0, "Stopped", LIMIT)


def limits_at_an_end():
    """The last instruction that may retire is the ebreak; an exit that comes after it retires nothing, and may not come."""
    script = debugging(PRINTS, *limited(retired=4)).slices(9, 4, "Stopped", printed(7), EBREAK).asks("continue").slices(9, 0, "Stopped", LIMIT)
    return script.asks("terminate", events=[TERMINATED])


def limits_at_an_exit():
    return debugging(EXITS, *limited(retired=2)).slices(9, 2, "Stopped", LIMIT)


def exits_at_the_limit():
    return debugging(EXITS, *limited(retired=3)).slices(9, 2, "Ended", *exits(-1))


def terminates(script):
    """The program ends, with no code; after that no request about it is taken."""
    script.asks("terminate", events=[TERMINATED]).runs(False).slices(9, 0, "Idle")
    return script.asks("next", ENDED, threadId=1).asks("terminate", ENDED).asks("threads").slices(9, 0, "Idle")


def terminates_before_all_is_said():
    script = Debugging().connects().asks("initialize").launches(CIRCLES).runs(False).slices(9, 0, "Idle")
    return script.asks("terminate", events=[TERMINATED]).asks("configurationDone", ENDED).slices(9, 0, "Idle")


def leaves(wanted, script=None, **arguments):
    """After a disconnect with these arguments the program runs on or not, and nothing is told of it."""
    script = (script or debugging(PRINTS_ON)).asks("disconnect", **arguments).does("finished", "true").runs(wanted)
    moves = 9 if wanted else 0
    script.slices(9, moves, "Spent" if wanted else "Idle").does("waiting", "").drops().runs(wanted)
    return script.slices(9, moves, "Spent" if wanted else "Idle").does("finished", "false")


def leaves_another():
    """An editor that debugs nothing leaves the program of the one before it as it is."""
    script = debugging(CIRCLES).drops().runs(True).connects().runs(True).asks("disconnect", terminateDebuggee=True, suspendDebuggee=True)
    script.runs(True).drops().connects().asks("initialize").slices(5, 5, "Spent")
    return script.asks("disconnect", terminateDebuggee=True).runs(True).slices(5, 5, "Spent")


def leaves_a_pause():
    """The mark goes with the editor."""
    script = debugging(CIRCLES).asks("pause").asks("disconnect", terminateDebuggee=False).runs(True).slices(5, 5, "Spent")
    return script.drops().slices(5, 5, "Spent")


def dropped():
    """The program runs on where its editor is gone; another launches it anew."""
    script = debugging(CIRCLES).slices(10, 10, "Spent").drops().does("hold", "ok").runs(True).connects().asks("initialize")
    script.launches(CIRCLES).runs(False).slices(10, 0, "Idle").asks("configurationDone").slices(10, 10, "Spent")
    return script.asks("pause").drops().slices(10, 10, "Spent")


def dropped_at_entry():
    script = debugging(CIRCLES, stopOnEntry=True).drops().runs(True).slices(10, 10, "Spent")
    return script.connects().slices(10, 10, "Spent").does("hold", "ok").slices(10, 0, "Stopped").does("waiting", "").slices(10, 0, "Idle")


def untold():
    """Nothing is told of a program to an editor that has not said all."""
    script = debugging(PRINTS_ON).slices(3, 3, "Spent", printed(7)).drops().slices(10, 10, "Spent").connects().slices(10, 10, "Spent")
    script.asks("initialize").slices(10, 10, "Spent").does("waiting", "").does("hold", "ok").slices(10, 0, "Stopped").does("waiting", "")
    script.launches(EXITS).drops().slices(9, 0, "Idle")
    return script.begins(EXITS).drops().slices(9, 2, "Ended").connects().does("waiting", "")


def given():
    """A program that is there from the beginning stands still at its entry."""
    script = Debugging(*limited(), PATH, CIRCLES.hex()).runs(False).does("hold", "ok").slices(9, 0, "Idle").connects().wants("none")
    script.asks("initialize").asks("continue", WRONG_PHASE, threadId=1).asks("terminate", WRONG_PHASE).runs(False)
    return script.launches(CALLS).asks("configurationDone").slices(9, 6, "Ended", *exits(6))


def last_numbers():
    """The last number closes the connection, whatever has it; the program goes on untold."""
    script = Debugging(*limited(seq=6)).begins(PRINTS_ON).does("recv " + b"Content".hex(), "ok").does("slice 100", "100 Spent")
    script.tells(printed(7), printed(7)).does("recv 00", "Closing").takes().does("finished", "true").slices(100, 100, "Spent")
    return script.does("waiting", "").drops().connects().asks("initialize")


def last_number_of_an_exit():
    return Debugging(*limited(seq=5)).begins(CALLS).slices(100, 6, "Ended", exits(6)[0]).does("finished", "true").runs(False)


def last_number_of_a_launch():
    script = Debugging(*limited(seq=2)).connects().asks("initialize").sends("threads").sends("launch", program=PATH)
    return script.answers("threads", seq=2).does("pending", "0").takes().does("finished", "true").runs(False)


def last_number_before_the_event():
    """A launch whose answer has the last number: the program is loaded, and `initialized` is not told."""
    script = Debugging(*limited(seq=2)).connects().asks("initialize").sends("launch", program=PATH).answers("launch", file=CIRCLES)
    return script.takes().does("finished", "true").runs(False)


def sizes():
    bad = [0, 1, 4095, 4097, 5000, 16777215, 16781312, 4294963200]
    return [("new %d 1 1 1" % size, "BadMemorySize: bad memory size") for size in bad] + [
        ("new %d 1 1 1" % size, "ok") for size in (4096, 8192, 1048576, 16777216)] + [
        ("new 5000 0 1 1", "BadMemorySize: bad memory size"), ("new 5000 1 1 1 /w/p.s " + b"j x".hex(), "BadMemorySize: bad memory size"),
        ("new 4096 1 0 1 /w/p.s " + b"j x".hex(), "BadLimit: bad limit"),
        ("new 4096 1 1 1 /w/p.s " + b"j x".hex(), "Assembly(AsmError { line: 1, kind: Undefined }): line 1: Undefined"),
        ("new 4096 1 1 1 /w/p.s " + b"nop\n.space 4096".hex(), "Assembly(AsmError { line: 2, kind: TooLarge }): line 2: TooLarge"),
        ("new 4096 1 1 1 /w/p.s " + b"nop\n.space 4092".hex(), "ok"), ("runnable", "false")]


def greatest_program():
    """The greatest memory, the longest text and path, and a program that stores at the end of memory."""
    script = Debugging(16777216, GREATEST, GREATEST, GREATEST_RETIRED, "/" + "p" * 1048575, (b"#" * 1048576).hex()).runs(False)
    path = "/" + "q" * 60000
    script.connects().asks("initialize").sends("launch", program=path).wants(path).answers("launch", file=STORES).tells(INITIALIZED).takes()
    script.asks("configurationDone").slices(9, 4, "Ended", *exits(7)).drops()
    return script.begins(b"#" * 1048576).slices(9, 0, "Stopped", stopped("exception", "illegal instruction"))


def most_moves():
    script = debugging(CIRCLES, *limited(retired=1000000)).slices(4294967295, 1000000, "Stopped", LIMIT)
    return script.asks("continue").slices(4294967295, 0, "Stopped", LIMIT)


def applied():
    """The events of a program, applied."""
    script = debugging(CIRCLES)
    script.does("apply slice 7", "Slice(Sliced { moved: 7, ending: Spent })").does("apply hold", "Hold")
    return script.does("apply slice 7", "Slice(Sliced { moved: 0, ending: Stopped })").tells(PAUSE).takes()


def anew():
    """From the launch of a program to its end, with a restart, in little memory."""
    script = Debugging(4096, GREATEST, GREATEST, GREATEST_RETIRED).begins(PRINTS, stopOnEntry=True).slices(9, 0, "Stopped", ENTRY)
    script.asks("next").slices(9, 1, "Stopped", STEP).asks("continue").slices(9, 3, "Stopped", printed(7), EBREAK)
    script.asks("restart").slices(9, 0, "Stopped", ENTRY).asks("continue").slices(3, 3, "Spent", printed(7)).asks("pause")
    script.slices(9, 0, "Stopped", PAUSE).asks("next", threadId=1).slices(9, 1, "Stopped", EBREAK)
    return script.asks("terminate", events=[TERMINATED]).asks("disconnect").does("finished", "true")


# Each of these is a session in which a slice is not made again where it finds no memory, as found says; all else is the same.


def sliced_once(file, found, moved, ending):
    return debugging(file).does("slice_once 9", "%d %s" % (moved, ending if found else "NoMemory")).runs(not found)


def stop_told_by_a_turn(found):
    script = sliced_once(STOPS, found, 1, "Stopped").does("turn", "Nothing" if found else "Answered").tells(EBREAK).takes().runs(False)
    return script.does("turn", "Nothing").slices(9, 0, "Idle")


def stop_told_by_a_slice(found):
    script = sliced_once(STOPS, found, 1, "Stopped").does("slice_once 0", "0 Idle" if found else "0 Stopped").tells(EBREAK).takes().runs(False)
    return script.asks("continue").slices(9, 2, "Stopped", EBREAK)


def stop_made_by_a_drop(found):
    script = sliced_once(STOPS, found, 1, "Stopped").drops().runs(False).slices(9, 0, "Idle").connects().does("waiting", "")
    return script.does("turn", "Nothing").slices(9, 0, "Idle").does("waiting", "")


def stop_made_by_a_disconnect(found):
    """What is owed is told before the request is answered, and once."""
    script = sliced_once(STOPS, found, 1, "Stopped").sends("disconnect", terminateDebuggee=False)
    script.does("turn", "Answered").does("turn", "Nothing" if found else "Answered").tells(EBREAK).queues(
        lambda seq: success_text("disconnect", script.asked, seq))
    return script.takes().runs(False).does("finished", "true").slices(9, 0, "Idle").does("waiting", "")


def exit_made_later(found):
    script = sliced_once(EXITS, found, 2, "Ended").does("turn", "Nothing").runs(not found)
    return script.does("slice_once 9", "0 Idle" if found else "0 Ended").tells(*exits(-1)).takes().runs(False).asks("pause", ENDED)


def exit_made_without_an_editor(found):
    script = sliced_once(EXITS, found, 2, "Ended").drops().runs(not found).does("slice_once 9", "0 Idle" if found else "0 Ended")
    return script.connects().runs(False).does("waiting", "")


def trap_made_later(found):
    stop = stopped("exception", "illegal instruction")
    script = sliced_once(b"nop\n.word 0\n", found, 1, "Stopped").does("turn", "Nothing").does("slice_once 9", "0 Idle" if found else "0 Stopped")
    return script.tells(stop).takes().asks("continue").slices(9, 0, "Stopped", stop)


def pause_made_later(found):
    script = debugging(CIRCLES).asks("pause").does("slice_once 9", "0 Stopped" if found else "0 NoMemory").runs(not found)
    script.does("turn", "Nothing").does("slice_once 9", "0 Idle" if found else "0 Stopped").tells(PAUSE).takes()
    return script.asks("continue").slices(9, 9, "Spent")


def limit_met_later(found):
    script = debugging(CIRCLES, *limited(retired=5)).does("slice_once 9", "5 Stopped" if found else "5 NoMemory").runs(not found)
    return script.does("slice_once 9", "0 Idle" if found else "0 Stopped").tells(LIMIT).takes()


def output_told_by_a_turn(found):
    """A turn that tells what is owed answers no request."""
    script = debugging(PRINTS).does("slice_once 3", "3 Spent" if found else "3 NoMemory").runs(True).sends("pause")
    script.does("turn", "Answered").does("pending", "0" if found else "1").does("turn", "Nothing" if found else "Answered")
    script.tells(printed(7)).queues(lambda seq: success_text("pause", script.asked, seq)).takes()
    return script.slices(9, 0, "Stopped", PAUSE).asks("continue").slices(9, 1, "Stopped", EBREAK)


def output_told_by_a_slice(found):
    script = debugging(PRINTS).does("slice_once 3", "3 Spent" if found else "3 NoMemory").runs(True).does("slice_once 0", "0 Spent")
    return script.tells(printed(7)).takes().slices(9, 1, "Stopped", EBREAK)


def output_lost_by_a_drop(found):
    script = debugging(PRINTS).does("slice_once 3", "3 Spent" if found else "3 NoMemory").drops().runs(True).connects()
    return script.slices(9, 1, "Stopped").does("waiting", "")


FOUND_NONE = [
    ("a turn tells the stop that is owed", stop_told_by_a_turn), ("a slice tells the stop that is owed", stop_told_by_a_slice),
    ("a drop makes the stop that is owed", stop_made_by_a_drop), ("a stop that is owed is told before disconnect", stop_made_by_a_disconnect),
    ("an exit that was not told was not made", exit_made_later),
    ("an exit that was not told is made where nobody is told", exit_made_without_an_editor),
    ("a trap that was not told was not made", trap_made_later),
    ("a pause that was not told was not made", pause_made_later), ("the limit that was not told was not met", limit_met_later),
    ("a turn tells what was printed", output_told_by_a_turn), ("a slice tells what was printed", output_told_by_a_slice),
    ("a drop loses what was printed and not told", output_lost_by_a_drop),
]


def without_memory(name, session):
    found, found_none = session(True).steps, session(False).steps
    assert [command for command, _ in found] == [command for command, _ in found_none]
    return Row(name, found, PROFILE, refused=True, otherwise=[[answer for _, answer in found_none]])


def stores_far(*slices):
    """A program that stores into a page that was not written is given time twice; then it has stored, and stands at its ebreak."""
    script = debugging(STORES_FAR)
    for moved, ending in slices:
        script.does("slice_once 10", "%d %s" % (moved, ending))
    script.tells(EBREAK).takes().does("seen byte %d" % 0x80002, "8")
    return script.asks("continue").slices(9, 0, "Stopped", stopped("exception", "illegal instruction")).steps


def store_made_later():
    """A store that found no memory was not made; an ebreak that found none was, and is told by the next slice."""
    others = [stores_far((1, "NoMemory"), (2, "Stopped")), stores_far((3, "NoMemory"), (0, "Stopped"))]
    return Row("a store that finds no memory for its page is made by the next slice", stores_far((3, "Stopped"), (0, "Idle")), PROFILE, refused=True,
               otherwise=[[answer for _, answer in steps] for steps in others])


def runs_on(file):
    """A program that has nothing to tell, and stores nowhere anew, needs no memory."""
    return debugging(file).does("slice_once 1000", "1000 Spent").does("slice_once 1000", "1000 Spent").asks("pause").slices(9, 0, "Stopped", PAUSE)


ROWS = [
    Row("a launched program stops at its entry, goes on and exits", two_pieces().steps, PROFILE, refused=True),
    Row("what is printed is told before the stop", prints_then_stops().steps, PROFILE),
    *slices_of_each_size(),
    *(Row("above 65,536 waiting bytes a program makes no move, %d moves at a time" % most, full(most).steps, PROFILE)
      for most in (1, 7, 100000)),
    *(Row("a trap: " + text, traps(text, file, moves).steps, PROFILE) for text, file, moves in TRAPS),
    *(Row("a file without an image: " + said, unassembled(said, file).steps, PROFILE, refused=len(file) < 10)
      for said, file in FILES),
    Row("a file that cannot be read", unread().steps, PROFILE, refused=True),
    Row("a file is wanted for the launch that comes next", unwanted().steps, PROFILE),
    Row("a file that is empty", traps("illegal instruction", b"", 0).steps, PROFILE),
    Row("a pause stops before the next move", paused().steps, PROFILE),
    Row("a hold stops as a pause does", held().steps, PROFILE),
    Row("of several marks the first counts", marked_at_entry().steps, PROFILE),
    Row("a pause comes before the end", marked_before_it_ends().steps, PROFILE),
    Row("steps over, in and out", steps().steps, PROFILE),
    Row("steps by instructions", steps_by_instructions().steps, PROFILE),
    *(Row("a step over a call, %d moves at a time" % most, steps_in_slices(most).steps, PROFILE) for most in (1, 3, 7)),
    Row("a pause ends a step", steps_and_pauses().steps, PROFILE),
    Row("a restart loads the program anew", restarts().steps, PROFILE, refused=True),
    Row("a restart loads the program anew that wrote itself", restarts_what_wrote_itself().steps, PROFILE, refused=True),
    Row("a restart after a pause", restarts_what_runs().steps, PROFILE),
    Row("as many instructions retire as may", limits().steps, PROFILE, refused=True),
    Row("the limit comes after the stop of the last move", limits_at_an_end().steps, PROFILE),
    Row("the limit comes before an exit", limits_at_an_exit().steps, PROFILE),
    Row("an exit before the limit", exits_at_the_limit().steps, PROFILE),
    Row("terminate ends a program that runs", terminates(debugging(CIRCLES)).steps, PROFILE),
    Row("terminate ends a program that stands still", terminates(at_entry()).steps, PROFILE),
    Row("terminate ends a program that is paused", terminates(debugging(CIRCLES).asks("pause")).steps, PROFILE),
    Row("terminate before all is said", terminates_before_all_is_said().steps, PROFILE),
    Row("disconnect ends what was launched", leaves(False).steps, PROFILE),
    Row("disconnect ends where that is asked for", leaves(False, terminateDebuggee=True, suspendDebuggee=True).steps, PROFILE),
    Row("disconnect leaves a program that runs on", leaves(True, terminateDebuggee=False).steps, PROFILE),
    Row("disconnect suspends", leaves(False, terminateDebuggee=False, suspendDebuggee=True).steps, PROFILE),
    Row("disconnect leaves a program that stands still", leaves(False, at_entry(), terminateDebuggee=False).steps, PROFILE),
    Row("disconnect of an editor that debugs nothing", leaves_another().steps, PROFILE),
    Row("disconnect clears a pause", leaves_a_pause().steps, PROFILE),
    Row("a program runs on where the connection is dropped", dropped().steps, PROFILE),
    Row("a drop clears the mark of the entry", dropped_at_entry().steps, PROFILE),
    Row("an editor that has not said all is told nothing", untold().steps, PROFILE),
    Row("a program that is there from the beginning", given().steps, PROFILE, refused=True),
    Row("the last number is an event's", last_numbers().steps, PROFILE),
    Row("the last number is that of the exit", last_number_of_an_exit().steps, PROFILE),
    Row("the last number leaves a launch unanswered", last_number_of_a_launch().steps, PROFILE),
    Row("the last number is that of a launch", last_number_before_the_event().steps, PROFILE),
    Row("sizes of memory, and which error comes first", sizes(), PROFILE),
    Row("the events of a program, applied", applied().steps, PROFILE),
    Row("the greatest program", greatest_program().steps, PROFILE),
    Row("the most moves", most_moves().steps, PROFILE),
    Row("a program that is debugged where events found no memory and are given again", anew().steps, PROFILE, refused=True),
    *(without_memory(name, session) for name, session in FOUND_NONE),
    store_made_later(),
    *(Row("a program that %s needs no memory to run" % what, runs_on(file).steps, PROFILE, refused=True)
      for what, file in (("goes in a circle", CIRCLES), ("stores where it has stored", KEEPS_ON))),
]
