"""Programs that go back: by a step or to a breakpoint, how far, and what gives up their past."""
from rows.session_breaks import at_instructions, at_lines, back
from rows.session_functions import at_functions, f
from rows.session_runs import EBREAK, ENTRY, GREATEST, GREATEST_RETIRED, LIMIT, PAUSE, STEP, limited, without_memory
from support.breaks import at, is_set, named, on
from support.debugging import BAD_ARGUMENTS, NO_HISTORY, WAS_CANCELLED, exits, logged, printed, stopped
from support.looks import BAD_VALUE, BASE, END, NOT_WRITABLE, OUTSIDE_MEMORY, STALE, frame_at, loaded, looking, registers
from support.players import Row
from support.programs import CALLS, CIRCLES, COUNTS, PRINTS, WRITES_ITSELF

PLAYER = "test_session"
PROFILE = "docs/PROTOCOL.md, \"Going back\", and docs/MACHINE.md, \"Going back\", worked by hand"

START = stopped("step", "start of history")
INSTRUCTION = {"threadId": 1, "granularity": "instruction"}
RECORDED = 65536

# Counts its rounds, of two instructions each, in a0.
ROUNDS = b"e: addi a0, a0, 1\nj e\n"
# Calls itself for ever; the first call is at another address than the others.
DEEPENS = b"_start: call t\nt: call t\n"
# Stores a byte, a halfword and a word over a word of data.
STORES = b"_start: la t0, n\nli t1, -1\nsb t1, 1(t0)\nsh zero, 2(t0)\nsw t1, 0(t0)\nebreak\nn: .word 0x55555555\n"
# An illegal instruction after one that is none.
TRAPS = b"nop\n.word 0\n"


def at_entry(file=CALLS, *new):
    return looking(file, *new, stopOnEntry=True).slices(100, 0, "Stopped", ENTRY)


def after_a_step(file=CALLS, *new):
    return at_entry(file, *new).asks("stepIn").slices(9, 1, "Stopped", STEP)


def is_at(script, pc, a0):
    """Where the program stands, and what is in a0."""
    return script.evaluates("pc", pc).evaluates("a0", a0)


def steps_back(script, pc, a0):
    return is_at(script.asks("stepBack").slices(9, 1, "Stopped", STEP), pc, a0)


def runs_back(script, moved, event):
    return script.asks("reverseContinue").slices(100000, moved, "Stopped", event)


def has_no_past(script):
    return script.asks("stepBack", NO_HISTORY).asks("reverseContinue", NO_HISTORY).slices(9, 0, "Idle")


def has_one_move(script):
    """One move is recorded, and it is taken back."""
    return has_no_past(script.asks("stepBack").slices(9, 1, "Stopped", STEP))


def rounds(count, *asked):
    """COUNTS, stopped so often at its first breakpoint, which is after the call."""
    script = loaded(COUNTS).sets(asked, [back(number) for number in range(1, len(asked) + 1)]).asks("configurationDone")
    for number in range(count):
        script.slices(100, 5 if number else 4, "Stopped", at_lines(1)).asks("continue")
    return script.asks("pause").slices(9, 0, "Stopped", PAUSE)


# ---- by steps

def one_step():
    return has_no_past(steps_back(after_a_step(), BASE, 0))


def over_a_print():
    """A number that was printed stays printed, and is printed again."""
    script = looking(PRINTS).slices(100, 4, "Stopped", printed(7), EBREAK)
    script = steps_back(steps_back(script, 0x1000c, 7), 0x10008, 7)
    return is_at(script.asks("stepIn", **INSTRUCTION).slices(9, 1, "Stopped", printed(7), STEP), 0x1000c, 7)


# Where CALLS was before each of its instructions, the newest first: the address, its label and line, whether its call is open, and what is
# in ra and a0.
PLACES = [(0x1000c, ("_start+12", 3), False, 0x1000c, 6), (0x10018, ("f+4", 6), True, 0x1000c, 6), (0x10014, ("f", 5), True, 0x1000c, 5),
          (0x10008, ("_start+8", 2), False, 0x10004, 5), (0x10004, ("_start+4", 2), False, 0, 5), (BASE, ("_start", 1), False, 0, 0)]


def through_a_call():
    """Frames and all registers before each instruction; the numbers of a stop are stale after the next step."""
    script = loaded(CALLS).sets([at(4)], [is_set(1, 0x10010, 4)]).asks("configurationDone").slices(99, 6, "Stopped", at_lines(1))
    number = 1
    for pc, place, is_called, ra, a0 in PLACES:
        script.asks("stepBack").slices(9, 1, "Stopped", STEP)
        frames = [frame_at(number, pc, *place)] + is_called * [frame_at(number + 1, 0x10008, "_start+8", 2)]
        scope = number + len(frames)
        script.trace(frames).scopes(number, scope, scope + 1).lists(scope, registers(pc, ra=ra, a0=a0))
        if number > 1:
            script.asks("scopes", STALE, frameId=1)
        number = scope + 2
    return has_no_past(script)


def stores():
    """Bytes, a halfword and a word have what was there before."""
    script, n = looking(STORES).slices(99, 7, "Stopped", EBREAK), 0x1001c
    for data in ("ffffffff", "ffffffff", "55ff0000", "55ff5555", "55555555"):
        script.reads("0x%x" % n, 4, n, bytes.fromhex(data)).asks("stepBack").slices(9, 1, "Stopped", STEP)
    return runs_back(script, 2, START).asks("continue").slices(99, 7, "Stopped", EBREAK).reads("0x%x" % n, 4, n, b"\xff" * 4)


def stores_over_code():
    """The instruction that was stored over is executed again, and not the one that was stored."""
    script, p = looking(WRITES_ITSELF).slices(99, 15, "Stopped", EBREAK).evaluates("[0x10018]", 0x00150513), 0x10018
    for _ in range(8):
        script.asks("stepBack").slices(9, 1, "Stopped", STEP)
    script = steps_back(script, p, 0).evaluates("[pc]", 0x0063a023)
    script = is_at(script.asks("stepIn", **INSTRUCTION).slices(9, 1, "Stopped", STEP), p + 4, 0).evaluates("[0x10018]", 0x00150513)
    script = is_at(runs_back(script, 7, START), BASE, 0)
    return is_at(script.asks("continue").slices(99, 15, "Stopped", EBREAK), 0x10024, 3)


def of_each_granularity():
    """A step back is one instruction, whichever is asked for."""
    script = at_entry().asks("next").slices(9, 1, "Stopped", STEP).asks("next").slices(9, 4, "Stopped", STEP)
    for pc, arguments in ((0x10018, {"granularity": "line"}), (0x10014, {"granularity": "statement"}), (0x10008, {"granularity": "instruction"})):
        script.asks("stepBack", threadId=1, **arguments).slices(9, 1, "Stopped", STEP).evaluates("pc", pc)
    return script.asks("stepBack", BAD_ARGUMENTS, threadId=1, granularity="word")


def a_trap():
    """A trap is no move."""
    script = looking(TRAPS).slices(9, 1, "Stopped", stopped("exception", "illegal instruction"))
    script = steps_back(script, BASE, 0).asks("continue").slices(9, 1, "Stopped", stopped("exception", "illegal instruction"))
    return has_no_past(runs_back(script, 1, START))


def a_call_that_was_forgotten():
    """Of 257 calls the oldest is forgotten; before the last of these it is there, and once this is made again it is forgotten again."""
    oldest = {"startFrame": 256}
    script = looking(DEEPENS).slices(514, 514, "Spent").asks("pause").slices(9, 0, "Stopped", PAUSE)
    script.trace([frame_at(1, 0x1000c, "t+4", 2)], 257, **oldest).asks("stepBack").slices(9, 1, "Stopped", STEP)
    script.trace([frame_at(2, 0x10004, "_start+4", 1)], 257, **oldest).asks("stepIn", **INSTRUCTION).slices(9, 1, "Stopped", STEP)
    script.trace([frame_at(3, 0x1000c, "t+4", 2)], 257, **oldest)
    script = runs_back(script, 514, START).trace([frame_at(4, BASE, "_start", 1)])
    return has_no_past(script)


# ---- to a breakpoint

def to_each_round():
    script = rounds(2, at(2))
    script = is_at(runs_back(script, 5, at_lines(1)), 0x10008, 1)
    return has_no_past(is_at(runs_back(script, 4, START), BASE, 0))


def as_far_as_is_recorded():
    script = looking(CIRCLES).slices(RECORDED + 1, RECORDED + 1, "Spent").asks("pause").slices(9, 0, "Stopped", PAUSE)
    return has_no_past(runs_back(script, RECORDED, START))


def not_to_the_start():
    """Two moves more than are recorded were made: a round is not taken back. The run is told of no slice but its last."""
    script = looking(ROUNDS).slices(RECORDED + 2, RECORDED + 2, "Spent").asks("pause").slices(9, 0, "Stopped", PAUSE)
    script = is_at(script, BASE, RECORDED // 2 + 1).asks("reverseContinue").slices(RECORDED - 1, RECORDED - 1, "Spent")
    return has_no_past(is_at(script.slices(9, 1, "Stopped", START), BASE, 1))


def without_hits():
    """It stops at each hit, whatever number it waits for, and counts none: the next one on the way forward is the fourth."""
    script = loaded(COUNTS).sets([at(2, None, "3")], [back(1)]).asks("configurationDone").slices(100, 14, "Stopped", at_lines(1))
    script = runs_back(runs_back(script, 5, at_lines(1)), 5, at_lines(1))
    return is_at(script, 0x10008, 1).asks("continue").slices(100, 5, "Stopped", at_lines(1)).evaluates("a0", 2)


def not_hit_yet():
    """One that was not hit so often does not stop the program on its way forward after a run back."""
    script = loaded(COUNTS).sets([at(2, None, "3")], [back(1)]).asks("configurationDone").slices(9, 9, "Spent").asks("pause")
    script = runs_back(runs_back(script.slices(9, 0, "Stopped", PAUSE), 5, at_lines(1)), 4, START)
    return script.asks("continue").slices(100, 4, "Stopped", at_lines(1)).evaluates("a0", 1)


def where_a_condition_holds():
    """It stops where the condition is not 0, or has no value."""
    script = rounds(3, at(2)).sets([at(2, "a0 == 1"), at(3, "a0 == 0"), at(1, "0")], [back(2), is_set(3, 0x1000c, 3), is_set(4, BASE, 1)])
    script = is_at(runs_back(script, 10, at_lines(2)), 0x10008, 1)
    script = is_at(runs_back(script, 2, at_lines(3)), 0x1000c, 0)
    return has_no_past(runs_back(script.sets([at(2, "[0]")], [back(5)]), 2, START))


def where_a_condition_has_no_value():
    return is_at(runs_back(rounds(2, at(2)).sets([at(2, "[0]")], [back(2)]), 5, at_lines(2)), 0x10008, 1)


def past_logpoints():
    """They say nothing and stop nothing; after the run back they speak again."""
    script = loaded(COUNTS).sets([at(2, log="back"), at(3, log="in")], [back(1), is_set(2, 0x1000c, 3)]).asks("configurationDone")
    script.slices(5, 5, "Spent", logged("in"), logged("back")).asks("pause").slices(9, 0, "Stopped", PAUSE)
    script = runs_back(script, 5, START).asks("continue")
    return script.slices(5, 5, "Spent", logged("in"), logged("back"))


def past_an_ebreak():
    script = looking(PRINTS).slices(100, 4, "Stopped", printed(7), EBREAK).asks("continue").slices(5, 5, "Spent").asks("pause")
    script = is_at(runs_back(script.slices(9, 0, "Stopped", PAUSE), 9, START), BASE, 0)
    return script.asks("continue").slices(100, 4, "Stopped", printed(7), EBREAK)


def of_each_kind():
    """The reason is that of the first list with a breakpoint there; all are named."""
    script = rounds(2, at(2)).sets([], []).sets_at_instructions([on("0x10000"), on("0x1000c")], [is_set(2, BASE), is_set(3, 0x1000c)])
    script.sets_at_functions([named("f"), named("_start", "a0 == 0")], [f(4), is_set(5, BASE)])
    script = runs_back(runs_back(script, 2, at_instructions(3, 4)), 2, at_instructions(2))
    script = runs_back(script.sets_at_instructions([], []), 3, at_functions(4))
    return has_no_past(runs_back(script.sets([at(1)], [is_set(6, BASE, 1)]), 2, at_lines(6, 5)))


def where_it_stands():
    """No breakpoint is looked at where the run begins."""
    script = rounds(1, at(2)).sets([at(2), at(4)], [back(2), is_set(3, 0x10010, 4)])
    return runs_back(runs_back(script, 1, at_lines(3)), 3, START)


# ---- in slices, and with marks

def in_slices():
    """A step and a run back wait for a slice that may move."""
    script = after_a_step().asks("stepBack").runs(True).slices(0, 0, "Spent").slices(1, 1, "Stopped", STEP).runs(False)
    script = script.asks("continue").slices(4, 4, "Spent").asks("pause").slices(9, 0, "Stopped", PAUSE)
    script.asks("reverseContinue").slices(0, 0, "Spent").slices(3, 3, "Spent").runs(True).slices(1, 1, "Stopped", START)
    return script.runs(False)


def paused():
    """A pause stops a run back before its next move, and a run forward goes from there."""
    script = looking(ROUNDS).slices(10, 10, "Spent").asks("pause").slices(9, 0, "Stopped", PAUSE).asks("reverseContinue").slices(3, 3, "Spent")
    script = is_at(script.asks("pause").slices(9, 0, "Stopped", PAUSE), 0x10004, 4).asks("stepIn", **INSTRUCTION)
    script = is_at(script.slices(9, 1, "Stopped", STEP), BASE, 4).asks("stepBack").asks("pause").slices(9, 0, "Stopped", PAUSE)
    return is_at(runs_back(script, 8, START), BASE, 0)


def held():
    script = after_a_step().asks("stepBack").does("hold", "ok").slices(9, 0, "Stopped", PAUSE)
    return has_one_move(is_at(script, 0x10004, 5))


def of_no_limit():
    """The limit stops a program on its way forward, and an instruction that is taken back may be executed again."""
    script = looking(ROUNDS, *limited(retired=5)).slices(1000, 5, "Stopped", LIMIT)
    script = steps_back(script, BASE, 2).asks("continue").slices(1000, 1, "Stopped", LIMIT)
    script = is_at(runs_back(script, 5, START), BASE, 0)
    return script.asks("continue").slices(1000, 5, "Stopped", LIMIT).asks("continue").slices(1000, 0, "Stopped", LIMIT)


def cancelled():
    """One that is cancelled takes nothing back."""
    script = after_a_step().sends("stepBack")
    number = script.asked
    script.sends("cancel", requestId=number).answers("stepBack", WAS_CANCELLED, seq=number).answers("cancel").takes().runs(False)
    return has_one_move(script)


# ---- what is kept of the past, and what gives it up

def given_up():
    """A register that is set, bytes that are written, and a restart; from then on moves are recorded again."""
    script = has_no_past(after_a_step().writes("0x0001000c", b"\x13\x05\x15\x00", 4))
    script = has_one_move(script.asks("stepIn", **INSTRUCTION).slices(9, 1, "Stopped", STEP))
    script.asks("stepIn", **INSTRUCTION).slices(9, 1, "Stopped", STEP).trace([frame_at(1, 0x10008, "_start+8", 2)]).scopes(1, 2, 3)
    script = has_no_past(script.sets_variable(2, "a0", "7", 7))
    script.asks("stepIn").slices(9, 1, "Stopped", STEP).asks("restart").slices(9, 0, "Stopped", ENTRY)
    return has_no_past(is_at(script, BASE, 0))


def given_up_by_no_bytes():
    return has_no_past(after_a_step().writes("0x0001000c", b"", 0))


def kept_where_nothing_is_set():
    """What is refused, what looks in and what sets breakpoints keep it."""
    script = after_a_step().writes("0x0010fffe", bytes(4), OUTSIDE_MEMORY).writes("0x00110000", bytes(1), OUTSIDE_MEMORY)
    script.trace([frame_at(1, 0x10004, "_start+4", 2)]).scopes(1, 2, 3).sets_variable(2, "a0", "x", BAD_VALUE)
    script.sets_variable(2, "pc", "0", NOT_WRITABLE).lists(2, registers(0x10004, a0=5)).reads("0x0010fffc", 8, END - 4, bytes(4), 4)
    script.sets([at(3)], [is_set(1, 0x1000c, 3)]).sets_at_functions([named("f")], [is_set(2, 0x10014)]).asks("pause").asks("threads")
    return has_one_move(script)


def kept_for_another_editor():
    script = after_a_step().asks("disconnect", terminateDebuggee=False).drops().attaches(STEP)
    return has_one_move(script)


def none_of_another_program():
    script = after_a_step().drops().begins(COUNTS, stopOnEntry=True).slices(9, 0, "Stopped", ENTRY)
    return has_no_past(script)


def to_its_end_again():
    """A program that goes on after a run back ends as it did before."""
    script = loaded(CALLS).sets([at(4)], [is_set(1, 0x10010, 4)]).asks("configurationDone").slices(99, 6, "Stopped", at_lines(1))
    return runs_back(script, 6, START).sets([], []).asks("continue").slices(99, 6, "Ended", *exits(6)).asks("disconnect")


# ---- where there is no memory

def there_and_back(*new):
    """A step back, and runs back to a breakpoint and to the start."""
    script = loaded(COUNTS, *new).sets([at(2)], [back(1)]).asks("configurationDone")
    script.slices(99, 4, "Stopped", at_lines(1)).asks("stepBack").slices(9, 1, "Stopped", STEP).asks("continue").slices(99, 1, "Stopped", at_lines(1))
    script.asks("continue").slices(99, 5, "Stopped", at_lines(1))
    return has_no_past(runs_back(runs_back(script, 5, at_lines(1)), 4, START)).asks("disconnect").does("finished", "true")


def stop_told_later(found):
    """The move is not undone again; its stop is told once there is memory."""
    script = after_a_step().asks("stepBack").does("slice_once 9", "1 %s" % ("Stopped" if found else "NoMemory")).runs(not found)
    return script.does("slice_once 9", "0 Idle" if found else "0 Stopped").tells(STEP).takes().runs(False)


def stop_of_a_run_told_by_a_turn(found):
    script = after_a_step().asks("reverseContinue").does("slice_once 9", "1 %s" % ("Stopped" if found else "NoMemory")).runs(not found)
    script.does("turn", "Nothing" if found else "Answered").tells(START).takes().runs(False)
    return has_no_past(script)


FOUND_NONE = [
    ("a slice tells the stop of a step back that is owed", stop_told_later),
    ("a turn tells the stop of a run back that is owed", stop_of_a_run_told_by_a_turn),
]

ROWS = [
    Row("a step back, and nothing is recorded any more", one_step().steps, PROFILE),
    Row("a number that is printed twice", over_a_print().steps, PROFILE),
    Row("steps back through a call", through_a_call().steps, PROFILE),
    Row("stores that are taken back", stores().steps, PROFILE),
    Row("a store over code that is taken back", stores_over_code().steps, PROFILE),
    Row("a step back of each granularity", of_each_granularity().steps, PROFILE),
    Row("a step back from a trap", a_trap().steps, PROFILE),
    Row("a call that was forgotten comes back", a_call_that_was_forgotten().steps, PROFILE),
    Row("runs back to each round, and to the start", to_each_round().steps, PROFILE),
    Row("a run back over 65,536 moves", as_far_as_is_recorded().steps, PROFILE),
    Row("a run back to the oldest move that is recorded", not_to_the_start().steps, PROFILE),
    Row("a run back counts no hits", without_hits().steps, PROFILE),
    Row("a run back to a breakpoint that was not hit so often", not_hit_yet().steps, PROFILE),
    Row("a run back to where a condition holds", where_a_condition_holds().steps, PROFILE),
    Row("a run back to where a condition has no value", where_a_condition_has_no_value().steps, PROFILE),
    Row("a run back past logpoints", past_logpoints().steps, PROFILE),
    Row("a run back past an ebreak", past_an_ebreak().steps, PROFILE),
    Row("runs back to breakpoints of each kind", of_each_kind().steps, PROFILE),
    Row("a run back from a breakpoint", where_it_stands().steps, PROFILE),
    Row("a step and a run back in slices", in_slices().steps, PROFILE),
    Row("a run back that is paused", paused().steps, PROFILE),
    Row("a step back that is held", held().steps, PROFILE),
    Row("a run back at the limit of instructions", of_no_limit().steps, PROFILE),
    Row("a step back that is cancelled", cancelled().steps, PROFILE),
    Row("what is set gives up the past", given_up().steps, PROFILE),
    Row("no bytes that are written give up the past", given_up_by_no_bytes().steps, PROFILE),
    Row("what sets nothing keeps the past", kept_where_nothing_is_set().steps, PROFILE),
    Row("another editor finds the past", kept_for_another_editor().steps, PROFILE),
    Row("another program has no past", none_of_another_program().steps, PROFILE),
    Row("a program that went back ends as it did", to_its_end_again().steps, PROFILE),
    Row("a program goes back where events found no memory and are given again", there_and_back(4096, GREATEST, GREATEST, GREATEST_RETIRED).steps, PROFILE, refused=True),
    *(without_memory(name, session) for name, session in FOUND_NONE),
]
