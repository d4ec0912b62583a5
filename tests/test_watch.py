"""The built program's `watch SCRIPT`: what an editor knows by a script, beside what there was to see, and what is said where nothing is."""
import json
import os
import re
import resource
import subprocess
import tempfile

from support.allocations import each_refusal
from support.debugging import PATH
from support.machine import REGISTERS
from support.program import PROGRAM, TOP, expect, frame
from support.programs import CALLS, CIRCLES, PRINTS, RECURS

NAME = "script"
FILE = "p.s"


# ---- scripts

def sends(seq, command, **arguments):
    """The line of a request. One that names a thread names the first."""
    message = {"seq": seq, "type": "request", "command": command}
    return "send " + json.dumps({**message, "arguments": arguments} if arguments else message, separators=(",", ":"))


BEGINS = [sends(1, "initialize", adapterID="rvdap"), sends(2, "launch", program=PATH)]
ENTERS = [sends(1, "initialize", adapterID="rvdap"), sends(2, "launch", program=PATH, stopOnEntry=True)]
THREAD = {"threadId": 1}
REGISTERS_OF_FRAME_0 = [sends(5, "scopes", frameId=1), "turn", sends(6, "variables", variablesReference=2), "turn"]


def launched(begins, *configures):
    """A program is loaded, and is given these requests before `configurationDone`, from number 3 on."""
    asked = [line for number, (command, arguments) in enumerate(configures, 3) for line in (sends(number, command, **arguments), "turn")]
    return ["connect", *begins, "turn", "turn " + FILE, *asked, sends(3 + len(configures), "configurationDone"), "turn"]


def with_script(text, program, check):
    """Calls check(run), where run(environment, output) plays the script (a text) beside the program's file."""
    with tempfile.TemporaryDirectory() as folder:
        for name, data in ((NAME, text.encode()), (FILE, program)):
            with open(os.path.join(folder, name), "wb") as file:
                file.write(data)

        def run(environment=None, output=subprocess.PIPE):
            ran = subprocess.run([PROGRAM, "watch", NAME], cwd=folder, env=environment, stdin=subprocess.DEVNULL, stdout=output, stderr=subprocess.PIPE,
                                 timeout=60)
            return ran.stdout, ran.stderr, ran.returncode

        return check(run)


def watched(lines, program, cut="all", connection=1):
    """What is printed of this script, on standard output and error, and the status."""
    text = "".join(line + "\n" for line in [*lines, "watch %d %s" % (connection, cut)])
    return with_script(text, program, lambda run: run())


def expect_watched(name, lines, program, wanted, **watch):
    out, err, status = watched(lines, program, **watch)
    expect((err, status), (b"", 0), "%s: standard error and status" % name)
    expect(out.decode(), "".join(line + "\n" for line in wanted), name)


# ---- the program that prints and stops

PRINTING = [*launched(BEGINS), "slice 100"]
# How many bytes its editor gets, up to the stop.
STOPS = 1221
LOOKS = [sends(4, "stackTrace", **THREAD), "turn", *REGISTERS_OF_FRAME_0]


def known_registers(pc, sp=0x110000, **values):
    values = {"sp": sp, **values}
    return ["%s 0x%08x 0x%08x" % (name, values.get(name, 0), values.get(name, 0)) for name in REGISTERS] + ["pc 0x%08x 0x%08x" % (pc, pc)]


def what_was_printed_is_told_while_the_program_runs():
    """It prints and then stops: up to the last byte of the stop it is known to run."""
    expect_watched("through the output", PRINTING, PRINTS, ["run running running"], cut=1087)
    expect_watched("a byte before the stop", PRINTING, PRINTS, ["run running running"], cut=1220)
    expect_watched("the stop", PRINTING, PRINTS, ["run stopped stopped"], cut=STOPS)
    expect_watched("all", PRINTING, PRINTS, ["run stopped stopped"])
    expect_watched("all, and then a look", PRINTING + LOOKS, PRINTS, ["run stopped stopped", "frame 0 0x00010010 0x00010010", *known_registers(0x10010, a0=7, a7=1)])
    expect_watched("the stop, though more came", PRINTING + LOOKS, PRINTS, ["run stopped stopped"], cut=STOPS)


def what_a_logpoint_says_is_told_while_the_program_runs():
    """There is one at the ebreak, the next instruction, after which the program stops: its text comes after the number, and before the stop."""
    entry = {"line": 4, "logMessage": "stops"}
    lines = [*launched(BEGINS, ("setBreakpoints", {"source": {"path": PATH}, "breakpoints": [entry]})), "slice 100"]
    answer = ('{"body":{"breakpoints":[{"id":1,"instructionReference":"0x0001000c","line":4,"verified":true}]},"command":"setBreakpoints",'
              '"request_seq":3,"seq":4,"success":true,"type":"response"}')
    says = '{"body":{"category":"console","output":"stops\\n"},"event":"output","seq":7,"type":"event"}'
    stop = '{"body":{"allThreadsStopped":true,"reason":"breakpoint","threadId":1},"event":"stopped","seq":8,"type":"event"}'
    length = STOPS + len(frame(answer)) + len(frame(says))
    expect(watched_length(lines, PRINTS), length, "the bytes up to the stop")
    breaks = ["break 0 1 0x0001000c 0x0001000c"]
    expect_watched("through what it says", lines, PRINTS, ["run running running", *breaks], cut=length - len(frame(stop)))
    expect_watched("a byte before the stop", lines, PRINTS, ["run running running", *breaks], cut=length - 1)
    expect_watched("the stop", lines, PRINTS, ["run stopped stopped", *breaks], cut=length)


def before_a_message_is_whole_nothing_is_known():
    expect_watched("no byte", PRINTING, PRINTS, ["run unknown -"], cut=0)
    expect_watched("a byte before the first message's end", PRINTING, PRINTS, ["run unknown -"], cut=702)
    expect_watched("the first message", PRINTING, PRINTS, ["run unknown unknown"], cut=703)


def a_program_that_was_launched_is_not_known_to_stand():
    expect_watched("before its start", ["connect", *BEGINS, "turn", "turn " + FILE], PRINTS, ["run unknown stopped"])


def each_frame_is_known():
    """A function calls itself for ever: it and its 256 newest calls are shown, each but the first at its second word."""
    lines = [*launched(BEGINS), "slice 1000", "hold", "slice 1", sends(4, "stackTrace", **THREAD), "turn"]
    frames = ["frame 0 0x00010008 0x00010008", *("frame %d 0x0001000c 0x0001000c" % index for index in range(1, 257))]
    expect_watched("257 frames", lines, b"_start: call f\nf: call f\n", ["run stopped stopped", *frames])


def what_was_not_asked_for_is_not_known():
    """A mirror learns no register of a program that is only run."""
    out, _, _ = watched(PRINTING, PRINTS)
    expect(out, b"run stopped stopped\n", "the facts")


# ---- what each message tells

ENTERED = [*launched(ENTERS), "slice 0"]
ONE_BREAK = ("setBreakpoints", {"source": {"path": PATH}, "breakpoints": [{"line": 5}]})
LOOKED = [*ENTERED, *LOOKS]
AT_ENTRY = ["run stopped stopped", "frame 0 0x00010000 0x00010000", *known_registers(0x10000)]
RAN = ["run running running"]
# After a step, with its frame.
GONE_ON = [*ENTERED, sends(4, "stepIn", **THREAD), "turn", "slice 9", sends(5, "stackTrace", **THREAD), "turn"]


def told(lines, *asked, then=()):
    """These requests more, from number 7 on, each answered; and then this."""
    return [*lines, *(line for number, (command, arguments) in enumerate(asked, 7) for line in (sends(number, command, **arguments), "turn")), *then]


TABLE = [
    ("a stop", ENTERED, CALLS, ["run stopped stopped"]),
    ("what is known of a stop", LOOKED, CALLS, AT_ENTRY),
    ("threads tells nothing", told(LOOKED, ("threads", {})), CALLS, AT_ENTRY),
    ("continue", told(LOOKED, ("continue", THREAD)), CALLS, RAN),
    ("next", told(LOOKED, ("next", THREAD)), CALLS, RAN),
    ("stepIn", told(LOOKED, ("stepIn", THREAD)), CALLS, RAN),
    ("stepOut", told(LOOKED, ("stepOut", THREAD)), CALLS, RAN),
    ("a stop after a step", GONE_ON, CALLS, ["run stopped stopped", "frame 0 0x00010004 0x00010004"]),
    ("stepBack", told(GONE_ON, ("stepBack", THREAD)), CALLS, RAN),
    ("stepBack, to its stop", told(GONE_ON, ("stepBack", THREAD), then=["slice 9"]), CALLS, ["run stopped stopped"]),
    ("reverseContinue", told(GONE_ON, ("reverseContinue", THREAD)), CALLS, RAN),
    ("a step back where nothing is recorded", told(LOOKED, ("stepBack", THREAD)), CALLS, AT_ENTRY),
    ("restart", told(LOOKED, ("restart", {})), CALLS, RAN),
    ("a resume that is refused", told(LOOKED, ("continue", {"threadId": 2})), CALLS, AT_ENTRY),
    ("configurationDone after launch", launched(BEGINS), CALLS, RAN),
    ("an exit", told(LOOKED, ("continue", THREAD), then=["slice 100"]), CALLS, ["run ended:6 ended:6"]),
    ("terminate", told(LOOKED, ("terminate", {})), CALLS, ["run ended ended"] + AT_ENTRY[1:]),
    ("disconnect", told(LOOKED, ("disconnect", {})), CALLS, ["run unknown ended"]),
    ("setBreakpoints", launched(BEGINS, ONE_BREAK), CALLS, ["run running running", "break 0 1 0x00010014 0x00010014"]),
    ("setBreakpoints replaces a list", launched(BEGINS, ONE_BREAK, ("setBreakpoints", {"source": {"path": PATH}, "breakpoints": [{"line": 4}]})), CALLS,
     ["run running running", "break 0 2 0x00010010 0x00010010"]),
    ("breakpoints that are not verified", launched(BEGINS, ("setBreakpoints", {"source": {"path": PATH}, "breakpoints": [{"line": 9}, {"line": 4}]})), CALLS,
     ["run running running", "break 0 1 0x00010010 0x00010010"]),
    ("setBreakpoints of another source", launched(BEGINS, ("setBreakpoints", {"source": {"path": "/w/q.s"}, "breakpoints": [{"line": 5}]})), CALLS, RAN),
    ("setInstructionBreakpoints", launched(BEGINS, ("setInstructionBreakpoints", {"breakpoints": [{"instructionReference": "0x10010", "offset": 4}]})), CALLS,
     ["run running running", "ibreak 0 1 0x00010014 0x00010014"]),
    ("setFunctionBreakpoints", launched(BEGINS, ("setFunctionBreakpoints", {"breakpoints": [{"name": "g"}, {"name": "f"}, {"name": "_start"}]})), CALLS,
     ["run running running", "fbreak 0 1 0x00010014 0x00010014", "fbreak 1 2 0x00010000 0x00010000"]),
    ("one breakpoint of each kind", launched(BEGINS, ("setFunctionBreakpoints", {"breakpoints": [{"name": "f"}]}), ONE_BREAK,
                                             ("setInstructionBreakpoints", {"breakpoints": [{"instructionReference": "0x10010"}]})), CALLS,
     ["run running running", "break 0 2 0x00010014 0x00010014", "ibreak 0 3 0x00010010 0x00010010", "fbreak 0 1 0x00010014 0x00010014"]),
    ("readMemory", told(ENTERED, ("readMemory", {"memoryReference": "0x10000", "count": 4})), CALLS,
     ["run stopped stopped", "byte 0x00010000 13 13", "byte 0x00010001 05 05", "byte 0x00010002 50 50", "byte 0x00010003 00 00"]),
    ("readMemory past the end", told(ENTERED, ("readMemory", {"memoryReference": "0x10ffff", "count": 4})), CALLS, ["run stopped stopped", "byte 0x0010ffff 00 00"]),
    ("writeMemory", told(ENTERED, ("writeMemory", {"memoryReference": "0x20000", "data": "Eyo="})), CALLS,
     ["run stopped stopped", "byte 0x00020000 13 13", "byte 0x00020001 2a 2a"]),
    ("setVariable", told(ENTERED, ("stackTrace", THREAD), ("scopes", {"frameId": 1}), ("setVariable", {"variablesReference": 2, "name": "a0", "value": "-1"})), CALLS,
     ["run stopped stopped", "frame 0 0x00010000 0x00010000", "a0 0xffffffff 0xffffffff"]),
    ("a part of the registers", told(ENTERED, ("stackTrace", THREAD), ("scopes", {"frameId": 1}), ("variables", {"variablesReference": 2, "start": 31, "count": 2})), CALLS,
     ["run stopped stopped", "frame 0 0x00010000 0x00010000", "t6 0x00000000 0x00000000", "pc 0x00010000 0x00010000"]),
    ("frames from the second on", told([*launched(BEGINS, ONE_BREAK), "slice 100"], ("stackTrace", {**THREAD, "startFrame": 1})), CALLS,
     ["run stopped stopped", "break 0 1 0x00010014 0x00010014", "frame 1 0x00010008 0x00010008"]),
]


def each_line_of_the_table_of_facts():
    for name, lines, program, wanted in TABLE:
        expect_watched(name, lines, program, wanted)


def an_end_is_known_by_the_answer():
    """A program is ended by an answer, and `terminated` comes after it: the first of these is enough."""
    lines = told(ENTERED, ("terminate", {}))
    length = int(watched_length(lines, CALLS))
    last = len(b'Content-Length: 44\r\n\r\n{"event":"terminated","seq":7,"type":"event"}')
    expect_watched("through the answer", lines, CALLS, ["run ended ended"], cut=length - last)
    expect_watched("a byte less", lines, CALLS, ["run stopped stopped"], cut=length - last - 1)


def watched_length(lines, program, connection=1):
    """How many bytes the connection gets: the greatest cut that is taken, found by halving."""
    few, many = 0, 1 << 20
    while few < many:
        middle = (few + many + 1) // 2
        few, many = (middle, many) if watched(lines, program, cut=middle, connection=connection)[2] == 0 else (few, middle - 1)
    return few


# ---- several connections

SECOND = ["connect", sends(1, "initialize", adapterID="rvdap"), "turn", sends(2, "attach"), "turn", sends(3, "configurationDone"), "turn"]


def each_connection_has_facts_of_its_own():
    lines = [*launched(BEGINS), "slice 10", "drop", *SECOND]
    expect_watched("a program that runs on is told of", lines, CIRCLES, ["run running running"], connection=2)
    expect_watched("the first connection", lines, CIRCLES, ["run running running"], connection=1)
    stops = [*lines, sends(4, "pause", **THREAD), "turn", "slice 10"]
    expect_watched("the second one stops it", stops, CIRCLES, ["run stopped stopped"], connection=2)
    expect_watched("which the first one is not told", stops, CIRCLES, ["run running running"], connection=1)


# ---- events

def a_refused_event_is_passed_over():
    lines = ["drop", "turn", "sent 1", "connect", "connect", *PRINTING[1:]]
    expect_watched("refused events", lines, PRINTS, ["run stopped stopped"])


def bytes_that_were_sent_are_watched_too():
    expect_watched("after all were sent", [*PRINTING, "sent %d" % STOPS], PRINTS, ["run stopped stopped"], cut=STOPS)


def a_piece_may_be_cut_anywhere():
    body = sends(1, "initialize", adapterID="rvdap")[len("send "):].encode()
    whole = b"Content-Length: %d\r\n\r\n%s" % (len(body), body)
    cut = ["bytes " + whole[:20].hex(), "bytes " + whole[20:].hex().upper()]
    lines = ["connect", *cut, *PRINTING[2:]]
    expect_watched("two pieces", lines, PRINTS, ["run stopped stopped"])


def a_held_program_stops():
    expect_watched("held", [*launched(BEGINS), "slice 10", "hold", "slice 10"], CIRCLES, ["run stopped stopped"])


def a_file_that_cannot_be_read_refuses_a_launch():
    lines = ["connect", *BEGINS, "turn", "turn no-such-file", sends(3, "configurationDone"), "turn"]
    expect_watched("no file", lines, PRINTS, ["run unknown unknown"])


def a_slice_is_as_its_moves():
    """However a run is cut into slices, the same is known."""
    at_stop = ["run stopped stopped", "break 0 1 0x00010024 0x00010024", "frame 0 0x00010024 0x00010024", "frame 1 0x00010008 0x00010008"]
    begins = launched(BEGINS, ("setBreakpoints", {"source": {"path": PATH}, "breakpoints": [{"line": 9}]}))
    looks = [sends(5, "stackTrace", **THREAD), "turn"]
    expect_watched("at once", [*begins, "slice 100", *looks], RECURS, at_stop)
    expect_watched("move by move", [*begins, *["slice 1"] * 8, *looks], RECURS, at_stop)
    expect_watched("in two", [*begins, "slice 3", "slice 97", *looks], RECURS, at_stop)


# ---- what is said where nothing is known

def expect_fault(lines, line, **watch):
    text_lines = [*lines, "watch %d %s" % (watch.get("connection", 1), watch.get("cut", "all"))]
    expect(watched(lines, PRINTS, **watch), (b"", b"rvdap: %s: line %d\n" % (NAME.encode(), line or len(text_lines)), 1), "the line")


def the_first_wrong_line_is_said():
    expect_fault(["connect", "turn ", "bogus"], 2)
    expect_fault(["connect", "slice x"], 2)
    expect_fault(["watch 1 all"], 1)
    expect_fault(PRINTING, None, cut=STOPS + 1)
    expect_fault(PRINTING, None, connection=2)
    expect_fault(PRINTING, None, connection=0)
    expect_fault(PRINTING, None, cut="18446744073709551615")
    with_script("", PRINTS, lambda run: expect(run(), (b"", b"rvdap: script: line 1\n", 1), "an empty script"))


def watch_of(path):
    """What comes of the script in a file. It has a GiB of memory at most: one that is read on and on would take all."""
    def limit():
        resource.setrlimit(resource.RLIMIT_AS, (1 << 30, 1 << 30))

    ran = subprocess.run([PROGRAM, "watch", path], cwd=TOP, stdin=subprocess.DEVNULL, capture_output=True, preexec_fn=limit, timeout=60)
    return ran.stdout, ran.stderr, ran.returncode


def a_script_that_cannot_be_read_is_said():
    with tempfile.TemporaryDirectory() as folder:
        fifo, endless = (os.path.join(folder, name) for name in ("fifo", "endless"))
        os.mkfifo(fifo)
        with open(endless, "wb") as file:
            file.truncate(1 << 34)
        for path in ("no-such-script", ".", fifo, endless, "/dev/zero", "/dev/tty", "/dev/stdin"):
            expect(watch_of(path), (b"", b"rvdap: %s: cannot read\n" % path.encode(), 1), path)


def a_script_may_have_16_mib():
    with tempfile.TemporaryDirectory() as folder:
        path, longest = os.path.join(folder, "longest"), 1 << 24
        # A piece of so many bytes is not taken, so nothing is told.
        before, after = b"connect\nbytes ", b"\nwatch 1 all"
        text = before + b"0" * (longest - len(before + after)) + after
        for more, wanted in ((b"", (b"run unknown -\n", b"", 0)), (b"\n", (b"", b"rvdap: %s: cannot read\n" % path.encode(), 1))):
            with open(path, "wb") as file:
                file.write(text + more)
            expect(watch_of(path), wanted, "%d bytes" % (longest + len(more)))


def other_words_are_a_fault_of_usage():
    for words in (["watch"], ["watch", "a", "b"], ["watch", "--memory", "4", "a"], ["--memory", "4", "watch", "a"]):
        ran = subprocess.run([PROGRAM, *words], capture_output=True, timeout=60)
        expect((ran.stdout, ran.returncode), (b"", 2), " ".join(words))
        expect(ran.stderr.startswith(b"error: "), True, " ".join(words))


def an_output_that_is_not_taken_is_said():
    text = "".join(line + "\n" for line in [*PRINTING, "watch 1 all"])
    with open("/dev/full", "wb") as full:
        with_script(text, PRINTS, lambda run: expect(run(output=full)[1:], (b"rvdap: read or write fault\n", 1), "a full device"))


def it_ends_well_without_memory():
    """Each allocation refused in turn, and one of some where more is looked at: the facts are printed, or it is said that no memory is left, and
    nothing is printed."""
    ends_well_without_memory([*launched(ENTERS), "watch 1 all"], 1)
    ends_well_without_memory([*PRINTING, *LOOKS, "watch 1 all"], 37)


def ends_well_without_memory(lines, step):
    def check(run):
        whole = run()

        def once(environment):
            out, err, status = run(environment)
            expect((out, err, status) in (whole, (b"", b"rvdap: no memory\n", 1)), True, "what comes of a refused allocation: %r" % ((out, err, status),))
            return status

        expect(sum(each_refusal(once, step)) > 5, True, "some found no memory")

    with_script("".join(line + "\n" for line in lines), PRINTS, check)


# ---- the example

def the_example_shows_what_the_document_says():
    with open(os.path.join(TOP, "docs", "PROTOCOL.md"), encoding="utf-8") as file:
        shown = re.search(r"```\n\$ rvdap watch examples/sorting.watch\n(.*?)```\n", file.read(), re.S)[1]
    ran = subprocess.run([PROGRAM, "watch", "examples/sorting.watch"], cwd=TOP, capture_output=True, timeout=60)
    expect((ran.stdout.decode(), ran.stderr, ran.returncode), (shown, b"", 0), "what is printed of the example")


def checks():
    found = (what_was_printed_is_told_while_the_program_runs, what_a_logpoint_says_is_told_while_the_program_runs,
             before_a_message_is_whole_nothing_is_known, a_program_that_was_launched_is_not_known_to_stand, each_frame_is_known,
             what_was_not_asked_for_is_not_known, each_line_of_the_table_of_facts,
             an_end_is_known_by_the_answer, each_connection_has_facts_of_its_own, a_refused_event_is_passed_over,
             bytes_that_were_sent_are_watched_too, a_piece_may_be_cut_anywhere, a_held_program_stops, a_file_that_cannot_be_read_refuses_a_launch,
             a_slice_is_as_its_moves, the_first_wrong_line_is_said, a_script_that_cannot_be_read_is_said,
             a_script_may_have_16_mib, other_words_are_a_fault_of_usage,
             an_output_that_is_not_taken_is_said, it_ends_well_without_memory, the_example_shows_what_the_document_says)
    return [(check.__name__.replace("_", " "), check) for check in found]
