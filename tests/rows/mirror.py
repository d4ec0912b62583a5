"""What an editor knows: requests that it sends, bytes that come, and the facts after them.

A row for each line of the table of what a message tells (crates/mirror/specs/Folding.antt). The messages are those of docs/PROTOCOL.md.
"""
from base64 import b64encode
from json import dumps

from rows.events import stop, text_of as event
from support.players import NO_MEMORY, Row, alike, tried
from support.program import frame
from support.texts import CAPABILITIES

PLAYER = "test_mirror"
TAKES_NONE = {"Mirror::new": "new", "Mirror::run": "run", "Mirror::source_break": "source_break", "Mirror::instruction_break": "instruction_break",
              "Mirror::function_break": "function_break", "Mirror::frame": "frame", "Mirror::register": "register", "Mirror::byte": "byte"}
RULES = "docs/HEADLINE.md and docs/PROTOCOL.md, worked by hand"
NONE = "none"
PATH = "/w/p.s"


# ---- what is done

def sent(seq, command, answer="ok", **arguments):
    """The editor sends a request."""
    message = {"seq": seq, "type": "request", "command": command, **({"arguments": arguments} if arguments else {})}
    return "sent " + dumps(message).encode().hex(), answer


def feed(*bodies, answer="ok"):
    """Messages come in one piece."""
    return piece(b"".join(frame(body) for body in bodies), answer)


def piece(data, answer="ok"):
    return "feed " + data.hex(), answer


def success(request_seq, command, body=None, seq=5):
    """A success; the body is a text. The members stand in byte order."""
    return '{%s"command":"%s","request_seq":%d,"seq":%d,"success":true,"type":"response"}' % (
        '"body":%s,' % body if body else "", command, request_seq, seq)


def refusal(request_seq, command, name, number):
    return '{"body":{"error":{"format":"%s","id":%d}},"command":"%s","message":"%s","request_seq":%d,"seq":5,"success":false,"type":"response"}' % (
        name, number, command, name, request_seq)


STOPPED = event("stopped", stop("breakpoint"))
CONTINUED = event("continued", '{"allThreadsContinued":true,"threadId":1}')
EXITED = event("exited", '{"exitCode":6}')
TERMINATED = event("terminated")
GOES_ON = '{"allThreadsContinued":true}'


def verified(number, address, line):
    return '{"id":%d,"instructionReference":"0x%08x","line":%d,"verified":true}' % (number, address, line)


def verified_at(number, address):
    return '{"id":%d,"instructionReference":"0x%08x","verified":true}' % (number, address)


NO_CODE = '{"line":9,"message":"no code at or after this line","verified":false}'
BAD_ADDRESS = '{"message":"bad address","verified":false}'
UNKNOWN_FUNCTION = '{"message":"unknown function","verified":false}'


def breakpoints(*entries):
    return '{"breakpoints":[%s]}' % ",".join(entries)


def frames(*entries, total=3):
    """A body of `stackTrace`: entries are numbers, addresses and names."""
    return '{"stackFrames":[%s],"totalFrames":%d}' % (",".join(
        '{"column":1,"id":%d,"instructionPointerReference":"0x%08x","line":1,"name":"%s","source":{"name":"p.s","path":"/w/p.s"}}' % entry
        for entry in entries), total)


def variables(*entries):
    return '{"variables":[%s]}' % ",".join('{"name":"%s","value":"0x%08x","variablesReference":0}' % entry for entry in entries)


def memory(address, data, unreadable=0):
    return '{"address":"0x%08x","data":"%s"%s}' % (address, b64encode(data).decode(), ',"unreadableBytes":%d' % unreadable if unreadable else "")


# ---- what is known

def run(state):
    return "run", state


def source_break(index, wanted, path=PATH):
    return "source_break %s %d" % (path, index), wanted


def instruction_break(index, wanted):
    return "instruction_break %d" % index, wanted


def function_break(index, wanted):
    return "function_break %d" % index, wanted


def is_frame(index, wanted):
    return "frame %d" % index, wanted


def register(number, wanted):
    return "register %d" % number, wanted


def byte(address, wanted):
    return "byte %d" % address, wanted


# The program stands still, and everything of it was told: a breakpoint of each kind, a frame, a register and a byte.
ALL_TOLD = [
    sent(1, "launch", program=PATH), feed(success(1, "launch")),
    sent(2, "setBreakpoints", source={"path": PATH}, lines=[3]), feed(success(2, "setBreakpoints", breakpoints(verified(1, 0x10008, 3)))),
    sent(3, "setInstructionBreakpoints", breakpoints=[]), feed(success(3, "setInstructionBreakpoints", breakpoints(verified_at(2, 0x1000c)))),
    sent(30, "setFunctionBreakpoints", breakpoints=[]), feed(success(30, "setFunctionBreakpoints", breakpoints(verified_at(3, 0x10004)))),
    feed(STOPPED),
    sent(4, "stackTrace", threadId=1), feed(success(4, "stackTrace", frames((1, 0x10008, "f+4")))),
    sent(5, "variables", variablesReference=2), feed(success(5, "variables", variables(("a0", 7)))),
    sent(6, "readMemory", memoryReference="0x00010000", count=1), feed(success(6, "readMemory", memory(0x10000, b"\x13"))),
]
BREAKS_STAY = [source_break(0, "1 65544"), instruction_break(0, "2 65548"), function_break(0, "3 65540")]
BREAKS_GONE = [source_break(0, NONE), instruction_break(0, NONE), function_break(0, NONE)]
SEEN = [is_frame(0, "1 65544 f+4"), register(10, "7"), byte(0x10000, "19")]
UNSEEN = [is_frame(0, NONE), register(10, NONE), byte(0x10000, NONE)]
KNOWN = [*BREAKS_STAY, *SEEN]


def forgets(name, *steps, state):
    """After these steps the program is in another state: its breakpoints are known, and nothing that was seen of it."""
    return Row(name, [*ALL_TOLD, run("Stopped"), *KNOWN, *steps, run(state), *BREAKS_STAY, *UNSEEN], RULES)


def keeps(name, *steps, state="Stopped"):
    """After these steps what was seen of the program is still known."""
    return Row(name, [*ALL_TOLD, *steps, run(state), *KNOWN], RULES)


# ---- events

EVENTS = [
    Row("nothing was told", [run("Unknown"), *BREAKS_GONE, *UNSEEN, register(32, NONE), register(33, NONE), byte(4294967295, NONE),
                             ("new", "ok"), run("Unknown")], RULES),
    forgets("a stop", feed(STOPPED), state="Stopped"),
    forgets("that the program goes on", feed(CONTINUED), state="Running"),
    keeps("the end with a code", feed(EXITED), state="Ended(Some(6))"),
    keeps("the end without a code", feed(TERMINATED), state="Ended(None)"),
    keeps("the code that was told stays", feed(EXITED, TERMINATED), state="Ended(Some(6))"),
    keeps("a later code", feed(EXITED, event("exited", '{"exitCode":-1}')), state="Ended(Some(-1))"),
    keeps("what is printed, and that a connection may be configured", feed(
        event("output", '{"category":"stdout","output":"7\\n"}'), event("initialized"))),
    keeps("what a logpoint says", feed(event("output", '{"category":"console","output":"back {a0}\\n"}'))),
    Row("events of a program of which nothing was told", [
        feed(event("initialized")), run("Unknown"), feed(event("output", '{"category":"stdout","output":"7\\n"}')), run("Unknown"),
        feed(TERMINATED), run("Ended(None)"), feed(STOPPED), run("Stopped"), feed(CONTINUED), run("Running"), feed(EXITED), run("Ended(Some(6))"),
    ], RULES),
]

# ---- the program goes on or ends by a success

RESUMES = [
    *(forgets("a success of %s" % name, sent(7, name, **arguments), feed(success(7, name, body)), state="Running")
      for name, arguments, body in (
          ("continue", {"threadId": 1}, GOES_ON), ("next", {"threadId": 1}, None), ("stepIn", {"threadId": 1}, None),
          ("stepOut", {"threadId": 1}, None), ("stepBack", {"threadId": 1}, None), ("reverseContinue", {"threadId": 1}, None),
          ("restart", {}, None))),
    forgets("the start of a program that was launched", sent(7, "configurationDone"), feed(success(7, "configurationDone")), state="Running"),
    Row("a program that was joined is not started", [
        sent(1, "attach"), feed(success(1, "attach")), sent(2, "configurationDone"), feed(success(2, "configurationDone")), run("Unknown"),
        feed(CONTINUED), run("Running"),
    ], RULES),
    Row("a launch that was refused starts nothing", [
        sent(1, "launch", program=PATH), feed(refusal(1, "launch", "fileUnreadable", 21)),
        sent(2, "configurationDone"), feed(success(2, "configurationDone")), run("Unknown"),
    ], RULES),
    Row("a launch starts nothing by itself", [sent(1, "launch", program=PATH), feed(success(1, "launch")), run("Unknown")], RULES),
    keeps("a success of terminate", sent(7, "terminate"), feed(success(7, "terminate")), state="Ended(None)"),
    keeps("a success of terminate after a code", feed(EXITED), sent(7, "terminate"), feed(success(7, "terminate")), state="Ended(Some(6))"),
    keeps("a success of pause", sent(7, "pause", threadId=1), feed(success(7, "pause"))),
    Row("after a disconnect nothing is known", [
        *ALL_TOLD, sent(7, "disconnect"), feed(success(7, "disconnect")), run("Unknown"), *BREAKS_GONE, *UNSEEN,
        # nor that a program was launched
        sent(8, "configurationDone"), feed(success(8, "configurationDone")), run("Unknown"),
        # the requests stay the editor's
        feed(success(5, "variables", variables(("a0", 8)))), register(10, "8"),
    ], RULES),
]

# ---- breakpoints

BREAKPOINTS = [
    Row("a list of breakpoints of a source", [
        sent(1, "setBreakpoints", source={"path": PATH}, lines=[3, 9, 4]),
        feed(success(1, "setBreakpoints", breakpoints(verified(1, 0x10008, 3), NO_CODE, verified(2, 0x1000c, 4)))),
        source_break(0, "1 65544"), source_break(1, "2 65548"), source_break(2, NONE), source_break(0, NONE, "/w/q.s"), instruction_break(0, NONE),
        # a list takes the place of that of its path
        sent(2, "setBreakpoints", source={"path": PATH}, lines=[5]),
        feed(success(2, "setBreakpoints", breakpoints(verified(3, 0x10010, 5)))),
        source_break(0, "3 65552"), source_break(1, NONE),
        # and of no other
        sent(3, "setBreakpoints", source={"path": "/w/q.s"}, lines=[5]),
        feed(success(3, "setBreakpoints", breakpoints(verified(4, 0x10014, 5)))),
        source_break(0, "3 65552"), source_break(0, "4 65556", "/w/q.s"),
        sent(4, "setBreakpoints", source={"path": PATH}), feed(success(4, "setBreakpoints", breakpoints())),
        source_break(0, NONE), source_break(0, "4 65556", "/w/q.s"),
    ], RULES),
    Row("breakpoints of a source without a path", [
        sent(1, "setBreakpoints", source={"path": PATH}, lines=[3]), feed(success(1, "setBreakpoints", breakpoints(verified(1, 0x10008, 3)))),
        sent(2, "setBreakpoints", lines=[4]), feed(success(2, "setBreakpoints", breakpoints(NO_CODE))), source_break(0, "1 65544"),
    ], RULES),
    Row("a list of breakpoints at instructions", [
        sent(1, "setInstructionBreakpoints", breakpoints=[]),
        feed(success(1, "setInstructionBreakpoints", breakpoints(BAD_ADDRESS, verified_at(1, 0x10014), verified_at(2, 0x10018)))),
        instruction_break(0, "1 65556"), instruction_break(1, "2 65560"), instruction_break(2, NONE), source_break(0, NONE),
        sent(2, "setInstructionBreakpoints", breakpoints=[]),
        feed(success(2, "setInstructionBreakpoints", breakpoints(verified_at(3, 0x10000)))), instruction_break(0, "3 65536"), instruction_break(1, NONE),
        function_break(0, NONE),
    ], RULES),
    Row("a list of breakpoints at functions", [
        sent(1, "setFunctionBreakpoints", breakpoints=[{"name": "f"}, {"name": "g"}, {"name": "h"}]),
        feed(success(1, "setFunctionBreakpoints", breakpoints(verified_at(1, 0x1000c), UNKNOWN_FUNCTION, verified_at(2, 0x10000)))),
        function_break(0, "1 65548"), function_break(1, "2 65536"), function_break(2, NONE), instruction_break(0, NONE), source_break(0, NONE),
        # each of the lists is set by its own request alone
        sent(2, "setInstructionBreakpoints", breakpoints=[]),
        feed(success(2, "setInstructionBreakpoints", breakpoints(verified_at(3, 0x10004)))),
        function_break(0, "1 65548"), function_break(1, "2 65536"), instruction_break(0, "3 65540"), instruction_break(1, NONE),
        sent(3, "setFunctionBreakpoints", breakpoints=[]),
        feed(success(3, "setFunctionBreakpoints", breakpoints(verified_at(4, 0x1000c)))),
        function_break(0, "4 65548"), function_break(1, NONE), instruction_break(0, "3 65540"),
    ], RULES),
]

# ---- frames, registers and bytes

SEEN_ROWS = [
    Row("frames from the first one on", [
        sent(1, "stackTrace", threadId=1), feed(success(1, "stackTrace", frames((1, 0x10008, "g+4"), (2, 0x10000, "_start")))),
        is_frame(0, "1 65544 g+4"), is_frame(1, "2 65536 _start"), is_frame(2, NONE),
    ], RULES),
    Row("frames from another one on", [
        sent(1, "stackTrace", threadId=1, startFrame=1), feed(success(1, "stackTrace", frames((4, 0x10008, "g+4"), (5, 0x10000, "_start")))),
        is_frame(0, NONE), is_frame(1, "4 65544 g+4"), is_frame(2, "5 65536 _start"), is_frame(3, NONE),
        # those that are told again take their places, and the others stay
        sent(2, "stackTrace", threadId=1, startFrame=2, levels=1), feed(success(2, "stackTrace", frames((6, 0x10004, "h")))),
        is_frame(1, "4 65544 g+4"), is_frame(2, "6 65540 h"),
    ], RULES),
    Row("frames from the greatest start on", [
        sent(1, "stackTrace", threadId=1, startFrame=2147483647), feed(success(1, "stackTrace", frames((1, 0x10000, "f"), (2, 0x10004, "g")))),
        is_frame(2147483647, "1 65536 f"), is_frame(2147483648, "2 65540 g"), is_frame(0, NONE),
    ], RULES),
    Row("registers by their names", [
        sent(1, "variables", variablesReference=2),
        feed(success(1, "variables", variables(("zero", 0), ("ra", 1), ("s0", 8), ("a0", 0xffffffff), ("t6", 31), ("pc", 0x10010)))),
        register(0, "0"), register(1, "1"), register(8, "8"), register(10, "4294967295"), register(31, "31"), register(32, "65552"), register(2, NONE),
        # words of the stack, and names that the list does not have
        sent(2, "variables", variablesReference=3),
        feed(success(2, "variables", variables(("sp+0", 5), ("fp", 5), ("x1", 5), ("PC", 5), ("", 5)))),
        register(1, "1"), register(2, NONE), register(8, "8"), register(32, "65552"),
        # of two values the later one
        sent(3, "variables", variablesReference=2), feed(success(3, "variables", variables(("a0", 1), ("a0", 2)))), register(10, "2"),
    ], RULES),
    Row("a register that is set", [
        sent(1, "setVariable", variablesReference=2, name="a0", value="-1"), feed(success(1, "setVariable", '{"value":"0xffffffff"}')),
        register(10, "4294967295"), register(11, NONE),
        sent(2, "setVariable", variablesReference=3, name="sp+4", value="1"), feed(success(2, "setVariable", '{"value":"0x00000001"}')),
        register(2, NONE), register(10, "4294967295"),
    ], RULES),
    Row("bytes that were read", [
        sent(1, "readMemory", memoryReference="0x00010000", count=4), feed(success(1, "readMemory", memory(0x10000, b"\x13\x05\x50\x00"))),
        byte(0xffff, NONE), byte(0x10000, "19"), byte(0x10001, "5"), byte(0x10002, "80"), byte(0x10003, "0"), byte(0x10004, NONE),
        # the answer says where they are
        sent(2, "readMemory", memoryReference="0x00010000", offset=2, count=1), feed(success(2, "readMemory", memory(0x10002, b"\x07"))),
        byte(0x10000, "19"), byte(0x10002, "7"),
    ], RULES),
    Row("bytes that could not be read are not known", [
        sent(1, "readMemory", memoryReference="0x0010fffc", count=8), feed(success(1, "readMemory", memory(0x10fffc, b"\0\0\0\0", 4))),
        byte(0x10fffc, "0"), byte(0x10ffff, "0"), byte(0x110000, NONE), byte(0x110003, NONE),
        sent(2, "readMemory", memoryReference="0x00110000", count=0), feed(success(2, "readMemory", memory(0x110000, b""))), byte(0x110000, NONE),
    ], RULES),
    Row("bytes end at the last address", [
        sent(1, "readMemory", memoryReference="0xffffffff", count=2), feed(success(1, "readMemory", memory(0xffffffff, b"\x01\x02"))),
        byte(0xffffffff, "1"), byte(0, NONE),
    ], RULES),
    Row("bytes that were written", [
        sent(1, "writeMemory", memoryReference="0x0001000C", data="EwUlAA=="), feed(success(1, "writeMemory", '{"bytesWritten":4}')),
        byte(0x1000b, NONE), byte(0x1000c, "19"), byte(0x1000d, "5"), byte(0x1000e, "37"), byte(0x1000f, "0"), byte(0x10010, NONE),
        # decimal, with an offset, and the part that was written
        sent(2, "writeMemory", memoryReference="65550", offset=-2, data="AQID", allowPartial=True),
        feed(success(2, "writeMemory", '{"bytesWritten":2}')), byte(0x1000c, "1"), byte(0x1000d, "2"), byte(0x1000e, "37"),
    ], RULES),
    Row("bytes that were written at no address", [step for number, (reference, offset) in enumerate(
        (("x", 0), ("", 0), ("0x", 0), ("0x000010000", 0), ("+1", 0), ("4294967296", 0), ("0", -1), ("0xffffffff", 1)), 1) for step in (
            sent(number, "writeMemory", memoryReference=reference, offset=offset, data="AQ=="),
            feed(success(number, "writeMemory", '{"bytesWritten":1}')), byte(0, NONE), byte(0xffffffff, NONE), byte(0x10000, NONE))], RULES),
    keeps("requests whose success tells nothing", sent(20, "initialize"), feed(CAPABILITIES % (20, 5)), *(
        step for number, (name, arguments, body) in enumerate((
            ("threads", {}, '{"threads":[{"id":1,"name":"hart 0"}]}'), ("scopes", {"frameId": 1}, '{"scopes":[]}'),
            ("evaluate", {"expression": "a0"}, '{"result":"0x00000009","variablesReference":0}'),
            ("disassemble", {"memoryReference": "0", "instructionCount": 0}, '{"instructions":[]}'),
            ("setExceptionBreakpoints", {}, None), ("cancel", {}, None), ("attach", {}, None)), 21)
        for step in (sent(number, name, **arguments), feed(success(number, name, body))))),
]

# ---- which success counts

WHICH = [
    keeps("a refusal", sent(7, "continue", threadId=1), feed(refusal(7, "continue", "notStopped", 4)),
          sent(8, "disconnect"), feed(refusal(8, "disconnect", "wrongPhase", 3))),
    keeps("a success of no request that is known", feed(success(7, "next")), feed(success(7, "variables", variables(("a0", 9)))),
          feed(success(8, "disconnect"))),
    keeps("a success that answers another command", sent(7, "continue", threadId=1), feed(success(7, "next")),
          sent(8, "next", threadId=1), feed(success(8, "continue", GOES_ON)), sent(9, "threads"), feed(success(9, "disconnect")),
          sent(10, "stackTrace", threadId=1), feed(success(10, "variables", variables(("a0", 9)))),
          sent(11, "variables", variablesReference=2), feed(success(11, "stackTrace", frames((9, 0x10000, "g")))),
          sent(12, "readMemory", memoryReference="0x00010000", count=1), feed(success(12, "writeMemory", '{"bytesWritten":1}')),
          sent(13, "writeMemory", memoryReference="0x00010000", data="AQ=="), feed(success(13, "readMemory", memory(0x10000, b"\x01"))),
          sent(14, "evaluate", expression="a0"), feed(success(14, "setVariable", '{"value":"0x00000009"}')),
          sent(15, "setBreakpoints", source={"path": PATH}), feed(success(15, "setInstructionBreakpoints", breakpoints())),
          sent(16, "setInstructionBreakpoints", breakpoints=[]), feed(success(16, "setBreakpoints", breakpoints())),
          sent(17, "setInstructionBreakpoints", breakpoints=[]), feed(success(17, "setFunctionBreakpoints", breakpoints())),
          sent(18, "setFunctionBreakpoints", breakpoints=[]), feed(success(18, "setInstructionBreakpoints", breakpoints()))),
    Row("of a number the first request counts", [
        sent(1, "setVariable", variablesReference=2, name="a0", value="1"), sent(1, "setVariable", variablesReference=2, name="a1", value="1"),
        feed(success(1, "setVariable", '{"value":"0x00000001"}')), register(10, "1"), register(11, NONE),
        sent(1, "disconnect"), feed(success(1, "disconnect")), register(10, "1"),
    ], RULES),
    Row("a request counts once it was told", [
        feed(success(3, "variables", variables(("a0", 1)))), register(10, NONE),
        sent(3, "variables", variablesReference=2), register(10, NONE), feed(success(3, "variables", variables(("a0", 2)))), register(10, "2"),
        # also the number 0 and the greatest
        sent(0, "variables", variablesReference=2), feed(success(0, "variables", variables(("a1", 3)))), register(11, "3"),
        sent(2147483647, "variables", variablesReference=2), feed(success(2147483647, "variables", variables(("a2", 4)))), register(12, "4"),
    ], RULES),
    Row("a message counts with its last byte", [
        piece(frame(STOPPED)[:-1]), run("Unknown"), sent(1, "variables", variablesReference=2), piece(frame(STOPPED)[-1:]), run("Stopped"),
        # the request was told before the last byte of its answer
        piece(frame(success(2, "variables", variables(("a0", 1))))[:-1]), sent(2, "variables", variablesReference=2),
        piece(b"}"), register(10, "1"),
    ], RULES),
    Row("messages of one piece, in their order", [
        sent(1, "variables", variablesReference=2), sent(2, "continue", threadId=1),
        feed(STOPPED, success(1, "variables", variables(("a0", 1))), success(2, "continue", GOES_ON), CONTINUED, STOPPED),
        run("Stopped"), register(10, NONE), feed(CONTINUED, STOPPED, success(1, "variables", variables(("a0", 2)))), run("Stopped"), register(10, "2"),
    ], RULES),
    Row("a stream cut after each byte", [
        sent(1, "variables", variablesReference=2), *(piece(bytes([b])) for b in frame(STOPPED) + frame(success(1, "variables", variables(("a0", 7))))),
        run("Stopped"), register(10, "7"), piece(b""), run("Stopped"),
    ], RULES),
]

# ---- faults

HEADER = b"Content-Length : 2\r\n\r\n{}"


def faulty(name, data, fault):
    """The fault stays, what was known stays, and the messages before the fault count."""
    return Row(name, [
        sent(1, "variables", variablesReference=2), feed(STOPPED, success(1, "variables", variables(("a0", 7)))),
        piece(frame(event("continued", '{"allThreadsContinued":true,"threadId":1}')) + frame(STOPPED) + data + frame(CONTINUED), fault),
        run("Stopped"), register(10, NONE), feed(CONTINUED, answer=fault), piece(b"", fault), sent(2, "threads", fault), run("Stopped"),
        ("new", "ok"), run("Unknown"), feed(CONTINUED), run("Running"),
    ], RULES)


FAULTS = [
    faulty("a bad header", HEADER, "Frame(Header): bad frame"),
    faulty("a frame without a length", b"X: 1\r\n\r\n", "Frame(NoLength): bad frame"),
    faulty("a frame with a length that is none", b"Content-Length: -1\r\n\r\n", "Frame(BadLength): bad frame"),
    faulty("a body that is no JSON", frame("{"), "Message(NotJson): bad message"),
    faulty("an empty body", frame(""), "Message(NotJson): bad message"),
    faulty("a body that is no message", frame("{}"), "Message(NotAMessage): bad message"),
    faulty("a request from the adapter", frame('{"command":"threads","seq":1,"type":"request"}'), "Message(NotAMessage): bad message"),
    faulty("an event that there is not", frame(event("thread", '{"reason":"started","threadId":1}')), "Message(NotAMessage): bad message"),
    Row("the first fault counts", [piece(frame("{") + HEADER, "Message(NotJson): bad message"), piece(HEADER, "Message(NotJson): bad message"),
                                   ("new", "ok"), piece(HEADER + frame("{"), "Frame(Header): bad frame"),
                                   piece(frame("{"), "Frame(Header): bad frame")], RULES),
    Row("a body may be long", [
        sent(1, "readMemory", memoryReference="0x00010000", count=65536),
        feed(success(1, "readMemory", memory(0x10000, bytes(range(256)) * 256))), byte(0x10000, "0"), byte(0x100ff, "255"), byte(0x1ffff, "255"),
        byte(0x20000, NONE), piece(b"Content-Length: 4294967295\r\n\r\n"), run("Unknown"),
    ], RULES),
]

# ---- without memory


def once(step):
    """A call that is not made again, and its answer where it found no memory."""
    command, answer = step
    return "once " + command, answer, NO_MEMORY


TWO_FRAMES = success(7, "stackTrace", frames((2, 0x10000, "_start"), (3, 0x10004, "g")))
BREAKS_ANEW = success(8, "setBreakpoints", breakpoints(verified(3, 0x1000c, 3), verified(4, 0x10010, 4)))

REFUSED = [
    Row("a request that found no memory can be told again", [
        sent(1, "setBreakpoints", source={"path": PATH}, lines=[3]), sent(2, "setVariable", variablesReference=2, name="a0", value="1"),
        sent(3, "writeMemory", memoryReference="0x00010000", data="AQI="), sent(4, "continue", threadId=1),
        feed(success(1, "setBreakpoints", breakpoints(verified(1, 0x10008, 3)))), source_break(0, "1 65544"),
        feed(success(2, "setVariable", '{"value":"0x00000001"}')), register(10, "1"),
        feed(success(3, "writeMemory", '{"bytesWritten":2}')), byte(0x10001, "2"), feed(success(4, "continue", GOES_ON)), run("Running"),
    ], RULES, refused=True),
    Row("a piece that found no memory can be fed again", [
        *ALL_TOLD, run("Stopped"), *KNOWN, sent(7, "stackTrace", threadId=1, startFrame=1),
        feed(success(7, "stackTrace", frames((2, 0x10000, "_start"), (3, 0x10004, "g"))), success(6, "readMemory", memory(0x10004, b"\x01"))),
        is_frame(0, "1 65544 f+4"), is_frame(2, "3 65540 g"), byte(0x10004, "1"),
        piece(frame(CONTINUED)[:20]), *KNOWN, piece(frame(CONTINUED)[20:] + frame(STOPPED)[:30]), run("Running"), *UNSEEN,
        piece(frame(STOPPED)[30:] + HEADER, "Frame(Header): bad frame"), run("Stopped"),
    ], RULES, refused=True),
    tried("what found no memory changed nothing that is known", RULES,
          alike(("new", "ok")),
          [once(sent(7, "stackTrace", threadId=1, startFrame=1)), *alike(feed(TWO_FRAMES)), (*is_frame(2, "3 65540 g"), NONE),
           *alike(sent(7, "stackTrace", threadId=1, startFrame=1), feed(TWO_FRAMES), is_frame(2, "3 65540 g"))],
          alike(("new", "ok"), *ALL_TOLD, run("Stopped"), *KNOWN, sent(8, "setBreakpoints", source={"path": PATH}, lines=[3, 4])),
          [once(feed(BREAKS_ANEW)), (*source_break(0, "3 65548"), "1 65544"), (*source_break(1, "4 65552"), NONE), *alike(instruction_break(0, "2 65548"), function_break(0, "3 65540"), *SEEN),
           *alike(feed(BREAKS_ANEW), source_break(0, "3 65548"), source_break(1, "4 65552"))],
          [once(feed(CONTINUED, STOPPED, CONTINUED)), (*run("Running"), "Stopped"), *((command, NONE, answer) for command, answer in SEEN),
           *alike(feed(CONTINUED, STOPPED, CONTINUED), run("Running"), *UNSEEN)],
          [once(piece(frame(STOPPED) + HEADER, "Frame(Header): bad frame")), (*run("Stopped"), "Running"),
           *alike(piece(frame(STOPPED) + HEADER, "Frame(Header): bad frame"), run("Stopped"))]),
]

ROWS = EVENTS + RESUMES + BREAKPOINTS + SEEN_ROWS + WHICH + FAULTS + REFUSED
