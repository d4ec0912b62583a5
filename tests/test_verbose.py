"""What `--verbose` says on standard error: what closed a connection, and why requests were refused. What is answered stays as it is."""
import json
import socket

from support.files import file_of
from support.listening import Server
from support.program import Talk, expect, frame, run
from support.texts import FIRST, SESSION

# What comes after a first message, the fault that it is, and its words.
FAULTS = (
    (b"\r\n\r\n", "Header", "header line is no field"),
    (b"Content-Length : 2\r\n\r\n{}", "Header", "header line is no field"),
    (b"X: 1\r\n\r\n", "NoLength", "no content length"),
    (b"Content-Length: 2\r\ncontent-length: 2\r\n\r\n{}", "TwoLengths", "two content lengths"),
    (b"Content-Length: -1\r\n\r\n", "BadLength", "bad content length"),
    (b"Content-Length: 1048577\r\n\r\n", "TooLong", "content too long"),
    (b"a" * 4096, "HeaderTooLong", "header too long"),
    (frame("{,}"), "NotJson", "not JSON"),
    (frame("[]"), "NotAMessage", "not a message"),
    (frame('{"type":"request","seq":1.0,"command":"threads"}'), "BadSeq", "bad sequence number"),
)

# Requests with a bad argument, by their name and arguments, and what is said of it.
SLIPS = (
    ("initialize", {"linesStartAt1": 1}, "linesStartAt1 is neither true nor false"),
    ("launch", {}, "program is absent"),
    ("launch", {"program": None}, "program is absent"),
    ("launch", {"program": 7}, "program is no text"),
    ("launch", {"program": "a.s", "stopOnEntry": "yes"}, "stopOnEntry is neither true nor false"),
    ("launch", [], "arguments is no object"),
    ("disconnect", {"suspendDebuggee": 0}, "suspendDebuggee is neither true nor false"),
    ("cancel", {"requestId": "2"}, "requestId is no whole number of 32 bits"),
    ("continue", {}, "threadId is absent"),
    ("pause", {"threadId": 1.5}, "threadId is no whole number of 32 bits"),
    ("reverseContinue", {"threadId": 2147483648}, "threadId is no whole number of 32 bits"),
    ("next", {"threadId": 1, "granularity": "word"}, "granularity is none of statement, line and instruction"),
    ("stepBack", {}, "threadId is absent"),
    ("stackTrace", {"threadId": 1, "startFrame": -1}, "startFrame is no whole number from 0 to 2147483647"),
    ("stackTrace", {"threadId": 1, "levels": "all"}, "levels is no whole number from 0 to 2147483647"),
    ("scopes", {}, "frameId is absent"),
    ("variables", {"variablesReference": 1, "filter": "none"}, "filter is neither indexed nor named"),
    ("evaluate", {"expression": ["a0"]}, "expression is no text"),
    ("evaluate", {"expression": "a0", "frameId": "1"}, "frameId is no whole number of 32 bits"),
    ("setVariable", {"variablesReference": 1, "name": "a0"}, "value is absent"),
    ("disassemble", {"memoryReference": "0x10000"}, "instructionCount is absent"),
    ("readMemory", {"memoryReference": 65536, "count": 4}, "memoryReference is no text"),
    ("writeMemory", {"memoryReference": "0x10000", "data": "AB=="}, "data is no base64"),
    ("writeMemory", {"memoryReference": "0x10000", "offset": "4", "data": "AA=="}, "offset is no whole number of 32 bits"),
    ("setBreakpoints", {"source": "a.s"}, "source is no object"),
    ("setBreakpoints", {"source": {"path": 1}}, "source: path is no text"),
    ("setBreakpoints", {"source": {"path": "a.s"}, "breakpoints": {}}, "breakpoints is no list"),
    ("setBreakpoints", {"source": {"path": "a.s"}, "breakpoints": [{"line": 1}, {"line": 1.5}]},
     "an entry of breakpoints: line is no whole number from 0 to 2147483647"),
    ("setBreakpoints", {"source": {"path": "a.s"}, "breakpoints": [{"line": 1, "logMessage": 2}]}, "an entry of breakpoints: logMessage is no text"),
    ("setBreakpoints", {"source": {"path": "a.s"}, "breakpoints": [4]}, "an entry of breakpoints: it is no object"),
    ("setBreakpoints", {"source": {"path": "a.s"}, "lines": 4}, "lines is no list"),
    ("setFunctionBreakpoints", {}, "breakpoints is absent"),
    ("setFunctionBreakpoints", {"breakpoints": [{}]}, "an entry of breakpoints: name is absent"),
    ("setInstructionBreakpoints", {"breakpoints": [{"instructionReference": "0x10000", "condition": 1}]},
     "an entry of breakpoints: condition is no text"),
)


def asked(number, command, arguments=None):
    return frame(json.dumps({"seq": number, "type": "request", "command": command, **({} if arguments is None else {"arguments": arguments})}))


def said(data, *words):
    """What is said of a whole input by --verbose, in lines without the program's name. All else is as without it."""
    out, err, status = run(data, words=["--verbose", *words])
    plain = run(data, words=words)
    expect((out, status), (plain[0], plain[2]), "the output and the status")
    lines = err.decode().splitlines()
    expect([line for line in lines if not line.startswith("rvdap: ")], [], "lines that do not begin with the program's name")
    if plain[1]:
        expect(lines.pop(), plain[1].decode().rstrip("\n"), "the last line")
    return [line.removeprefix("rvdap: ") for line in lines]


def a_session_without_a_refusal_says_nothing():
    expect(said(SESSION), [], "what is said")


def a_fault_is_told_by_its_message_its_byte_and_its_name():
    for rest, name, words in FAULTS:
        line = "message 2, byte %d: %s: %s" % (len(FIRST), name, words)
        expect(said(FIRST + rest), [line], "after %r" % rest[:40])
        expect(said(FIRST + rest + SESSION), [line], "after %r, with more behind it" % rest[:40])
    expect(said(b"X: 1\r\n\r\n"), ["message 1, byte 0: NoLength: no content length"], "a fault in the first message")


def a_fault_is_the_same_however_its_bytes_come():
    data = FIRST + frame("{,}")
    with Talk(words=["--verbose"]) as talk:
        for byte in data:
            talk.write(bytes([byte]))
        expect(talk.process.stderr.readline(), b"rvdap: message 2, byte %d: NotJson: not JSON\n" % len(FIRST), "byte by byte")


def a_bad_argument_is_named():
    for command, arguments, words in SLIPS:
        got = said(FIRST + asked(2, command, arguments))
        expect(got, ["request 2, %s: badArguments: %s" % (command, words)], "%s %s" % (command, arguments))


def other_refusals_are_told_by_their_names():
    got = said(FIRST + asked(2, "threads") + asked(2, "threads") + asked(3, "fly") + asked(4, "scopes", {"frameId": 1}))
    expect(got, ["request 2, threads: repeatedSequence", "request 3, fly: unknownCommand", "request 4, scopes: wrongPhase"], "what is said")


def why_an_expression_has_no_value_is_told():
    with file_of(b"nop\nebreak\n") as path:
        session = FIRST + asked(2, "launch", {"program": path, "stopOnEntry": True}) + asked(3, "configurationDone")
        with Talk(words=["--verbose"]) as talk:
            talk.write(session)
            stopped = b""
            while b'"reason":"entry"' not in stopped:
                stopped += talk.read(1)
            for number, text in enumerate(("1 +", "(" * 65 + "1" + ")" * 65, "1 + " * 300 + "1", "[0]"), 4):
                talk.write(asked(number, "evaluate", {"expression": text}))
            lines = [talk.process.stderr.readline().decode() for _ in range(4)]
    expect(lines, ["rvdap: request %d, evaluate: badExpression: %s\n" % (number, words) for number, words in enumerate((
        "no expression", "an expression that nests too deep", "an expression that is too long", "it reads a word outside memory"), 4)], "what is said")


def over_tcp_it_is_told_of_each_connection():
    with Server("--verbose") as server:
        for _ in range(2):
            with socket.create_connection((server.host, server.port)) as peer:
                peer.sendall(FIRST + frame("{,}"))
                while peer.recv(4096):
                    pass
            expect(server.process.stderr.readline(), b"rvdap: message 2, byte %d: NotJson: not JSON\n" % len(FIRST), "what is said")
        expect(server.is_up(), True, "the server serves on")


def why_an_address_is_not_listened_on_is_told():
    with socket.socket() as taken:
        taken.bind(("127.0.0.1", 0))
        taken.listen()
        address = "127.0.0.1:%d" % taken.getsockname()[1]
        expect(run(b"", words=["--verbose", "--listen", address]),
               (b"", b"rvdap: cannot listen on %s: Address already in use (os error 98)\nrvdap: read or write fault\n" % address.encode(), 1), "a taken port")


def which_port_is_taken_for_port_0_is_told():
    with Talk(words=["--verbose", "--listen", "127.0.0.1:0", "--once"]) as talk:
        line = talk.process.stderr.readline().decode()
        expect(line.startswith("listening on 127.0.0.1:"), True, "the first line: %r" % line)
        with socket.create_connection(("127.0.0.1", int(line.rpartition(":")[2]))) as peer:
            peer.sendall(FIRST)
            expect(peer.recv(15), b"Content-Length:", "the beginning of the answer")


def checks():
    """Each check with its name."""
    return [(check.__name__.replace("_", " "), check) for check in (
        a_session_without_a_refusal_says_nothing, a_fault_is_told_by_its_message_its_byte_and_its_name,
        a_fault_is_the_same_however_its_bytes_come, a_bad_argument_is_named, other_refusals_are_told_by_their_names,
        why_an_expression_has_no_value_is_told, over_tcp_it_is_told_of_each_connection, why_an_address_is_not_listened_on_is_told,
        which_port_is_taken_for_port_0_is_told)]
