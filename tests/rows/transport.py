"""Whole connections over wires and through doors, and servers over streams that give and take a few bytes at a time, are interrupted, and fail."""
from support.players import Row
from support.program import frame
from support.texts import ANSWERS, FIRST, FIRST_ANSWER, SESSION, THREADS, refused, request

PLAYER = "test_transport"
# A server is made for the calls of it.
ALSO_MADE = {"Server::new": "stream server"}
PROFILE = "docs/PROTOCOL.md, worked by hand"
EVERY = (1 << 64) - 1
TURNS = 1 << 60

EVENT = frame('{"type":"event","event":"x"}')
NO_FRAME = b"X: 1\r\n\r\n"
HARTS = request(2, "threads")
HARTS_ANSWER = frame(THREADS % (2, 2))
TOO_EARLY = refused("wrongPhase", 3, "threads", 2, 1)
FIRST_HARTS_ANSWER = frame(THREADS % (2, 1))

CONNECT = ("connect", "1")
NO_FAULT = ("link_fault", "none")
# The session has no connection, and the next one begins anew.
ENDED = [("turn", "NotConnected"), ("waiting", ""), ("pending", "0"), ("connect", "2"), ("waiting", ""), ("pending", "0"), NO_FAULT]


def given(data):
    """What a server's reader has."""
    return "stream input " + data.hex(), "ok"


def reads(most=EVERY, calls=EVERY, interruptions=0):
    """So many bytes a read, so many reads before they fail, so many interruptions before each."""
    return "stream reader %d %d %d" % (most, calls, interruptions), "ok"


def writes(most=EVERY, calls=EVERY, interruptions=0):
    return "stream writer %d %d %d" % (most, calls, interruptions), "ok"


def wire(polls=False, most=EVERY, failing=0):
    """Whether it polls, how many bytes a send takes, and which call fails."""
    return "wire new %s %d %d" % (str(polls).lower(), most, failing), "ok"


def pieces(*given):
    return [(("wire piece " + piece.hex()).strip(), "ok") for piece in given]


def drives(end, turns=TURNS):
    return "wire drive %d" % turns, end


def taken(data):
    return "wire taken", data.hex()


def counts(faults=0, idle=0):
    return [("wire faults", str(faults)), ("wire idle", str(idle))]


def waits(count):
    """How often bytes were waited for."""
    return "wire waits", str(count)


def visits(answer, turns=TURNS, nobody=0, failing=0):
    """Serves at a door that lends both wires, by which of its calls finds nobody, and which fails: the end, and how many failed, found nobody, waited."""
    return "wire serve %d %d %d" % (turns, nobody, failing), answer


OTHER = ("wire other", "ok")


def written(data):
    return "stream written", data.hex()


def left(data):
    return "stream left", data.hex()


def faulty(fault):
    return "link_fault", fault


def server(*calls):
    """Calls of one server, each with its answer."""
    return "stream server " + " ".join(call for call, _ in calls), " ".join(answer for _, answer in calls)


def continuing(written, *calls):
    """Calls of one server that begins after so many messages, each with its answer."""
    return "stream continuing %d " % written + " ".join(call for call, _ in calls), " ".join(answer for _, answer in calls)


def read_so_often(count):
    """How many reads the last poll of a server made."""
    return "reads", str(count)


def text(error, wanted):
    return "text " + error, wanted


def ends(data, answers, fault="none"):
    """What comes in one piece, what is answered, and what closed the connection."""
    return [wire()] + pieces(data) + [CONNECT, drives("Closed"), faulty(fault), taken(answers)] + counts() + ENDED


# One piece, three answers and three sends are seven turns, and one more finds the end.
WRITTEN_AFTER = [b"", b"", b"", FIRST_ANSWER, FIRST_ANSWER, FIRST_ANSWER + HARTS_ANSWER, FIRST_ANSWER + HARTS_ANSWER, ANSWERS]


def drives_in_turns(turns):
    """Driving that ends for its turns goes on where it stopped."""
    return [wire()] + pieces(SESSION) + [CONNECT, drives("Turns", turns), taken(WRITTEN_AFTER[turns]), drives("Closed", 8 - turns), taken(ANSWERS)] \
        + counts() + ENDED


def closes_within(turns):
    return [wire()] + pieces(SESSION) + [CONNECT, drives("Closed", turns), taken(ANSWERS)] + counts() + ENDED


def is_driven(polls, most, size):
    """The first session in pieces of so many bytes, over a wire that takes so many at once."""
    given = SESSION + EVENT
    return [wire(polls, most)] + pieces(*(given[at:at + size] for at in range(0, len(given), size))) \
        + [CONNECT, drives("Closed"), taken(ANSWERS), NO_FAULT] + counts() + ENDED


def is_dropped(failing, most, count):
    """Which call fails, how many bytes a send takes, and how many were taken."""
    return [wire(most=most, failing=failing)] + pieces(SESSION[:120], SESSION[120:]) + [CONNECT, drives("Fault"), taken(ANSWERS[:count]), NO_FAULT] \
        + counts(faults=1) + ENDED


P = b"_start: li a0, 5\ncall f\nli a7, 93\necall\nf: addi a0, a0, 1\nret\n"
FOREVER = b"e: j e\n"


def file(text, path="/w/p.s"):
    return "file %s %s" % (path, text.hex()), "ok"


def files_read(*texts, path="/w/p.s"):
    """The reads of a file that were answered, with what each gave."""
    return "reads", " ".join("%s %s" % (path, "none" if text is None else text.hex()) for text in texts)


def launch(**arguments):
    return request(2, "launch", program="/w/p.s", **arguments) + request(3, "configurationDone")


def bare(command, seq, number):
    return frame('{"command":"%s","request_seq":%d,"seq":%d,"success":true,"type":"response"}' % (command, seq, number))


LAUNCHED = FIRST_ANSWER + bare("launch", 2, 2) + frame('{"event":"initialized","seq":3,"type":"event"}') + bare("configurationDone", 3, 4)
STOPPED = '{"body":{"allThreadsStopped":true,"reason":"%s","threadId":1},"event":"stopped","seq":%d,"type":"event"}'
STOPPED_AT_ENTRY = LAUNCHED + frame(STOPPED % ("entry", 5))
HELD = LAUNCHED + frame(STOPPED % ("pause", 5))
PAUSED = LAUNCHED + bare("pause", 4, 5) + frame(STOPPED % ("pause", 6))
RAN = frame('{"body":{"allThreadsContinued":true},"command":"continue","request_seq":4,"seq":6,"success":true,"type":"response"}') \
    + frame('{"body":{"exitCode":6},"event":"exited","seq":7,"type":"event"}') + frame('{"event":"terminated","seq":8,"type":"event"}')
# An editor joins a program that runs.
JOINS = FIRST + request(2, "attach") + request(3, "configurationDone")
JOINED = FIRST_ANSWER + bare("attach", 2, 2) + frame('{"event":"initialized","seq":3,"type":"event"}') + bare("configurationDone", 3, 4) \
    + frame('{"body":{"allThreadsContinued":true,"threadId":1},"event":"continued","seq":5,"type":"event"}')
COUNTS = b"_start: call f\nj _start\nf: addi a0, a0, 1\nret\n"
LEAVES = FIRST + request(2, "launch", program="/w/p.s") \
    + request(3, "setBreakpoints", source={"path": "/w/p.s"}, breakpoints=[{"line": 2}]) + request(4, "configurationDone") + FIRST[:10]
GO_ON, PAUSE = request(4, "continue", threadId=1), request(4, "pause", threadId=1)
UNREADABLE = FIRST_ANSWER + refused("fileUnreadable", 21, "launch", 2, 2)

LAUNCH_TWICE = FIRST + request(2, "launch", program="/w/p.s") + request(3, "launch", program="/w/p.s")
LAUNCHED_LATER = UNREADABLE + bare("launch", 3, 3) + frame('{"event":"initialized","seq":4,"type":"event"}')

LAST = 2147483647
MOST_READS = 2097152
# So many events have more bytes than a server reads at once byte by byte.
EVENTS = MOST_READS // len(EVENT) + 2
INITIALIZED = '{"event":"initialized","seq":%d,"type":"event"}'

POLLED = ("poll", "2:threads")
NO_MORE = ("poll", "none")


def stays_faulty(data, fault):
    return [given(data), server(POLLED, ("poll", fault), ("poll", fault), ("ack=2", fault), ("initialized", fault)), written(b"")]


ROWS = [
    Row("a connection without input ends", [wire(), CONNECT, drives("Closed"), faulty("none"), taken(b"")] + counts() + ENDED, PROFILE),
    Row("a request that comes too early is refused", ends(HARTS, TOO_EARLY), PROFILE),
    Row("an unfinished frame is dropped", ends(FIRST + HARTS + b"Content-Len", FIRST_ANSWER + HARTS_ANSWER), PROFILE),
    Row("what is no message ends a connection", ends(FIRST + frame("{}") + HARTS, FIRST_ANSWER, "Message(NotAMessage)"), PROFILE),
    Row("what is no frame ends a connection", ends(FIRST + HARTS + NO_FRAME, FIRST_ANSWER + HARTS_ANSWER, "Frame(NoLength)"), PROFILE),
    Row("a disconnect ends a connection", ends(SESSION, ANSWERS), PROFILE),
    Row("what is no frame in the piece of a disconnect is met", ends(SESSION + NO_FRAME, ANSWERS, "Frame(NoLength)"), PROFILE),
    Row("what is no message in the piece of a disconnect is met", ends(SESSION + frame("{"), ANSWERS, "Message(NotJson)"), PROFILE),
    Row("an event is passed over, and an empty body is no message", ends(FIRST + EVENT + frame(""), FIRST_ANSWER, "Message(NotJson)"), PROFILE),
    Row("what comes in a piece after a disconnect is not read", [
        wire()] + pieces(SESSION, NO_FRAME) + [CONNECT, drives("Closed"), NO_FAULT, taken(ANSWERS)] + counts() + ENDED, PROFILE),
    Row("where all is said nothing is read", [
        wire()] + pieces(FIRST) + [CONNECT, ("recv " + NO_FRAME.hex(), "ok"), drives("Closed", 1), faulty("Frame(NoLength)"), taken(b"")]
        + counts() + ENDED + [drives("Closed"), taken(FIRST_ANSWER)], PROFILE),
    Row("a server polls requests and writes responses", [
        given(EVENT + HARTS + EVENT), server(POLLED, ("threads=2", "ok"), NO_MORE, NO_MORE), written(FIRST_HARTS_ANSWER)], PROFILE),
    Row("a server writes responses and events, numbered together", [
        given(HARTS), server(POLLED, ("threads=2", "ok"), ("initialized", "ok"), NO_MORE),
        written(FIRST_HARTS_ANSWER + frame('{"event":"initialized","seq":2,"type":"event"}'))], PROFILE),
    Row("a server's event is the first message where it is sent first", [
        given(HARTS), server(("initialized", "ok"), POLLED, ("threads=2", "ok")),
        written(frame('{"event":"initialized","seq":1,"type":"event"}') + HARTS_ANSWER)], PROFILE, refused=True),
    Row("a fault of a frame stays with a server", stays_faulty(HARTS + NO_FRAME, "Frame"), PROFILE),
    Row("a fault of a message stays with a server", stays_faulty(HARTS + frame("{}") + HARTS, "Message"), PROFILE),
    Row("an empty body is no message for a server", stays_faulty(HARTS + frame(""), "Message"), PROFILE),
    Row("a server goes on after it found no memory", [
        given(HARTS + EVENT + HARTS), server(POLLED, POLLED, ("threads=2", "ok"), NO_MORE), written(FIRST_HARTS_ANSWER)], PROFILE, refused=True),
    Row("a server reads and writes a byte at a time, and is interrupted", [
        given(HARTS + EVENT + HARTS), reads(1, interruptions=2), writes(1, interruptions=2),
        server(POLLED, ("threads=2", "ok"), POLLED, ("ack=2", "ok"), NO_MORE),
        written(FIRST_HARTS_ANSWER + frame('{"command":"threads","request_seq":2,"seq":2,"success":true,"type":"response"}'))], PROFILE),
    Row("a server drops an unfinished message at the end of its input", [
        given(HARTS + HARTS[:-1]), server(POLLED, NO_MORE, NO_MORE), left(b""), written(b"")], PROFILE),
    Row("a read that fails stays with a server", [
        given(HARTS + HARTS), reads(len(HARTS), 1, 1), server(POLLED, ("poll", "Read"), ("poll", "Read"), ("ack=2", "Read")), left(HARTS),
        written(b"")], PROFILE),
    Row("a write that fails stays with a server, and a part of the answer was written", [
        given(HARTS + HARTS), writes(100, 1, 1), server(POLLED, ("threads=2", "Write"), ("poll", "Write"), ("ack=2", "Write")),
        written(FIRST_HARTS_ANSWER[:100])], PROFILE),
    Row("a write that takes nothing stays with a server", [
        given(HARTS), writes(0), server(POLLED, ("threads=2", "Write"), ("threads=2", "Write")), written(b"")], PROFILE),
    Row("a server goes on after messages that were written before", [
        given(HARTS), continuing(41, POLLED, ("initialized", "ok"), ("threads=2", "ok"), NO_MORE),
        written(frame(INITIALIZED % 42) + frame(THREADS % (2, 43)))], PROFILE, refused=True),
    Row("a server with one number left writes one message more, and then only reads", [
        given(HARTS + HARTS), continuing(LAST - 1, POLLED, ("threads=2", "ok"), ("threads=2", "SeqSpent"), ("initialized", "SeqSpent"), POLLED, ("ack=2", "SeqSpent"), NO_MORE),
        written(frame(THREADS % (2, LAST)))], PROFILE),
    Row("a server without a number left writes nothing", [
        given(HARTS), continuing(LAST, ("initialized", "SeqSpent"), POLLED, ("threads=2", "SeqSpent")), written(b"")], PROFILE),
    Row("a server counts the reads of a poll", [
        given(HARTS + HARTS), reads(1), server(read_so_often(0), POLLED, read_so_often(len(HARTS)), POLLED, read_so_often(len(HARTS)), NO_MORE, read_so_often(1))], PROFILE),
    Row("a server reads no more for what it has read already", [
        given(HARTS + HARTS), server(POLLED, read_so_often(1), POLLED, read_so_often(0), NO_MORE, read_so_often(1))], PROFILE),
    Row("a server does not read after a fault that stays", [
        given(NO_FRAME), server(("poll", "Frame"), read_so_often(1), ("poll", "Frame"), read_so_often(1))], PROFILE),
    Row("a server reads 2,097,152 times in one poll", [
        given(HARTS), reads(interruptions=MOST_READS - 1), server(POLLED, read_so_often(MOST_READS)), left(b"")], PROFILE),
    Row("a server gives up after 2,097,152 reads without a request, and goes on in the next poll", [
        given(HARTS), reads(interruptions=MOST_READS),
        server(("poll", "TooManyReads"), read_so_often(MOST_READS), ("threads=2", "ok"), POLLED, read_so_often(1),
               ("poll", "TooManyReads"), read_so_often(MOST_READS), NO_MORE, read_so_often(1)), written(FIRST_HARTS_ANSWER)], PROFILE),
    Row("a server that reads events byte by byte gives up after 2,097,152 reads, and goes on in the next poll", [
        given(EVENT * EVENTS + HARTS), reads(1),
        server(("poll", "TooManyReads"), read_so_often(MOST_READS), POLLED, read_so_often(len(EVENT) * EVENTS + len(HARTS) - MOST_READS), ("threads=2", "ok"), NO_MORE),
        written(FIRST_HARTS_ANSWER)], PROFILE),
    Row("texts of errors", [
        text("Frame", "not a frame"), text("Message", "not a message"), text("Read", "read fault"), text("Write", "write fault"),
        text("TooManyReads", "too many reads"), text("NoMemory", "no memory"), text("SeqSpent", "no sequence number is left"),
    ], "the doc comments of the errors"),
    Row("a program is launched, stops at its entry and runs to its end", [
        file(P), wire()] + pieces(FIRST + launch(stopOnEntry=True), GO_ON) + [
            CONNECT, drives("Closed"), taken(STOPPED_AT_ENTRY + RAN), NO_FAULT] + counts() + ENDED, PROFILE),
    Row("a program runs to its end over a wire that takes one byte at a time", [
        file(P), wire(most=1)] + pieces(FIRST + launch(stopOnEntry=True), GO_ON) + [
            CONNECT, drives("Closed"), taken(STOPPED_AT_ENTRY + RAN), NO_FAULT] + counts() + ENDED, PROFILE),
    Row("over a wire that polls the editor is heard while a program runs", [
        file(FOREVER), wire(polls=True)] + pieces(FIRST + launch(), b"", PAUSE, b"") + [
            CONNECT, drives("Closed"), taken(PAUSED), NO_FAULT, waits(2)] + counts(idle=2) + ENDED, PROFILE),
    Row("over a wire that polls the end of the input is met while a program runs", [
        file(FOREVER), wire(polls=True)] + pieces(FIRST + launch(), b"", b"", b"") + [
            CONNECT, drives("Closed"), taken(LAUNCHED), ("runnable", "true"), waits(1)] + counts(idle=3) + ENDED[:1], PROFILE),
    Row("over a wire that polls a fault is met while a program runs", [
        file(FOREVER), wire(polls=True, failing=8)] + pieces(FIRST + launch(), b"", b"", b"") + [
            CONNECT, drives("Fault"), taken(LAUNCHED), ("runnable", "true")] + counts(faults=1, idle=3), PROFILE),
    Row("over a wire that cannot poll a program that does not end is held, and the editor is heard then", [
        file(FOREVER), wire()] + pieces(FIRST + launch(), PAUSE) + [
            CONNECT, drives("Closed"), taken(HELD + bare("pause", 4, 6)), NO_FAULT] + counts() + ENDED, PROFILE),
    Row("over a wire that cannot poll a program runs for 100 slices before it is held", [
        file(FOREVER), wire()] + pieces(FIRST + launch()) + [
            CONNECT, drives("Turns", 8 + 99), ("runnable", "true"), taken(LAUNCHED), drives("Closed"), taken(HELD)] + counts(), PROFILE),
    Row("a file that is not there is not launched", [
        file(P, "/w/q.s"), wire()] + pieces(FIRST + request(2, "launch", program="/w/p.s")) + [
            CONNECT, drives("Closed"), taken(UNREADABLE), NO_FAULT], PROFILE),
    Row("a file may be there later, and a request is answered with what its read gave", [
        file(P, "/w/q.s"), wire()] + pieces(LAUNCH_TWICE) + [
            CONNECT, drives("Turns", 5), taken(UNREADABLE), files_read(None), file(P), drives("Closed"), taken(LAUNCHED_LATER), files_read(None, P)]
        + ENDED[:1], PROFILE),
    Row("no file is read where no request wants one", [file(P), wire()] + pieces(SESSION) + [CONNECT, drives("Closed"), files_read()], PROFILE),
    Row("what is no frame ends a connection after what came before it is answered", [wire()] + pieces(FIRST + HARTS, NO_FRAME) + [
        CONNECT, drives("Closed"), taken(FIRST_ANSWER + HARTS_ANSWER), faulty("Frame(NoLength)")] + counts() + ENDED, PROFILE),
    Row("an editor goes in the middle of a frame, and the next one joins the program", [
        file(COUNTS), wire(polls=True)] + pieces(LEAVES) + [OTHER, wire(polls=True)] + pieces(JOINS) + [
            OTHER, visits("Closed 0 0 1"), OTHER, taken(JOINED), files_read(COUNTS), ("runnable", "true")] + counts() + ENDED[:1], PROFILE),
    Row("a program runs on while nobody comes", [
        file(COUNTS), wire(polls=True)] + pieces(LEAVES) + [OTHER, wire(polls=True)] + pieces(JOINS) + [
            OTHER, visits("Closed 0 1 1", nobody=2), OTHER, taken(JOINED), ("runnable", "true")] + counts() + ENDED[:1], PROFILE),
    Row("a door that fails ends serving, and no connection", [
        wire()] + pieces(SESSION) + [visits("Fault 1 0 2", failing=2), taken(ANSWERS), NO_FAULT] + counts() + ENDED, PROFILE),
    Row("a wire that fails ends its connection alone", [
        wire(failing=1)] + pieces(SESSION) + [OTHER, wire()] + pieces(SESSION) + [
            OTHER, visits("Closed 0 0 3"), taken(b"")] + counts(faults=1) + [OTHER, taken(ANSWERS), NO_FAULT, ("connect", "3")], PROFILE),
    Row("what is no frame ends the connection of one editor", [
        wire()] + pieces(FIRST + NO_FRAME) + [OTHER, wire()] + pieces(SESSION) + [
            OTHER, visits("Closed 0 0 3"), taken(FIRST_ANSWER), OTHER, taken(ANSWERS), NO_FAULT, ("connect", "3")], PROFILE),
    Row("an editor that comes takes a turn, and where turns end its connection does", [
        wire()] + pieces(SESSION) + [visits("Turns 0 0 1", turns=4), taken(FIRST_ANSWER), ("turn", "NotConnected"), ("connect", "2")], PROFILE),
    Row("a session over a wire is driven again after it found no memory", [
        ("wire whole " + SESSION.hex(), "Closed " + ANSWERS.hex())], PROFILE, refused=True),
] + [Row("%d turns end with a prefix of the answers" % turns, drives_in_turns(turns), PROFILE) for turns in range(8)] \
  + [Row("%d turns are enough for a whole session" % turns, closes_within(turns), PROFILE) for turns in (8, 9)] \
  + [Row("the first session is answered however it is cut: pieces of %d, sends of %d" % (size, most), is_driven(polls, most, size), PROFILE)
     for polls, most, size in ((False, 1, 1), (False, 1, 7), (True, 7, 1), (False, 83, 1000), (True, 1000, 64), (True, 2, 83))] \
  + [Row("a call of a wire that fails ends the connection: call %d, sends of %d" % (failing, most), is_dropped(failing, most, count), PROFILE)
     for failing, most, count in ((1, 1000, 0), (2, 1000, 0), (3, 1000, len(FIRST_ANSWER)), (3, 100, 100), (9, 100, 700), (10, 100, len(FIRST_ANSWER)))]
