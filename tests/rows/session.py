"""The events of a session: what each answers, when it is refused, and what the session then says of itself."""
from support.debugging import GONE, REPEATED, UNKNOWN, WAS_CANCELLED, WRONG_PHASE
from support.players import Row
from support.program import frame
from support.texts import ANSWERS, CANCELLED, CAPABILITIES, DISCONNECTED, FIRST, FIRST_ANSWER, SESSION, THREADS, refused, request

PLAYER = "test_session"
TAKES_NONE = {"Session::connect": "connect", "Session::sent": "sent", "Session::link_fault": "link_fault", "Session::finished": "finished"}
PROFILE = "docs/PROTOCOL.md, worked by hand"
SUCCESSES = {"initialize": CAPABILITIES, "threads": THREADS, "cancel": CANCELLED, "disconnect": DISCONNECTED}

EVENT = frame('{"type":"event","event":"x"}')
NO_MESSAGE = b"content-length:  2\r\nX-A: b\r\n\r\n{}"
NO_FRAME = b"X: 1\r\n\r\n"

CONNECT = ("connect", "1")
ANSWERED = ("turn", "Answered")
NOTHING = ("turn", "Nothing")
FULL = ("turn", "Full")
FINISHED = ("finished", "true")
UNFINISHED = ("finished", "false")
NO_FAULT = ("link_fault", "none")
DROPPED = ("drop", "ok")


def limits(last_seq, last_ref, last_retired, answer="ok"):
    return "new 4096 %d %d %d" % (last_seq, last_ref, last_retired), answer


def recv(piece, answer="ok"):
    return "recv " + piece.hex(), answer


def sent(count, answer="ok"):
    return "sent %d" % count, answer


def waits(data):
    return "waiting", data.hex()


def pends(count):
    return "pending", str(count)


def faulty(fault):
    return "link_fault", fault


def text(error, wanted):
    return "text event " + error, wanted


def takes(data):
    """These bytes wait, and are taken."""
    return [waits(data), sent(len(data))]


def asked(seq, command, cancels=None):
    """A request, with the number of the one that it cancels."""
    return (seq, command) if cancels is None else (seq, command, cancels)


def framed_request(ask):
    return request(ask[0], ask[1]) if len(ask) == 2 else request(ask[0], ask[1], requestId=ask[2])


def answer_to(ask, seq, why):
    """The frame of the answer with this number: a success, or the refusal."""
    if why is None:
        return frame(SUCCESSES[ask[1]] % (ask[0], seq))
    return refused(why[0], why[1], ask[1], ask[0], seq)


def conversation(*pieces):
    """Pieces of requests, each with why it is refused; all of a piece are answered before the next one comes."""
    steps, seq = [CONNECT], 0
    for piece in pieces:
        steps += [recv(b"".join(framed_request(ask) for ask, _ in piece)), pends(len(piece))]
        for ask, why in piece:
            seq += 1
            steps += [ANSWERED] + takes(answer_to(ask, seq, why))
        steps += [NOTHING, pends(0)]
    return steps


def succeeds(*ask):
    return ask, None


def fails(why, *ask):
    return ask, why


def threads(first, after):
    """The frames of `threads` requests with the numbers from the first to before the last."""
    return b"".join(request(seq, "threads") for seq in range(first, after))


CONVERSATIONS = [
    ("a number that came before is a repeat", [
        [succeeds(1, "initialize"), succeeds(5, "threads"), fails(REPEATED, 5, "threads")]]),
    ("also where it was answered before, and where it is lower", [
        [succeeds(1, "initialize")], [succeeds(5, "threads")], [fails(REPEATED, 5, "threads"), fails(REPEATED, 4, "threads")]]),
    ("the first number may be 0, and numbers may be left out", [
        [succeeds(0, "initialize"), succeeds(2000000000, "threads"), succeeds(2147483647, "threads")]]),
    ("a refused request's number counts, and that of a repeat does not", [
        [fails(WRONG_PHASE, 7, "threads"), fails(REPEATED, 7, "initialize"), fails(REPEATED, 6, "initialize"), succeeds(8, "initialize")]]),
    ("a repeat is reported before what is unknown, and before the wrong phase", [
        [fails(UNKNOWN, 3, "fly"), fails(REPEATED, 3, "fly"), fails(REPEATED, 3, "threads")]]),
    ("a repeated disconnect does not end the session", [
        [succeeds(1, "initialize"), fails(REPEATED, 1, "disconnect"), succeeds(2, "threads")]]),
    ("a cancel that names itself names none that waits", [
        [succeeds(1, "initialize")], [fails(GONE, 9, "cancel", 9)]]),
    ("a cancel cancels a request that waits", [
        [succeeds(1, "initialize")], [fails(WAS_CANCELLED, 8, "threads"), succeeds(9, "cancel", 8)]]),
    ("a cancel comes too late for a request that was answered", [
        [succeeds(1, "initialize"), succeeds(5, "threads")], [fails(GONE, 6, "cancel", 5)]]),
    ("a cancel that names none succeeds", [
        [succeeds(1, "cancel"), succeeds(2, "initialize"), succeeds(3, "cancel")]]),
    ("what a cancel did stays, where it is cancelled itself", [
        [succeeds(1, "initialize")],
        [fails(WAS_CANCELLED, 2, "threads"), fails(WAS_CANCELLED, 3, "cancel", 2), succeeds(4, "cancel", 3)]]),
    ("a cancel with a number that came before cancels nothing", [
        [succeeds(1, "initialize")],
        [succeeds(5, "threads"), fails(REPEATED, 5, "cancel", 5), fails(REPEATED, 4, "cancel", 5)]]),
    ("a repeat is not named by its number", [
        [succeeds(1, "initialize")],
        [fails(WAS_CANCELLED, 5, "threads"), fails(REPEATED, 5, "threads"), succeeds(6, "cancel", 5)]]),
    ("no request has a number below 0, nor one that did not come", [
        [fails(GONE, 1, "cancel", -1), fails(GONE, 2, "cancel", 3), fails(GONE, 3, "cancel", -2147483648)]]),
    ("a cancelled initialize changes nothing", [
        [fails(WAS_CANCELLED, 1, "initialize"), fails(WRONG_PHASE, 2, "threads"), succeeds(3, "cancel", 1), succeeds(4, "initialize")]]),
    ("a cancelled disconnect does not end the session", [
        [succeeds(1, "initialize"), fails(WAS_CANCELLED, 2, "disconnect"), succeeds(3, "cancel", 2)], [succeeds(4, "threads")]]),
    ("a request of no known name is cancelled before that is reported", [
        [fails(WAS_CANCELLED, 1, "fly"), succeeds(2, "cancel", 1), fails(UNKNOWN, 3, "fly")]]),
    ("after a disconnect no request is taken, however it was numbered", [
        [succeeds(1, "initialize"), succeeds(2, "disconnect"), fails(WRONG_PHASE, 3, "threads"), fails(WRONG_PHASE, 4, "disconnect"),
         fails(WRONG_PHASE, 5, "initialize"), fails(WRONG_PHASE, 6, "cancel"), fails(REPEATED, 6, "threads"), fails(UNKNOWN, 7, "fly")]]),
    ("a cancel after a disconnect acts when it comes, and is not taken", [
        [succeeds(1, "initialize"), succeeds(2, "disconnect"), fails(WAS_CANCELLED, 3, "threads"), fails(WRONG_PHASE, 4, "cancel", 3)]]),
    ("the wrong phase is reported before that the request is gone", [
        [succeeds(1, "disconnect"), fails(WRONG_PHASE, 2, "cancel", 77)]]),
    ("a disconnect may come first", [
        [succeeds(4, "disconnect"), fails(WRONG_PHASE, 5, "initialize")]]),
]

REPEAT_REFUSED = ('{"body":{"error":{"format":"repeatedSequence","id":6}},"command":"threads","message":"repeatedSequence",'
                  '"request_seq":5,"seq":3,"success":false,"type":"response"}')
FIVE_ANSWERED = ('{"body":{"threads":[{"id":1,"name":"hart 0"}]},"command":"threads","request_seq":5,"seq":2,"success":true,'
                 '"type":"response"}')
CANCEL_ANSWERED = '{"command":"cancel","request_seq":9,"seq":4,"success":true,"type":"response"}'

# Requests with events between them, and their answers.
CUT = [fails(WRONG_PHASE, 1, "threads"), succeeds(2, "initialize"), succeeds(4, "threads"), fails(REPEATED, 4, "threads"),
       fails(UNKNOWN, 5, "fly"), fails(GONE, 6, "cancel", 7), succeeds(9, "cancel"), succeeds(10, "disconnect")]
CUT_INPUT = b"".join(EVENT + framed_request(ask) for ask, _ in CUT)
CUT_ANSWERS = [answer_to(ask, seq, why) for seq, (ask, why) in enumerate(CUT, 1)]


def whole_requests(length):
    """How many of the requests are whole in a prefix of this length."""
    ends, end = [], 0
    for ask, _ in CUT:
        end += len(EVENT) + len(framed_request(ask))
        ends.append(end)
    return sum(end <= length for end in ends)


def cut(most, turns, taken):
    """The conversation in pieces of a size; after each some turns are made and some bytes are taken."""
    steps, output, answered, waiting = [CONNECT], b"", 0, b""

    def turn_and_take(turns, taken):
        nonlocal answered, waiting, output
        for _ in range(turns):
            if answered < whole_requests(fed):
                steps.append(ANSWERED)
                waiting += CUT_ANSWERS[answered]
                answered += 1
            else:
                steps.append(NOTHING)
        count = min(taken, len(waiting))
        steps.extend([waits(waiting), sent(count)])
        output, waiting = output + waiting[:count], waiting[count:]

    fed = 0
    while fed < len(CUT_INPUT):
        piece = CUT_INPUT[fed:fed + most]
        fed += len(piece)
        steps.append(recv(piece))
        turn_and_take(turns, taken)
    for _ in range(10):
        turn_and_take(1, 100000)
    assert output == b"".join(CUT_ANSWERS) and not waiting
    return steps + [NOTHING, FINISHED]


def unconnected(number):
    """Without a connection nothing happens; then one is made, which cannot be made twice, and dropped."""
    refusal = "NotConnected"
    return [recv(b"x", refusal), recv(b"x" * 65537, refusal), ("turn", refusal), sent(0, refusal), sent(1, refusal), ("drop", refusal),
            waits(b""), pends(0), UNFINISHED, NO_FAULT, ("connect", str(number)), ("connect", "AlreadyConnected"), UNFINISHED, DROPPED]


def full():
    """A session that answers until more than 65,536 bytes wait, and that many bytes."""
    answers, seq = b"", 0
    steps = [CONNECT, recv(threads(1, 601))]
    while len(answers) <= 65536:
        seq += 1
        answers += refused("wrongPhase", 3, "threads", seq, seq)
        steps.append(ANSWERED)
    return steps, answers, seq


FULL_STEPS, FULL_ANSWERS, FULL_COUNT = full()
NEXT_ANSWER = refused("wrongPhase", 3, "threads", FULL_COUNT + 1, FULL_COUNT + 1)

# Names that are not served, each with arguments: such as the request takes, such as it does not, and any.
UNSERVED = [("goto", {"threadId": 1, "targetId": 20}), ("source", {"sourceReference": "one"}), ("fly", {"to": "the moon"})]


def unserved(command, arguments):
    """A request that is not served, before and after `initialize`, and repeated: it is refused each time, and changes nothing."""
    first, second = request(1, command, **arguments), request(3, command, **arguments)
    steps = [CONNECT, recv(first + request(2, "initialize") + second + second + request(4, "threads")), pends(5)]
    for answer in (refused(*UNKNOWN, command, 1, 1), frame(CAPABILITIES % (2, 2)), refused(*UNKNOWN, command, 3, 3),
                   refused(*REPEATED, command, 3, 4), frame(THREADS % (4, 5))):
        steps += [ANSWERED] + takes(answer)
    return steps + [NOTHING, UNFINISHED, NO_FAULT]


GREATEST = 2147483647
GREATEST_RETIRED = 1 << 62
TWO_NUMBERS = request(1, "initialize") + request(2, "threads") + request(3, "threads")

ROWS = [Row(name, conversation(*pieces), PROFILE) for name, pieces in CONVERSATIONS] + [
    Row("a request that is not served is unknown, and changes nothing: " + command, unserved(command, arguments), PROFILE)
    for command, arguments in UNSERVED] + [
    Row("the texts of a repeat and of a cancel", [
        CONNECT, recv(FIRST + request(5, "threads") * 2 + request(9, "cancel")), ANSWERED, ANSWERED, ANSWERED, ANSWERED, NOTHING,
        waits(FIRST_ANSWER + frame(FIVE_ANSWERED) + frame(REPEAT_REFUSED) + frame(CANCEL_ANSWERED)),
    ], PROFILE),
    Row("after a disconnect the connection takes nothing and answers what waits", [
        CONNECT, recv(FIRST + request(2, "disconnect") + request(3, "threads")),
        ANSWERED, pends(2), recv(b""), UNFINISHED,
        ANSWERED, pends(1), recv(b"", "Closing"), UNFINISHED,
        ANSWERED, pends(0), recv(b"", "Closing"), UNFINISHED,
        NOTHING,
        sent(len(FIRST_ANSWER + frame(DISCONNECTED % (2, 2)) + refused("wrongPhase", 3, "threads", 3, 3)) - 1), UNFINISHED,
        sent(1), FINISHED, recv(b"x", "Closing"), NO_FAULT,
    ], PROFILE),
    Row("a fault is reported until the next connection", [
        CONNECT, recv(NO_MESSAGE), faulty("Message(NotAMessage)"), recv(b"x", "Closing"), DROPPED, ("drop", "NotConnected"),
        faulty("Message(NotAMessage)"), ("connect", "2"), NO_FAULT,
    ], PROFILE),
    Row("what is no frame closes the connection", [
        CONNECT, recv(NO_FRAME), faulty("Frame(NoLength)"), recv(NO_FRAME, "Closing"), FINISHED,
    ], PROFILE),
    Row("what came before a fault is answered", [
        CONNECT, recv(request(2, "threads") + NO_MESSAGE), pends(1), ANSWERED, waits(refused("wrongPhase", 3, "threads", 2, 1)), UNFINISHED,
    ], PROFILE),
    Row("a limit is at least 1 and at most its greatest", [
        limits(1, 1, 1), limits(GREATEST, GREATEST, GREATEST_RETIRED),
        *(limits(*numbers, "BadLimit: bad limit") for numbers in (
            (0, 1, 1), (1, 0, 1), (1, 1, 0), (GREATEST + 1, 1, 1), (1, GREATEST + 1, 1), (1, 1, GREATEST_RETIRED + 1))),
        ("greatest", "Limits { last_seq: %d, last_ref: %d, last_retired: %d }" % (GREATEST, GREATEST, GREATEST_RETIRED)),
    ], PROFILE),
    Row("the last number closes the connection", [
        limits(2, 1, 1), CONNECT, recv(TWO_NUMBERS), ANSWERED, recv(b""), ANSWERED, pends(0), recv(b"", "Closing"), UNFINISHED,
        *takes(FIRST_ANSWER + frame(THREADS % (2, 2))), NO_FAULT, FINISHED, NOTHING,
    ], PROFILE),
    Row("without a connection nothing happens", unconnected(1) + unconnected(2) + unconnected(3), PROFILE),
    Row("what a connection left is not on the next", [
        CONNECT, recv(FIRST + request(2, "threads")), recv(b"Content-Length: 99\r\n"), ANSWERED, DROPPED,
        ("connect", "2"), waits(b""), pends(0), recv(FIRST + request(2, "threads")), ANSWERED, waits(FIRST_ANSWER),
    ], PROFILE),
    Row("with 256 requests that wait no piece is taken", [
        CONNECT, recv(threads(1, 256)), pends(255), recv(threads(256, 257)), recv(b"C", "Busy"), pends(256),
    ], PROFILE),
    Row("with 257 requests that wait, as they came in one piece, none is lost", [
        CONNECT, recv(threads(1, 256)), recv(threads(256, 258)), pends(257), recv(b"", "Busy"), ANSWERED, pends(256), recv(b"", "Busy"), ANSWERED, pends(255),
        recv(threads(258, 259)), *[ANSWERED] * 256, NOTHING,
        *takes(b"".join(refused("wrongPhase", 3, "threads", seq, seq) for seq in range(1, 259))),
    ], PROFILE),
    Row("a piece has at most 65,536 bytes", [
        CONNECT, recv(b" " * 65537, "PieceTooLong"), NO_FAULT, recv(b" " * 65536), faulty("Frame(HeaderTooLong)"),
    ], PROFILE),
    Row("no more is sent than waits", [
        CONNECT, recv(FIRST), ANSWERED, sent(len(FIRST_ANSWER) + 1, "SentTooMuch"), waits(FIRST_ANSWER), sent(len(FIRST_ANSWER)), waits(b""),
    ], PROFILE),
    Row("above 65,536 waiting bytes no request is answered", FULL_STEPS + [
        FULL, waits(FULL_ANSWERS), FULL, sent(len(FULL_ANSWERS) - 65536), ANSWERED, waits(FULL_ANSWERS[-65536:] + NEXT_ANSWER), FULL,
    ], PROFILE),
    Row("an event that is applied is its call", [
        ("apply connect", "Connect(1)"), ("apply recv " + FIRST.hex(), "Recv"), ("apply turn", "Turn(Answered)"), waits(FIRST_ANSWER),
        ("apply sent 1", "Sent"), waits(FIRST_ANSWER[1:]), ("apply turn " + b"a file".hex(), "Turn(Nothing)"),
        ("apply hold", "Hold"), ("apply slice 5", "Slice(Sliced { moved: 0, ending: Idle })"),
        ("apply drop", "DropConnection"), ("apply sent 1", "NotConnected"),
    ], PROFILE),
    Row("the bytes of an event are those of its vector", [("bytes " + b"abc".hex(), b"abc".hex() + " 3")], "worked by hand"),
    Row("the events of a session are given again after one that found no memory", [
        CONNECT,
        recv(SESSION[:150]), pends(1), waits(b""), ANSWERED, waits(FIRST_ANSWER), pends(0), NOTHING,
        recv(SESSION[150:]), pends(2), waits(FIRST_ANSWER), ANSWERED, waits(FIRST_ANSWER + frame(THREADS % (2, 2))), pends(1), ANSWERED,
    ] + takes(ANSWERS) + [NOTHING, NO_FAULT, FINISHED], PROFILE, refused=True),
    Row("texts of errors", [
        text("NotConnected", "not connected"), text("AlreadyConnected", "already connected"), text("Busy", "busy"),
        text("SentTooMuch", "more sent than waits"), text("PieceTooLong", "piece too long"), text("Closing", "connection is closing"),
        text("NoMemory", "no memory"), text("Spent", "no connection number is left"),
        ("text config BadMemorySize", "bad memory size"), ("text config BadLimit", "bad limit"), ("text config NoMemory", "no memory"),
    ], "the doc comments of the errors"),
] + [Row("a conversation is the same however it is cut: %d bytes at a time" % most, cut(most, turns, taken), PROFILE)
     for most, turns, taken in ((1, 1, 1), (2, 0, 0), (7, 3, 2), (83, 1, 1000), (1000, 9, 83), (60000, 0, 7))]
