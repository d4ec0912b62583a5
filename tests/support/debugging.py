"""A session in which a program is debugged, written down: what an editor asks and is told, as commands of the session's player and their
answers. The numbers of both sides are counted here."""
from support.breaks import body_of
from support.program import frame
from support.texts import CAPABILITIES, REFUSED, THREADS, request

PATH = "/w/p.s"

# Why a request is refused: the name and the number.
UNKNOWN = ("unknownCommand", 1)
BAD_ARGUMENTS = ("badArguments", 2)
WRONG_PHASE = ("wrongPhase", 3)
NOT_STOPPED = ("notStopped", 4)
WAS_CANCELLED = ("cancelled", 5)
REPEATED = ("repeatedSequence", 6)
NO_THREAD = ("noThread", 7)
TOO_MUCH = ("tooMuch", 15)
ASSEMBLY_FAILED = ("assemblyFailed", 17)
ENDED = ("ended", 18)
EXHAUSTED = ("referencesExhausted", 19)
GONE = ("requestGone", 20)
UNREADABLE = ("fileUnreadable", 21)
NO_HISTORY = ("noHistory", 23)

# Events: the name, and the body if there is one.
INITIALIZED = ("initialized", None)
TERMINATED = ("terminated", None)

# As many bytes may come at once.
LONGEST_PIECE = 65536

OF_A_THREAD = ("continue", "next", "stepIn", "stepOut", "stepBack", "reverseContinue", "pause")

SUCCESSES = {"initialize": CAPABILITIES, "threads": THREADS,
             "continue": '{"body":{"allThreadsContinued":true},"command":"continue","request_seq":%d,"seq":%d,"success":true,"type":"response"}'}


def stopped(reason, text=None, ids=()):
    """ids: the numbers of the breakpoints that stopped the program."""
    hit = '"hitBreakpointIds":[%s],' % ",".join(map(str, ids)) if ids else ""
    more = "" if text is None else '"text":"%s",' % text
    return "stopped", '{"allThreadsStopped":true,%s"reason":"%s",%s"threadId":1}' % (hit, reason, more)


def printed(number):
    return "output", '{"category":"stdout","output":"%d\\n"}' % number


def logged(text):
    """What a logpoint says; the text has no character that JSON escapes."""
    return "output", '{"category":"console","output":"%s\\n"}' % text


def exits(code):
    """The events of an exit."""
    return ("exited", '{"exitCode":%d}' % code), TERMINATED


def event_text(event, seq):
    name, body = event
    return '{%s"event":"%s","seq":%d,"type":"event"}' % ("" if body is None else '"body":%s,' % body, name, seq)


def success_text(command, request_seq, seq, body=None):
    if body is None and command in SUCCESSES:
        return SUCCESSES[command] % (request_seq, seq)
    said = "" if body is None else '"body":%s,' % body
    return '{%s"command":"%s","request_seq":%d,"seq":%d,"success":true,"type":"response"}' % (said, command, request_seq, seq)


def refusal_text(refusal, text, command, request_seq, seq):
    name, number = refusal
    return REFUSED % (name if text is None else text, number, command, name, request_seq, seq)


class Debugging:
    """The commands so far, with their answers. Each method adds some, and answers the same value."""

    def __init__(self, *new):
        """Begins with a session that is made of this, or with the player's first one: 1 MiB, the greatest limits and no program."""
        self.steps, self.number, self.asked, self.told, self.is_connected = [], 0, 0, 0, False
        self.sent, self.taken, self.waiting = b"", b"", b""
        if new:
            self.does("new " + " ".join(map(str, new)), "ok")

    def does(self, command, answer):
        self.steps.append((command, answer))
        return self

    def connects(self):
        self.number += 1
        self.asked, self.told, self.waiting, self.is_connected = 0, 0, b"", True
        return self.does("connect", str(self.number))

    def drops(self):
        self.waiting, self.is_connected = b"", False
        return self.does("drop", "ok")

    def sends(self, command, seq=None, **arguments):
        """A request comes, with the next number if no other is given. One that names a thread names the first, if no other is given."""
        if command in OF_A_THREAD and not arguments:
            arguments = {"threadId": 1}
        if command == "initialize":
            arguments = {"adapterID": "rvdap", **arguments}
        self.asked = self.asked + 1 if seq is None else max(seq, self.asked)
        piece = request(self.asked if seq is None else seq, command, **arguments)
        self.sent += piece
        for begin in range(0, len(piece), LONGEST_PIECE):
            self.does("recv " + piece[begin:begin + LONGEST_PIECE].hex(), "ok")
        return self

    def queues(self, text):
        """A message with the next number is queued; text gives its text by that."""
        self.told += 1
        self.waiting += frame(text(self.told))
        return self

    def tells(self, *events):
        for event in events:
            self.queues(lambda seq: event_text(event, seq))
        return self

    def answers(self, command, refusal=None, text=None, file=None, seq=None, body=None):
        """The first request that waits, which is this, is answered, with the file if one is given."""
        number = self.asked if seq is None else seq
        self.does("turn" if file is None else "turn " + file.hex(), "Answered")
        if refusal is None:
            return self.queues(lambda seq: success_text(command, number, seq, body))
        return self.queues(lambda seq: refusal_text(refusal, text, command, number, seq))

    def shows(self):
        """What waits is as it was said."""
        return self.does("waiting", self.waiting.hex())

    def takes(self):
        """The same, and it is all taken."""
        self.shows().does("sent %d" % len(self.waiting), "ok" if self.is_connected else "NotConnected")
        self.taken, self.waiting = self.taken + self.waiting, b""
        return self

    def asks(self, command, refusal=None, text=None, file=None, events=(), seq=None, body=None, **arguments):
        """A request comes and is answered, and its answer and the events after it are taken."""
        return self.sends(command, seq, **arguments).answers(command, refusal, text, file, seq, body).tells(*events).takes()

    def sets(self, asked, entries, path=PATH):
        """Breakpoints at lines are asked for, and this is said of each."""
        return self.asks("setBreakpoints", body=body_of(entries), source={"path": path}, breakpoints=asked)

    def sets_at_instructions(self, asked, entries):
        return self.asks("setInstructionBreakpoints", body=body_of(entries), breakpoints=asked)

    def sets_at_functions(self, asked, entries):
        return self.asks("setFunctionBreakpoints", body=body_of(entries), breakpoints=asked)

    def slices(self, moves, moved, ending, *events):
        """A slice of so many moves, and what it tells is taken."""
        return self.does("slice %d" % moves, "%d %s" % (moved, ending)).tells(*events).takes()

    def runs(self, wanted):
        """Whether the program runs."""
        return self.does("runnable", "true" if wanted else "false")

    def wants(self, path):
        return self.does("wants_file", path)

    def launches(self, file, **arguments):
        return self.asks("launch", file=file, events=[INITIALIZED], program=PATH, **arguments)

    def begins(self, file, **arguments):
        """An editor connects, launches the program and says all."""
        return self.connects().asks("initialize").launches(file, **arguments).asks("configurationDone")


def debugging(file, *new, **arguments):
    """A session in which the program was begun."""
    return Debugging(*new).begins(file, **arguments)


def launched(file, *new, **arguments):
    """A session in which the program was launched, and the editor has not said all."""
    return Debugging(*new).connects().asks("initialize").launches(file, **arguments)
