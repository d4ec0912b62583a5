"""Events: made of their parts, written, read into their parts and written again."""
from rows.bodies import NO_NUMBERS, NO_TEXTS, NO_TRUTHS, odd
from rows.messages import no_message, read, response, spelled, write
from support.players import Row

PLAYER = "test_messages"

PROFILE = "docs/PROTOCOL.md, with the types of the published schema"

# The variant of each reason, and its name.
REASONS = (
    ("Entry", "entry"), ("Step", "step"), ("Breakpoint", "breakpoint"), ("InstructionBreakpoint", "instruction breakpoint"),
    ("FunctionBreakpoint", "function breakpoint"),
    ("Exception", "exception"), ("Pause", "pause"),
)


def text_of(name, body=None, seq=5):
    """An event, with the body if there is one. The members stand in byte order; body and seq are texts of any values."""
    return '{%s"event":"%s","seq":%s,"type":"event"}' % ('"body":%s,' % body if body else "", name, seq)


def both_ways(parts, name, body=None):
    """An event that is made of these parts has this text, and the text is read as them."""
    text = text_of(name, body)
    return [("event " + parts, "event " + parts), write(5, text), read(text, 5, "event " + parts), write(5, text)]


def none_of(name, bodies):
    """Bodies that the event does not have; None where it has none."""
    return [no_message(text_of(name, body)) for body in bodies]


def stopped(reason, text=None, *ids):
    """The parts of a stop."""
    return " ".join(["Stopped", reason, "none" if text is None else spelled(text), *map(str, ids)])


def stop(reason, ids="", text=""):
    """The body of a stop; ids and text are members with the comma after each."""
    return '{"allThreadsStopped":true,%s"reason":"%s",%s"threadId":1}' % (ids, reason, text)


STOP = '{"allThreadsStopped":%(all)s,"hitBreakpointIds":%(ids)s,"reason":%(reason)s,"text":%(text)s,"threadId":%(thread)s}'
STOP_KINDS = {
    "all": ("true", (*NO_TRUTHS, "false")),
    "ids": ("[1]", ("[]", "null", "1", "{}", "true", '"1"', *("[%s]" % number for number in NO_NUMBERS), "[1,null]", "[[1]]")),
    "reason": ('"step"', (*NO_TEXTS, '""', '"Step"', '"goto"', '"data breakpoint"', '"functionbreakpoint"', '"instructionbreakpoint"')),
    "text": ('"x"', NO_TEXTS),
    "thread": ("1", ("0", "2", "-1", "1.0", "4294967297", '"1"', "null")),
}
RIGHT = {name: right for name, (right, _) in STOP_KINDS.items()}

BARE = [
    Row("events without a body", [*both_ways("Initialized", "initialized"), *both_ways("Terminated", "terminated")], PROFILE),
    Row("bodies of events that have none", [
        step for name in ("initialized", "terminated") for step in none_of(name, ("{}", "null", "[]", '{"restart":true}'))], PROFILE),
    Row("no events", [no_message(text) for text in (
        # names that no event has, and what is no name
        *(text_of(name) for name in ("", "Initialized", "initialize", "thread", "breakpoint", "process", "terminated ")),
        '{"event":null,"seq":5,"type":"event"}', '{"event":5,"seq":5,"type":"event"}', '{"seq":5,"type":"event"}',
        # a type that is another, or none; what a response has
        '{"event":"terminated","seq":5,"type":"response"}', '{"event":"terminated","seq":5,"type":"request"}',
        '{"event":"terminated","seq":5,"type":"Event"}', '{"event":"terminated","seq":5,"type":null}', '{"event":"terminated","seq":5}',
        response(3, "disconnect", 3).replace('"type":"response"', '"type":"event"'),
        response(3, "disconnect", 3, event='"terminated"'),
        # a member more
        '{"event":"terminated","request_seq":1,"seq":5,"type":"event"}', '{"event":"terminated","seq":5,"success":true,"type":"event"}',
        # numbers of no message
        *(text_of("terminated", seq=seq) for seq in ("0", "-1", "2147483648", "5.0", '"5"', "null")),
    )], PROFILE),
    Row("the greatest number of an event", [
        ("event Terminated", "event Terminated"), write(2147483647, text_of("terminated", seq=2147483647)),
        read(text_of("terminated", seq=2147483647), 2147483647, "event Terminated"),
    ], PROFILE),
]

STOPS = [
    Row("a stop with each reason", [step for variant, name in REASONS for step in both_ways(stopped(variant), "stopped", stop(name))], PROFILE),
    Row("a stop with breakpoints", [
        *both_ways(stopped("InstructionBreakpoint", None, 1), "stopped", stop("instruction breakpoint", '"hitBreakpointIds":[1],')),
        *both_ways(stopped("Breakpoint", None, 3, 1, 4294967295, 0), "stopped", stop("breakpoint", '"hitBreakpointIds":[3,1,4294967295,0],')),
    ], PROFILE),
    Row("a stop with a text", [
        *both_ways(stopped("Step", "x", 1), "stopped", STOP % RIGHT),
        *both_ways(stopped("Exception", "instruction limit"), "stopped", stop("exception", text='"text":"instruction limit",')),
        *both_ways(stopped("Step", "start of history"), "stopped", stop("step", text='"text":"start of history",')),
        *both_ways(stopped("Step", '"\n\u00e9', 7), "stopped", stop("step", '"hitBreakpointIds":[7],', '"text":"\\"\\n\u00e9",')),
        *both_ways(stopped("Pause", "", 7), "stopped", stop("pause", '"hitBreakpointIds":[7],', '"text":"",')),
    ], PROFILE),
    Row("spaces and order of an event do not matter", [
        read(' { "type" : "event", "body" : { "threadId" : 1, "reason" : "step", "hitBreakpointIds" : [ 1, 2 ], "allThreadsStopped" : true },\n'
             '"seq" : 5, "event" : "stopped" } ', 5, "event " + stopped("Step", None, 1, 2)),
        write(5, text_of("stopped", stop("step", '"hitBreakpointIds":[1,2],'))),
    ], PROFILE),
    Row("no bodies of stopped", none_of("stopped", (
        None, "{}", "[]", "null", '"step"',
        *odd(STOP, **STOP_KINDS),
        # a member more, and each that is always there left out
        *((STOP % RIGHT)[:-1] + more for more in (',"x":1}', ',"description":"x"}', ',"preserveFocusHint":false}')),
        '{"reason":"step","threadId":1}', '{"allThreadsStopped":true,"threadId":1}', '{"allThreadsStopped":true,"reason":"step"}',
    )), PROFILE),
]

OTHERS = [
    Row("that the machine goes on", both_ways("Continued", "continued", '{"allThreadsContinued":true,"threadId":1}'), PROFILE),
    Row("no bodies of continued", none_of("continued", (
        None, "{}", "null", '{"allThreadsContinued":true}', '{"threadId":1}', '{"allThreadsContinued":false,"threadId":1}',
        '{"allThreadsContinued":true,"threadId":0}', '{"allThreadsContinued":true,"threadId":1,"x":1}', '{"allThreadsContinued":null,"threadId":1}',
    )), PROFILE),
    Row("what the program printed", [
        step for text, json in (("7\n", "7\\n"), ("-2147483648\n", "-2147483648\\n"), ("", ""), ('"\\\x01\u20ac', '\\"\\\\\\u0001\u20ac'))
        for step in both_ways("Output Stdout " + spelled(text), "output", '{"category":"stdout","output":"%s"}' % json)
    ], PROFILE),
    Row("what a logpoint writes", [
        step for text, json in (("back {a0}\n", "back {a0}\\n"), ("\n", "\\n"), ("", ""), ("a\nb\u20ac", "a\\nb\u20ac"))
        for step in both_ways("Output Console " + spelled(text), "output", '{"category":"console","output":"%s"}' % json)
    ], PROFILE),
    Row("no bodies of output", none_of("output", (
        None, "{}", "null", '{"output":"7\\n"}', '{"category":"stdout"}', '{"category":"Console","output":"7\\n"}',
        '{"category":"stdout ","output":"7\\n"}', '{"category":"important","output":"7\\n"}',
        '{"category":"stderr","output":"7\\n"}', '{"category":null,"output":"7\\n"}', '{"category":"stdout","line":1,"output":"7\\n"}',
        *odd('{"category":"stdout","output":%(output)s}', output=("", NO_TEXTS)),
    )), PROFILE),
    Row("exit codes", [
        step for code in (0, 6, 1, -1, 255, 2147483647, -2147483648, -2147483647)
        for step in both_ways("Exited %d" % code, "exited", '{"exitCode":%d}' % code)
    ], PROFILE),
    Row("no bodies of exited", none_of("exited", (
        None, "{}", "null", "6", '{"exitCode":6,"x":1}', '{"exitcode":6}',
        # beyond 32 bits with a sign; -1 and the least as numbers without a sign; what is no whole number
        *('{"exitCode":%s}' % code for code in (
            "2147483648", "4294967295", "18446744073709551615", "-2147483649", "-9223372036854775808", "9223372036854775807", "-0", "6.0", "6e0",
            '"6"', "null", "true", "[6]")),
    )), PROFILE),
]

REFUSED = [
    Row("an event that found no memory can be made, read and written again", [
        *both_ways(stopped("Breakpoint", "x", 1, 2), "stopped", stop("breakpoint", '"hitBreakpointIds":[1,2],', '"text":"x",')),
        *both_ways("Output Stdout " + spelled("7\n"), "output", '{"category":"stdout","output":"7\\n"}'),
        *both_ways("Exited -1", "exited", '{"exitCode":-1}'),
        *both_ways("Terminated", "terminated"),
    ], PROFILE, refused=True),
]

# As many breakpoints as two of the lists can have, and the longest text.
IDS = range(4294965248, 4294967296)
GREATEST_SIZES = [
    Row("a stop with 2,048 breakpoints", both_ways(
        stopped("Breakpoint", None, *IDS), "stopped", stop("breakpoint", '"hitBreakpointIds":[%s],' % ",".join(map(str, IDS)))), PROFILE),
    Row("output of 1,000,000 bytes", both_ways(
        "Output Stdout " + spelled("y" * 1000000), "output", '{"category":"stdout","output":"%s"}' % ("y" * 1000000)), PROFILE),
]

ROWS = BARE + STOPS + OTHERS + REFUSED + GREATEST_SIZES
