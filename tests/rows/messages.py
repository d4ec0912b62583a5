"""Bodies and the requests that they are read as; responses as they are made, written and read; the texts of errors."""
from json import dumps

from rows.requests import NAMES as REQUESTS
from support.players import Row
from support.texts import CANCELLED, CAPABILITIES, DISCONNECTED, REFUSED, THREADS
from support.texts import INITIALIZE as FIRST

PLAYER = "test_messages"
# The name is shown of what was read.
ALSO_MADE = {"Command::name": "request"}
LIMIT = 1048576
GREATEST = 2147483647

PROFILE = "docs/PROTOCOL.md, with the types of the published schema"
JSON = "RFC 8259, and docs/PROTOCOL.md for what it leaves open"
DOCUMENTED = "what the variants are documented to say"


def spelled(text):
    """Text or bytes as an argument."""
    return (text if isinstance(text, bytes) else text.encode()).hex()


def argument(value):
    """A number, a flag, or None as an argument."""
    return "none" if value is None else str(value).lower()


# Requests, and the JSON values of bodies.

def is_initialize(seq, lines, columns):
    return "%d initialize %s %s" % (seq, argument(lines), argument(columns))


def is_threads(seq):
    return "%d threads" % seq


def is_cancel(seq, request_id):
    return "%d cancel %s" % (seq, argument(request_id))


def is_disconnect(seq, terminate, suspend):
    return "%d disconnect %s %s" % (seq, argument(terminate), argument(suspend))


def is_bad(seq, name, refusal):
    return "bad %d %s %s" % (seq, spelled(name), refusal)


IGNORED = "ignored"


def request(body, meaning):
    return "request " + spelled(body), meaning


def requests(*table):
    return [request(body, meaning) for body, meaning in table]


def json(body, value):
    """The value of a body, as compact text."""
    return "json " + spelled(body), spelled(value)


def no_json(body):
    return "json " + spelled(body), "NotJson"


def nested(arrays):
    return "[" * arrays + "]" * arrays


# Responses: made to a request that says nothing but its name, or of their parts; then written, and read.

def is_done(seq, name, body):
    return "%d %s done %s" % (seq, spelled(name), body)


def is_refused(seq, name, refusal, text="none"):
    return "%d %s refused %s %s" % (seq, spelled(name), refusal, text)


def success(seq, name, body):
    return "success %d %s %s" % (seq, name, body), is_done(seq, name, body)


def ack(seq, name):
    return "ack %d %s" % (seq, name), is_done(seq, name, "Empty")


def refuse(seq, name, refusal):
    return "refuse %d %s %s" % (seq, name, refusal), is_refused(seq, name, refusal)


def refused(seq, name, refusal, text="none"):
    return "refused %d %s %s %s" % (seq, spelled(name), refusal, text), is_refused(seq, name, refusal, text)


def write(seq, text):
    return "write %d" % seq, spelled(text)


def read(body, seq, parts):
    return "read " + spelled(body), "%d %s" % (seq, parts)


def written(seq, made, text):
    """What is made has this text, and the text is read as what was made."""
    return [made, write(seq, text), read(text, seq, made[1]), write(seq, text)]


def no_message(body, error="NotAMessage"):
    return "read " + spelled(body), error


def refusal_text(name, number, command, request_seq, seq):
    return REFUSED % (name, number, command, name, request_seq, seq)


# The refusals: variant, name and number.
REFUSALS = (
    ("RepeatedSequence", "repeatedSequence", 6),
    ("Cancelled", "cancelled", 5),
    ("UnknownCommand", "unknownCommand", 1),
    ("BadArguments", "badArguments", 2),
    ("WrongPhase", "wrongPhase", 3),
    ("NoMachine", "noMachine", 22),
    ("Ended", "ended", 18),
    ("NoThread", "noThread", 7),
    ("NotStopped", "notStopped", 4),
    ("UnknownReference", "unknownReference", 9),
    ("StaleReference", "staleReference", 8),
    ("BadMemoryReference", "badMemoryReference", 13),
    ("TooMuch", "tooMuch", 15),
    ("OutsideMemory", "outsideMemory", 14),
    ("UnknownName", "unknownName", 10),
    ("NotWritable", "notWritable", 12),
    ("BadExpression", "badExpression", 16),
    ("BadValue", "badValue", 11),
    ("AssemblyFailed", "assemblyFailed", 17),
    ("ReferencesExhausted", "referencesExhausted", 19),
    ("RequestGone", "requestGone", 20),
    ("FileUnreadable", "fileUnreadable", 21),
    ("NoHistory", "noHistory", 23),
)
# Those whose format is their name.
NAMED_REFUSALS = [row for row in REFUSALS if row[0] != "AssemblyFailed"]

INITIALIZE_TEXT = CAPABILITIES % (1, 1)
THREADS_TEXT = THREADS % (2, 2)
CANCEL_TEXT = CANCELLED % (9, 10)
DISCONNECT_TEXT = DISCONNECTED % (3, 3)
REFUSED_TEXT = refusal_text("wrongPhase", 3, "threads", 1, 1)

READING_REQUESTS = [
    Row("reads initialize, threads and disconnect", requests(
        (FIRST, is_initialize(1, True, True)),
        ('{"type":"request","seq":2,"command":"initialize",\n"arguments":{"linesStartAt1":false}}', is_initialize(2, False, True)),
        ('{"type":"request","seq":2,"command":"initialize",\n"arguments":{"columnsStartAt1":false,"linesStartAt1":true}}',
         is_initialize(2, True, False)),
        ('{"type":"request","seq":2,"command":"initialize",\n"arguments":{"linesStartAt1":null}}', is_initialize(2, True, True)),
        ('{"type":"request","seq":2,"command":"initialize","arguments":null}', is_initialize(2, True, True)),
        (' {"seq": 2, "type": "request", "command": "threads"} ', is_threads(2)),
        ('{"seq":2,"type":"request","command":"threads","arguments":{"any":[1]},"more":{}}', is_threads(2)),
        ('{"seq":3,"type":"request","command":"disconnect"}', is_disconnect(3, None, None)),
        ('{"seq":3,"type":"request","command":"disconnect",\n"arguments":{"terminateDebuggee":true,"suspendDebuggee":false}}',
         is_disconnect(3, True, False)),
        ('{"seq":3,"type":"request","command":"disconnect",\n'
         '"arguments":{"suspendDebuggee":true,"terminateDebuggee":null,"restart":1}}', is_disconnect(3, None, True)),
    ), PROFILE),
    Row("reads cancel", [request('{"seq":9,"type":"request","command":"cancel"%s}' % arguments, is_cancel(9, request_id)) for arguments, request_id in (
        (',"arguments":{"requestId":8}', 8),
        ('', None),
        (',"arguments":null', None),
        (',"arguments":{"requestId":null}', None),
        (',"arguments":{"progressId":"8"}', None),
        (',\n"arguments":{"progressId":1.5,"requestId":0}', 0),
        (',"arguments":{"requestId":-1}', -1),
        (',"arguments":{"requestId":2147483647}', 2147483647),
        (',"arguments":{"requestId":-2147483648}', -2147483648),
    )], PROFILE),
    Row("refuses cancel of what is no number", [
        request('{"seq":9,"type":"request","command":"cancel","arguments":%s}' % arguments, is_bad(9, "cancel", "BadArguments")) for arguments in (
            '[]', '[8]', '8', '{"requestId":"x"}', '{"requestId":"8"}', '{"requestId":true}', '{"requestId":[8]}', '{"requestId":{}}',
            '{"requestId":1.5}', '{"requestId":1.0}', '{"requestId":1e2}', '{"requestId":-0}', '{"requestId":2147483648}',
            '{"requestId":-2147483649}', '{"requestId":9223372036854775808}', '{"requestId":18446744073709551615}',
            '{"requestId":18446744073709551616}')], PROFILE),
    Row("refuses requests by name and then by arguments", requests(
        ('{"seq":4,"type":"request","command":"source","arguments":[]}', is_bad(4, "source", "UnknownCommand")),
        ('{"seq":0,"type":"request","command":"Threads"}', is_bad(0, "Threads", "UnknownCommand")),
        ('{"seq":4,"type":"request","command":""}', is_bad(4, "", "UnknownCommand")),
        ('{"seq":4,"type":"request","command":"thre\\u0061ds","arguments":[]}', is_bad(4, "threads", "BadArguments")),
        ('{"seq":4,"type":"request","command":"disconnect","arguments":"{}"}', is_bad(4, "disconnect", "BadArguments")),
        ('{"seq":4,"type":"request","command":"disconnect",\n"arguments":{"suspendDebuggee":0}}', is_bad(4, "disconnect", "BadArguments")),
        ('{"seq":4,"type":"request","command":"initialize","arguments":{"linesStartAt1":1}}', is_bad(4, "initialize", "BadArguments")),
        ('{"seq":4,"type":"request","command":"initialize",\n"arguments":{"columnsStartAt1":"true"}}', is_bad(4, "initialize", "BadArguments")),
    ), PROFILE),
    Row("takes whole numbers alone", requests(
        ('{"type":"request","command":"threads","seq":0}', is_threads(0)),
        ('{"type":"request","command":"threads","seq":2147483647}', is_threads(2147483647)),
        ('{"type":"request","command":"threads","seq":2147483648}', "BadSeq"),
        ('{"type":"request","command":"threads","seq":18446744073709551616}', "BadSeq"),
        ('{"type":"request","command":"threads","seq":-0}', "BadSeq"),
        ('{"type":"request","command":"threads","seq":-1}', "BadSeq"),
        ('{"type":"request","command":"threads","seq":1.0}', "BadSeq"),
        ('{"type":"request","command":"threads","seq":1e2}', "BadSeq"),
        ('{"type":"request","command":"threads","seq":null}', "BadSeq"),
        ('{"type":"request","command":"threads","seq":"1"}', "BadSeq"),
        ('{"type":"request","command":"threads"}', "BadSeq"),
        ('{"type":"request","command":"threads","seq":1,"seq":null}', "BadSeq"),
        ('{"type":"request","command":"threads","seq":null,"seq":7}', is_threads(7)),
    ), PROFILE),
    Row("tells messages apart", requests(
        ('{"type":"response"}', IGNORED),
        ('{"type":"event","seq":-1,"command":5}', IGNORED),
        ('{}', "NotAMessage"),
        ('["request"]', "NotAMessage"),
        ('null', "NotAMessage"),
        ('{"seq":1,"command":"threads"}', "NotAMessage"),
        ('{"seq":1,"type":null,"command":"threads"}', "NotAMessage"),
        ('{"seq":1,"type":5,"command":"threads"}', "NotAMessage"),
        ('{"seq":1,"type":"Request","command":"threads"}', "NotAMessage"),
        ('{"seq":1,"type":"request"}', "NotAMessage"),
        ('{"seq":-1,"type":"request","command":5}', "NotAMessage"),
        ('{"type":"request","type":"event","seq":1,"command":"threads"}', IGNORED),
    ), PROFILE),
    Row("refuses what is no JSON", requests(
        (b'', "NotJson"),
        (b'{', "NotJson"),
        (b'{"type":"event"} x', "NotJson"),
        (b'\xef\xbb\xbf{}', "NotJson"),
        (b'{"type":"event","x":"\xff"}', "NotJson"),
        (b'{"type":"event","x":"\n"}', "NotJson"),
        (b'{"type":"event","x":"\\ud800"}', "NotJson"),
        (b'{"type":"event","x":1e400}', "NotJson"),
    ), JSON),
    Row("gives the JSON value of a body", [json('{"seq":7,"seq":8}', '{"seq":8}'), no_json("{")], JSON),
    Row("reads nesting of 127 and no more", [
        request('{"type":"event","x":%s}' % nested(126), IGNORED),
        request('{"type":"event","x":%s}' % nested(127), "NotJson"),
        json(nested(127), nested(127)),
        no_json(nested(128)),
    ], JSON),
    Row("a request that found no memory can be read again", requests(
        (FIRST, is_initialize(1, True, True)),
        ('{"seq":5,"type":"request","command":"source","arguments":{"x":[1,{"y":"z"}]}}', is_bad(5, "source", "UnknownCommand")),
    ), PROFILE, refused=True),
    Row("a value that found no memory can be read again", [json(' {"b" : [ 1, "x" ] } ', '{"b":[1,"x"]}'), no_json("{")], JSON, refused=True),
]

NAMES_AND_TEXTS = [
    Row("names refusals", [("refusal " + variant, "%d %s" % (number, name)) for variant, name, number in REFUSALS], PROFILE),
    Row("a text is its bytes", [("text " + spelled(text), spelled(text) + " " + spelled(text)) for text in ("a name", "", "\u00e9\u20ac\U0001f600\n")],
        "UTF-8"),
    Row("each error has its text", [
        ("error NotJson", "not JSON"),
        ("error NotAMessage", "not a message"),
        ("error BadSeq", "bad sequence number"),
        ("error NoMemory", "no memory"),
    ], DOCUMENTED),
]

THREADS_BODY = '{"threads":[{"id":1,"name":"hart 0"}]}'


def response(seq, command, request_seq, body=None, success=True, **more):
    """The text of a response whose parts need not belong together; a number may be any text."""
    members = '"command":"%s","request_seq":%s,"seq":%s,"success":%s,"type":"response"}' % (command, request_seq, seq, argument(success))
    return '{%s%s%s' % ("".join('"%s":%s,' % member for member in more.items()), '"body":%s,\n' % body if body else "", members)


def refusal(number, text, name, command="threads"):
    return response(1, command, 1, '{"error":{"format":"%s","id":%d}}' % (text, number), False, message='"%s"' % name)


RESPONSES = [
    Row("texts of the answers", [
        *written(1, success(1, "initialize", "Initialize"), INITIALIZE_TEXT),
        *written(2, success(2, "threads", "Threads"), THREADS_TEXT),
        *written(3, ack(3, "disconnect"), DISCONNECT_TEXT),
        *written(10, ack(9, "cancel"), CANCEL_TEXT),
        *written(1, refuse(1, "threads", "WrongPhase"), REFUSED_TEXT),
    ], PROFILE),
    Row("each refusal has its text", [
        step for variant, name, number in NAMED_REFUSALS
        for step in written(3, refuse(5, "threads", variant), refusal_text(name, number, "threads", 5, 3))
    ], PROFILE),
    Row("parts of what is read", [
        read(THREADS_TEXT, 2, is_done(2, "threads", "Threads")),
        read(INITIALIZE_TEXT, 1, is_done(1, "initialize", "Initialize")),
        read(CANCEL_TEXT, 10, is_done(9, "cancel", "Empty")),
        read(DISCONNECT_TEXT, 3, is_done(3, "disconnect", "Empty")),
        read(REFUSED_TEXT, 1, is_refused(1, "threads", "WrongPhase")),
    ], PROFILE),
    Row("spaces and order do not matter", [
        read(""" { "type" : "response", "seq" : 2, "success" : true, "request_seq" : 2,
        "command" : "threads", "body" : { "threads" : [ { "name" : "hart 0", "id" : 1 } ] } } """, 2, is_done(2, "threads", "Threads")),
        write(2, THREADS_TEXT),
    ], JSON),
    Row("bodies that are no message", [no_message(body) for body in (
        'null',
        '{}',
        # a request, and a response of another type
        '{"command":"threads","seq":1,"type":"request"}',
        '{"command":"disconnect","request_seq":3,"seq":3,"success":true,"type":"request"}',
        # a body of another command, none where one belongs, one where none belongs
        response(3, "initialize", 3, THREADS_BODY),
        response(3, "threads", 3),
        response(3, "disconnect", 3, "{}"),
        response(3, "cancel", 3, "{}"),
        response(3, "cancel", 3, THREADS_BODY),
        # a command that no request has, a member more, a member less
        response(3, "quit", 3),
        response(3, "disconnect", 3, extra=1),
        '{"command":"disconnect","request_seq":3,"seq":3,"success":true}',
        '{"command":"disconnect","request_seq":3,"success":true,"type":"response"}',
        # numbers out of their ranges, and one that is no whole number
        response(0, "disconnect", 3),
        response(2147483648, "disconnect", 3),
        response(3, "disconnect", 4294967296),
        response(3, "disconnect", "3.0"),
        # a refusal with the number, the text or the name of another, and one that there is not
        refusal(2, "wrongPhase", "wrongPhase"),
        refusal(3, "badArguments", "wrongPhase"),
        refusal(3, "wrongPhase", "badArguments"),
        refusal(4, "wrongPhase", "wrongPhase"),
        refusal(6, "cancelled", "cancelled"),
        refusal(2, "requestGone", "requestGone", "cancel"),
    )], PROFILE),
    Row("the bodies beside those that are no message", [
        read(response(3, "disconnect", 3), 3, is_done(3, "disconnect", "Empty")),
        read(response(3, "threads", 3, THREADS_BODY), 3, is_done(3, "threads", "Threads")),
        read(response(2147483647, "disconnect", 4294967295), 2147483647, is_done(4294967295, "disconnect", "Empty")),
        read(response(1, "cancel", 0), 1, is_done(0, "cancel", "Empty")),
        read(refusal(3, "wrongPhase", "wrongPhase"), 1, is_refused(1, "threads", "WrongPhase")),
        read(refusal(20, "requestGone", "requestGone", "cancel"), 1, is_refused(1, "cancel", "RequestGone")),
    ], PROFILE),
    Row("bodies that are no JSON", [no_message(body, "NotJson") for body in (b'', b'{', b'{"seq":01}', b'"\xff"')], JSON),
    Row("answers name their request", [step for name in REQUESTS for step in (
        success(7, name, "Threads"), refuse(7, name, "BadArguments"), ack(7, name))], PROFILE),
    Row("the text of a program's error is read and written", [
        *written(3, refused(2, "launch", "AssemblyFailed", spelled("line 1: Undefined")),
                 '{"body":{"error":{"format":"line 1: Undefined","id":17}},"command":"launch","message":"assemblyFailed",'
                 '"request_seq":2,"seq":3,"success":false,"type":"response"}'),
        *written(3, refused(2, "launch", "AssemblyFailed", spelled("assemblyFailed")), refusal_text("assemblyFailed", 17, "launch", 2, 3)),
        no_message('{"body":{"error":{"id":17}},"command":"launch","message":"assemblyFailed",'
                   '"request_seq":2,"seq":3,"success":false,"type":"response"}'),
    ], PROFILE),
    Row("a refusal with a text shows it", [
        refused(5, "quit", "UnknownCommand", spelled("no such request")),
        write(4, '{"body":{"error":{"format":"no such request","id":1}},"command":"quit",'
                 '"message":"unknownCommand","request_seq":5,"seq":4,"success":false,"type":"response"}'),
    ], PROFILE),
    Row("a name is escaped as the profile says", [
        step for name in (*map(chr, range(32)), '"', "\\", "/", "\x7f", "\u00e9", "\u20ac", "\u2028", "\U0001f600", 'a"\\\n\x1f\u00e9/')
        for step in written(1, refused(1, name, "UnknownCommand"), refusal_text("unknownCommand", 1, dumps(name, ensure_ascii=False)[1:-1], 1, 1))
    ], "docs/PROTOCOL.md, as Python's json.dumps spells it"),
    Row("a message that found no memory can be made, written and read again", [
        *written(1, success(1, "initialize", "Initialize"), INITIALIZE_TEXT),
        *written(1, refuse(1, "threads", "WrongPhase"), REFUSED_TEXT),
        *written(3, ack(3, "disconnect"), DISCONNECT_TEXT),
    ], PROFILE, refused=True),
    Row("no memory is another answer than that of bad bodies", [
        read(INITIALIZE_TEXT, 1, is_done(1, "initialize", "Initialize")),
        read(REFUSED_TEXT, 1, is_refused(1, "threads", "WrongPhase")),
        no_message("{", "NotJson"),
        no_message("{}"),
    ], PROFILE, refused=True),
]


def filled(head, tail, filling="y"):
    """A body of the greatest length."""
    room = LIMIT - len(head) - len(tail)
    return head + filling * (room // len(filling)) + tail + " " * (room % len(filling))


# What the longest names of requests are made of: how a text spells it, and what it is.
LONG_NAMES = {
    "letters": ("y", "y"),
    "escapes": ("\\u0001", "\x01"),
    "escaped quotation marks": ('\\"', '"'),
}
NAMED_HEAD, NAMED_TAIL = '{"seq":2147483647,"type":"request","command":"', '"}'


def long_name(spelling, letter):
    """A request with a name at its longest is refused, and the response has the whole name."""
    name = letter * ((LIMIT - len(NAMED_HEAD) - len(NAMED_TAIL)) // len(spelling))
    text = refusal_text("unknownCommand", 1, spelling * len(name), GREATEST, GREATEST)
    return [
        request(filled(NAMED_HEAD, NAMED_TAIL, spelling), is_bad(GREATEST, name, "UnknownCommand")),
        *written(GREATEST, refused(GREATEST, name, "UnknownCommand"), text),
    ]


def members(names):
    return "{%s}" % ",".join('"%s":0' % name for name in names)


NAMES = ["%06d" % i for i in range(90000)]

LONG_TEXT = ('{"body":{"error":{"format":"%s","id":1}},"command":"quit","message":"unknownCommand",'
             '"request_seq":%d,"seq":%d,"success":false,"type":"response"}' % ("y" * LIMIT, GREATEST, GREATEST))

GREATEST_SIZES = [
    *(Row("a name as long as a body lets it be, of " + what, long_name(*letters), PROFILE) for what, letters in LONG_NAMES.items()),
    Row("a refusal's text is written whole, and not read", [
        refused(GREATEST, "quit", "UnknownCommand", spelled("y" * LIMIT)),
        write(GREATEST, LONG_TEXT), no_message(LONG_TEXT),
    ], PROFILE),
    Row("requests of the greatest length", requests(
        (filled('{"seq":2147483647,"type":"request","command":"initialize","arguments":{"adapterID":"', '"}}'), is_initialize(GREATEST, True, True)),
        (filled('{"seq":2147483647,"type":"request","command":"threads","x":"', '"}'), is_threads(GREATEST)),
        (filled('{"seq":2147483647,"type":"request","command":"cancel","arguments":{"requestId":-2147483648,"progressId":"', '"}}'),
         is_cancel(GREATEST, -2147483648)),
        (filled('{"seq":2147483647,"type":"request","command":"disconnect","arguments":{"x":[0', ']}}', ",0"), is_disconnect(GREATEST, None, None)),
        (filled('{"type":"event","x":"', '"}'), IGNORED),
    ), PROFILE),
    Row("values of the greatest length", [
        json(filled("[0", "]", ",0"), filled("[0", "]", ",0").strip()),
        json(filled('"', '"'), filled('"', '"')),
        json(members(NAMES), members(NAMES)),
        no_json(filled('"', "")),
    ], JSON),
    Row("texts of the answers with the greatest numbers", [
        *written(GREATEST, success(GREATEST, "initialize", "Initialize"), CAPABILITIES % (GREATEST, GREATEST)),
        *written(GREATEST, success(GREATEST, "threads", "Threads"), THREADS % (GREATEST, GREATEST)),
        *written(GREATEST, ack(GREATEST, "cancel"), CANCELLED % (GREATEST, GREATEST)),
        *written(GREATEST, ack(GREATEST, "disconnect"), DISCONNECTED % (GREATEST, GREATEST)),
        *(step for variant, name, number in NAMED_REFUSALS for step in written(
            GREATEST, refuse(GREATEST, "disconnect", variant), refusal_text(name, number, "disconnect", GREATEST, GREATEST))),
    ], PROFILE),
    Row("numbers beyond those of messages are written, and not read", [
        ack(4294967295, "cancel"), write(4294967295, CANCELLED % (4294967295, 4294967295)),
        no_message(CANCELLED % (4294967295, 4294967295)),
    ], PROFILE),
]

ROWS = READING_REQUESTS + NAMES_AND_TEXTS + RESPONSES + GREATEST_SIZES
