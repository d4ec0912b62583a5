"""Requests with their arguments, each as it is read from a body: every argument given, none that may be absent, and odd ones."""
from base64 import b64encode
from json import dumps, loads

from support.players import Row

PLAYER = "test_messages"
LIMIT = 1048576

SCHEMA = "docs/PROTOCOL.md, with the types of the published schema"
BASE64 = "RFC 4648, sections 3.5, 4 and 10"


def spelled(text):
    """A text or bytes as the player shows them."""
    return (text if isinstance(text, bytes) else text.encode()).hex()


def quoted(text):
    return '"%s"' % text


def step(body, meaning):
    return "request " + spelled(body), meaning


def body_of(name, arguments=None):
    """A request, with the text of its arguments."""
    return '{"seq":7,"type":"request","command":"%s"%s}' % (name, "" if arguments is None else ',"arguments":' + arguments)


def object_of(members):
    return "{%s}" % ",".join('"%s":%s' % member for member in members.items())


def read(name, arguments, *shown):
    return step(body_of(name, arguments), " ".join(("7", name) + shown))


def refused(name, arguments=None, why="BadArguments"):
    return step(body_of(name, arguments), "bad 7 %s %s" % (spelled(name), why))


# What has another type than the schema's, or is out of its range.
NO_TEXT = ('1', 'true', '[]', '{}', '["a"]')
NO_INTEGER = ('"1"', 'true', '[]', '[1]', '{}', '1.5', '1.0', '1e2', '-0', '2147483648', '-2147483649', '9223372036854775807',
              '9223372036854775808', '-9223372036854775808', '18446744073709551615', '18446744073709551616')
NO_NATURAL = NO_INTEGER + ('-1', '-2147483648')
NO_FLAG = ('0', '1', '"true"', '""', '[]', '[true]', '{}')
NO_GRANULARITY = ('"Statement"', '"statement "', '"instructions"', '"byte"', '""', '1', 'true', '["line"]', '{}')
NO_FILTER = ('"Named"', '"all"', '""', '1', 'true', '["named"]', '{}')
# no padding, too much of it, some in the middle or alone, spare bits, a lone symbol, another alphabet, blanks
NO_BASE64 = NO_TEXT + ('"AA"', '"AAA"', '"AA="', '"AA==="', '"AAAA="', '"AA==AA=="', '"="', '"===="', '"AB=="', '"AAB="', '"A"', '"AAAAA"', '"A==="',
                       '"AA-_"', '" AAAA"', '"AAAA\\n"', '"AA A"', '"\\u00e9AAA"')
NO_LIST = ('1', '"x"', 'true', '{}', '[null]', '[1]', '["x"]', '[[]]', '[[{}]]')

# Each argument: its name, what it never is, a value and how it is shown, and how one is shown that is absent (None: it may not be absent).
THREAD_ID = ("threadId", NO_INTEGER, "1", "1", None)
FRAME_ID = ("frameId", NO_INTEGER, "-1000", "-1000", None)
REFERENCE = ("variablesReference", NO_INTEGER, "1001", "1001", None)
GRANULARITY = ("granularity", NO_GRANULARITY, '"instruction"', "Instruction", "Statement")
ADDRESS = ("memoryReference", NO_TEXT, '"0x00010000"', spelled("0x00010000"), None)
OFFSET = ("offset", NO_INTEGER, "-4", "-4", "0")
CONDITION = ("condition", NO_TEXT, '"a0 == 1"', spelled("a0 == 1"), "none")
HITS = ("hitCondition", NO_TEXT, '" 3"', spelled(" 3"), "none")
LOG = ("logMessage", NO_TEXT, '" {a0}\\n"', spelled(" {a0}\n"), "none")

ARGUMENTS = {
    "initialize": [("linesStartAt1", NO_FLAG, "false", "false", "true"), ("columnsStartAt1", NO_FLAG, "false", "false", "true")],
    "launch": [("program", NO_TEXT, '"a/\\u00e9.s"', spelled("a/\u00e9.s"), None), ("stopOnEntry", NO_FLAG, "true", "true", "false")],
    "attach": [],
    "configurationDone": [],
    "threads": [],
    "cancel": [("requestId", NO_INTEGER, "8", "8", "none")],
    "restart": [],
    "terminate": [],
    "disconnect": [("terminateDebuggee", NO_FLAG, "true", "true", "none"), ("suspendDebuggee", NO_FLAG, "false", "false", "none")],
    "setExceptionBreakpoints": [],
    "continue": [THREAD_ID],
    "next": [THREAD_ID, GRANULARITY],
    "stepIn": [THREAD_ID, GRANULARITY],
    "stepOut": [THREAD_ID, GRANULARITY],
    "stepBack": [THREAD_ID, GRANULARITY],
    "reverseContinue": [THREAD_ID],
    "pause": [THREAD_ID],
    "stackTrace": [THREAD_ID, ("startFrame", NO_NATURAL, "2", "2", "0"), ("levels", NO_NATURAL, "20", "20", "none")],
    "scopes": [FRAME_ID],
    "variables": [REFERENCE, ("filter", NO_FILTER, '"indexed"', "Indexed", "none"), ("start", NO_NATURAL, "3", "3", "0"),
                  ("count", NO_NATURAL, "32", "32", "none")],
    "setVariable": [REFERENCE, ("name", NO_TEXT, '"a0"', spelled("a0"), None), ("value", NO_TEXT, '"-1"', spelled("-1"), None)],
    "evaluate": [("expression", NO_TEXT, '"a0 + [sp]"', spelled("a0 + [sp]"), None), ("frameId", NO_INTEGER, "-1000", "-1000", "none")],
    "disassemble": [ADDRESS, OFFSET, ("instructionOffset", NO_INTEGER, "-2", "-2", "0"), ("instructionCount", NO_NATURAL, "8", "8", None)],
    "readMemory": [ADDRESS, OFFSET, ("count", NO_NATURAL, "4", "4", None)],
    "writeMemory": [ADDRESS, OFFSET, ("data", NO_BASE64, '"Zm9vYg=="', spelled("foob"), None), ("allowPartial", NO_FLAG, "true", "true", "false")],
}
# those of a breakpoint in a list of them
BREAKPOINT = [("line", NO_NATURAL, "7", "7", None), CONDITION, HITS, LOG]
FUNCTION_BREAKPOINT = [("name", NO_TEXT, '" sort "', spelled(" sort "), None), CONDITION, HITS]
INSTRUCTION_BREAKPOINT = [("instructionReference", NO_TEXT, '"0x00010000"', spelled("0x00010000"), None), OFFSET, CONDITION, HITS]


def in_list(members):
    return '{"breakpoints":[%s]}' % members


FORMS = [(name, members, str, ()) for name, members in ARGUMENTS.items()] + [
    ("setBreakpoints", BREAKPOINT, in_list, ("none",)),
    ("setFunctionBreakpoints", FUNCTION_BREAKPOINT, in_list, ()),
    ("setInstructionBreakpoints", INSTRUCTION_BREAKPOINT, in_list, ()),
]


def whole(form, more=()):
    """A request with each argument given: some as they are said."""
    name, members, within, first = form
    given = {member: value for member, _, value, _, _ in members}
    given.update(more)
    return name, within(object_of(given)), first + tuple(shown for _, _, _, shown, _ in members)


def least(form, more=()):
    """A request with no argument that may be absent, but for those that are said."""
    name, members, within, first = form
    given = {member: value for member, _, value, _, absent in members if absent is None}
    given.update(more)
    return name, within(object_of(given)), first + tuple(shown if absent is None else absent for _, _, _, shown, absent in members)


def is_read(request):
    name, arguments, shown = request
    return read(name, arguments, *shown)


def is_bad(request):
    name, arguments, _ = request
    return refused(name, arguments)


def without(form, member):
    """A request with each argument but one."""
    name, members, within, first = form
    return whole((name, [it for it in members if it[0] != member], within, first))


def odd(form):
    """Each argument odd in each way, null and absent."""
    steps = []
    for member, never, value, _, absent in form[1]:
        steps += [is_bad(whole(form, {member: no_value})) for no_value in never]
        if absent is None:
            steps += [is_bad(without(form, member)), is_bad(whole(form, {member: "null"}))]
        else:
            steps += [is_bad(least(form, {member: never[0]})), is_read(least(form, {member: "null"})), is_read(least(form))]
        steps.append(is_read(whole(form, {"x": "[1]", member.upper(): never[0], member: value})))
    return steps


def extremes(form):
    """Each number at its least and its greatest."""
    name, members, within, first = form
    steps = []
    for at, (member, never, *_) in enumerate(members):
        for number in {NO_INTEGER: ("-2147483648", "0", "2147483647"), NO_NATURAL: ("0", "2147483647")}.get(never, ()):
            _, arguments, shown = whole(form, {member: number})
            at_number = len(first) + at
            steps.append(read(name, arguments, *shown[:at_number], number, *shown[at_number + 1:]))
    return steps


# What a request says that the adapter never looks at, and those that have no arguments.
UNREAD = {"initialize": {"adapterID": "rvdap"}, "setBreakpoints": {"source": {}}, "setExceptionBreakpoints": {"filters": []}}
BARE = ("configurationDone", "threads", "restart", "terminate")


def defaults(members):
    """What is written of arguments that were absent: those that then have a value."""
    return {name: absent.lower() if absent in ("0", "true", "false") else quoted(absent.lower())
            for name, _, _, _, absent in members if absent not in (None, "none")}


def asked(form, made):
    """A request that was read is written, with each argument that has a value."""
    name, arguments, _ = made(form)
    given = merged(loads(form[2](object_of(defaults(form[1])))), loads(arguments))
    message = {"command": name, "seq": 7, "type": "request"}
    if name not in BARE:
        message["arguments"] = {**given, **UNREAD.get(name, {})}
    return "asked " + spelled(body_of(name, arguments)), spelled(dumps(message, sort_keys=True, separators=(",", ":"), ensure_ascii=False))


def merged(one, other):
    """The members of both; of lists with one entry those of the entries."""
    if isinstance(other, list):
        return [merged(*both) for both in zip(one, other)]
    return {key: merged(one[key], value) if isinstance(value, (dict, list)) and key in one else value for key, value in {**one, **other}.items()}


NAMES = [name for name, *_ in FORMS]
NO_NEED = [form for form in FORMS if all(absent is not None for *_, absent in form[1])]

EACH = [
    Row("each request with every argument", [is_read(whole(form)) for form in FORMS], SCHEMA),
    Row("each request with what it needs alone", [is_read(least(form)) for form in FORMS], SCHEMA),
    Row("each request as an editor writes it", [asked(form, made) for form in FORMS for made in (whole, least)],
        "the published schema's properties in the order of their names; one that is absent has the value that docs/PROTOCOL.md gives it"),
    Row("arguments that may be absent may be so as a whole", [
        read(form[0], arguments, *least(form)[2]) for form in NO_NEED for arguments in (None, "null", "{}")], SCHEMA),
    Row("arguments that are needed may not", [
        refused(form[0], arguments) for form in FORMS if form not in NO_NEED and form[0] != "setBreakpoints"
        for arguments in (None, "null", "{}")], SCHEMA),
    Row("arguments are an object", [refused(name, arguments) for name in NAMES for arguments in ("[]", "[{}]", '"{}"', "1", "true", "false")],
        SCHEMA),
    *(Row("odd arguments of " + form[0], odd(form), SCHEMA) for form in FORMS if form[1]),
    Row("numbers at their bounds", [one for form in FORMS for one in extremes(form)], SCHEMA),
    Row("other names are unknown, whatever the arguments are", [
        refused(name, arguments, "UnknownCommand")
        for name in (*(name[0].upper() + name[1:] for name in NAMES), "launch ", "goto", "source", "setDataBreakpoints",
                     "stepback", "reverse", "continueReverse", "runInTerminal", "logMessage")
        for arguments in (None, "[]", '{"threadId":1}')], SCHEMA),
    Row("the granularities and filters", [
        *(read(name, '{"granularity":"%s","threadId":1}' % granularity, "1", granularity.capitalize())
          for name in ("next", "stepIn", "stepOut", "stepBack") for granularity in ("statement", "line", "instruction")),
        *(read("variables", '{"filter":"%s","variablesReference":1}' % kind, "1", kind.capitalize(), "0", "none") for kind in ("indexed", "named")),
    ], SCHEMA),
]


def breakpoints(*lines):
    """The entries of breakpoints at these lines, as they are shown."""
    return tuple("%s none none none" % line for line in lines)


SOURCE_BREAKPOINTS = [
    Row("a source has a path or none", [
        read("setBreakpoints", '{"source":{"path":"a.s"},"breakpoints":[]}', spelled("a.s")),
        *(read("setBreakpoints", '{"source":%s}' % source, "none") for source in ("{}", "null", '{"path":null}', '{"name":"a.s","sourceReference":1}')),
        *(refused("setBreakpoints", '{"source":%s}' % source) for source in ('"a.s"', "1", "true", "[]", '[{"path":"a.s"}]')),
        *(refused("setBreakpoints", '{"source":{"path":%s}}' % path) for path in NO_TEXT),
    ], SCHEMA),
    Row("lines serve where there are no breakpoints", [
        read("setBreakpoints", '{"source":{"path":"a.s"},"lines":[3,0,2147483647,3]}', spelled("a.s"), *breakpoints(3, 0, 2147483647, 3)),
        read("setBreakpoints", '{"breakpoints":null,"lines":[5]}', "none", *breakpoints(5)),
        read("setBreakpoints", '{"lines":[]}', "none"),
        read("setBreakpoints", '{"lines":null}', "none"),
        *(refused("setBreakpoints", '{"lines":%s}' % lines) for lines in ("1", '"1"', "{}", "true", "[null]", "[[1]]", '[{"line":1}]')),
        *(refused("setBreakpoints", '{"lines":[1,%s]}' % line) for line in NO_NATURAL),
    ], SCHEMA),
    Row("lines are not looked at beside breakpoints", [
        read("setBreakpoints", '{"breakpoints":[%s],"lines":%s}' % (entries, lines), "none", *shown)
        for entries, shown in (("", ()), ('{"line":4}', breakpoints(4))) for lines in ("[5]", "[]", "null", '"x"', "[-1]", "{}")], SCHEMA),
    *(Row("lists of " + name, [
        *(refused(name, '{"breakpoints":%s}' % entries) for entries in NO_LIST),
        refused(name, '{"breakpoints":[%s,1]}' % entry),
        refused(name, '{"breakpoints":[{},%s]}' % entry),
        read(name, '{"breakpoints":[]}', *first),
        read(name, '{"breakpoints":[%s,%s]}' % (entry, entry), *first, shown, shown),
    ], SCHEMA) for name, entry, first, shown in (
        ("setBreakpoints", '{"line":1,"column":"x","mode":1}', ("none",), "1 none none none"),
        ("setFunctionBreakpoints", '{"name":"","mode":1}', (), " none none"),
        ("setInstructionBreakpoints", '{"instructionReference":"","mode":1}', (), " 0 none none"))),
]


def write(data):
    return '{"data":"%s","memoryReference":"0"}' % data


def bytes_are(data, them):
    return read("writeMemory", write(data), spelled("0"), "0", spelled(them), "false")


EVERY_BYTE = bytes(range(256))
MANY_BYTES = bytes(i * 7 % 251 for i in range(65536))
DATA = [
    Row("bytes in base64", [
        *(bytes_are(data, them) for data, them in (
            ("", b""), ("Zg==", b"f"), ("Zm8=", b"fo"), ("Zm9v", b"foo"), ("Zm9vYg==", b"foob"), ("Zm9vYmE=", b"fooba"), ("Zm9vYmFy", b"foobar"),
            ("+/+/", b"\xfb\xff\xbf"), ("\\u0041A==", b"\0"))),
        bytes_are(b64encode(EVERY_BYTE).decode(), EVERY_BYTE),
    ], BASE64),
    Row("spare bits of the last symbol are 0", [
        *(bytes_are("A%s==" % symbol, bytes([value])) for symbol, value in zip("AQgw", range(4))),
        *(refused("writeMemory", write("A%s==" % symbol)) for symbol in "BCPRahvx9+/"),
        *(bytes_are("AA%s=" % symbol, bytes([0, value])) for symbol, value in zip("AEIMQUYcgkosw048", range(16))),
        *(refused("writeMemory", write("AA%s=" % symbol)) for symbol in "BCDFZah9+/"),
    ], BASE64),
    Row("65,536 bytes", [bytes_are(b64encode(MANY_BYTES).decode(), MANY_BYTES), refused("writeMemory", write("A" * 87380 + "AB=="))], BASE64,
        refused=True),
]


def many(count, entry):
    return '{"breakpoints":[%s]}' % ",".join([entry] * count)


def filling(head, tail, filler):
    """A body of the greatest length with one filler after the other, and how many."""
    count = (LIMIT - len(head) - len(tail) + 1) // (len(filler) + 1)
    return head + ",".join([filler] * count) + tail, count


LINES, HOW_MANY_LINES = filling(body_of("setBreakpoints", '{"lines":[')[:-1], "]}}", "9")
OBJECTS, HOW_MANY_OBJECTS = filling(body_of("setInstructionBreakpoints", '{"breakpoints":[')[:-1], "]}}", '{"instructionReference":"0"}')
FILLERS, _ = filling(body_of("scopes", '{"x":[')[:-1], '],"frameId":5}}', "[]")
DEEP = '{"seq":7,"type":"request","command":"scopes","arguments":{"frameId":5,"x":'

GREATEST = [
    Row("1,024 breakpoints", [
        read("setBreakpoints", many(1024, '{"line":1,"condition":"a0"}'), "none", *["1 6130 none none"] * 1024),
        refused("setBreakpoints", many(1023, '{"line":1}')[:-2] + ',{"line":-1}]}'),
        read("setInstructionBreakpoints", many(1024, '{"instructionReference":"0","offset":4,"hitCondition":"1"}'), *["30 4 none 31"] * 1024),
        refused("setInstructionBreakpoints", many(1023, '{"instructionReference":"0"}')[:-2] + ',{}]}'),
    ], SCHEMA, refused=31),
    Row("lists as long as a body lets them be", [
        step(LINES, " ".join(("7 setBreakpoints none",) + breakpoints(9) * HOW_MANY_LINES)),
        step(OBJECTS, " ".join(("7 setInstructionBreakpoints",) + ("30 0 none none",) * HOW_MANY_OBJECTS)),
        step(FILLERS, "7 scopes 5"),
        step(DEEP + "[" * (LIMIT - len(DEEP)), "NotJson"),
    ], SCHEMA),
    Row("a text as long as a body lets it be", [
        read("evaluate", '{"expression":"%s"}' % ("y" * 1048000), spelled("y" * 1048000), "none"),
        ("asked " + spelled(body_of("evaluate", '{"expression":"%s"}' % ("y" * 1048000))),
         spelled('{"arguments":{"expression":"%s"},"command":"evaluate","seq":7,"type":"request"}' % ("y" * 1048000))),
        bytes_are("A" * 1048000, b"\0" * 786000),
    ], SCHEMA, refused=True),
    Row("a request that found no memory for its arguments can be read again", [
        is_read(whole(form)) for form in FORMS] + [
        read("setBreakpoints", '{"source":{"path":"a.s"},"breakpoints":[{"line":1,"condition":"x"},{"line":2}]}', "612e73 1 78 none none 2 none none none"),
        read("setBreakpoints", '{"lines":[1,2]}', "none", *breakpoints(1, 2)),
        refused("setBreakpoints", '{"source":{"path":"a.s"},"breakpoints":[{"line":1,"condition":"x"},{}]}'),
        bytes_are("Zm9vYmFy", b"foobar"),
        refused("writeMemory", write("AB==")),
    ], SCHEMA, refused=True),
]

ROWS = EACH + SOURCE_BREAKPOINTS + DATA + GREATEST
