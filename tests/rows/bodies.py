"""Bodies of responses: the texts of the messages, read into their parts and written again."""
from base64 import b64encode

from rows.messages import is_done, no_message, read, spelled, write
from support.players import Row

PLAYER = "test_messages"

PROFILE = "docs/PROTOCOL.md, with the types of the published schema"
ENCODING = "RFC 4648, section 10"


def text_of(command, body):
    """A success with this body, whose members stand in byte order."""
    return '{"body":%s,"command":"%s","request_seq":5,"seq":9,"success":true,"type":"response"}' % (body, command)


def both_ways(command, body, parts):
    """A text is read as these parts, and they are written as the text."""
    return [read(text_of(command, body), 9, is_done(5, command, parts)), write(9, text_of(command, body))]


def none_of(command, bodies):
    """Bodies that a success of the command does not have."""
    return [no_message(text_of(command, body)) for body in bodies]


# What numbers of 32 bits may not be, and texts of words, and truth values, and texts.
NO_NUMBERS = ("-1", "4294967296", "1.0", '"1"', "null", "true")
NO_WORDS = ('"0x1000"', '"0x0001000G"', '"0x0001000A"', '"00010000"', '"0X00010000"', '"0x000010000"', '"65536"', "65536", "null")
NO_TRUTHS = ('"true"', "1", "null")
NO_TEXTS = ("7", "null", "true", "[]")


def odd(template, **kinds):
    """The template with one member after the other replaced by what is none of its kind, and with one left out or one too many."""
    return [template % {**{name: right for name, (right, _) in kinds.items()}, name: wrong}
            for name, (_, others) in kinds.items() for wrong in others]


SET = '{"breakpoints":[{"id":1,"instructionReference":"0x00010008","line":2,"verified":true}]}'
UNSET = '{"breakpoints":[{"line":7,"message":"unknown source","verified":false}]}'
FRAME = ('{"stackFrames":[{"column":%(column)s,"id":%(id)s,"instructionPointerReference":%(address)s,"line":%(line)s,"name":%(name)s,'
         '"source":{"name":%(file)s,"path":%(path)s}}],"totalFrames":%(total)s}')
FRAME_KINDS = {
    "column": ("1", NO_NUMBERS), "id": ("1", NO_NUMBERS), "address": ('"0x00010000"', NO_WORDS), "line": ("1", NO_NUMBERS),
    "name": ('"_start"', NO_TEXTS), "file": ('"p.s"', NO_TEXTS), "path": ('"/w/p.s"', NO_TEXTS), "total": ("1", NO_NUMBERS),
}

BREAKPOINTS = [
    Row("what became of breakpoints at lines", [
        *both_ways("setBreakpoints", '{"breakpoints":[]}', "SetBreakpoints"),
        *both_ways("setBreakpoints", SET, "SetBreakpoints set 1 65544 2"),
        *both_ways("setBreakpoints", UNSET, "SetBreakpoints unset 7 " + spelled("unknown source")),
        *both_ways("setBreakpoints", '{"breakpoints":[{"line":0,"message":"","verified":false},'
                   '{"id":4294967295,"instructionReference":"0xffffffff","line":4294967295,"verified":true}]}',
                   "SetBreakpoints unset 0 " + spelled("") + " set 4294967295 4294967295 4294967295"),
    ], PROFILE),
    Row("no bodies of setBreakpoints", none_of("setBreakpoints", (
        "{}", "[]", '{"breakpoints":{}}', '{"breakpoints":null}', '{"breakpoints":[1]}', '{"breakpoints":[{}]}',
        # no line, no number, no message, members of the other kind
        '{"breakpoints":[{"id":1,"instructionReference":"0x00010008","verified":true}]}',
        '{"breakpoints":[{"instructionReference":"0x00010008","line":2,"verified":true}]}',
        '{"breakpoints":[{"line":7,"verified":false}]}',
        '{"breakpoints":[{"line":7,"message":"unknown source","verified":true}]}',
        '{"breakpoints":[{"id":1,"instructionReference":"0x00010008","line":2,"verified":false}]}',
        '{"breakpoints":[{"id":1,"instructionReference":"0x00010008","line":2,"message":"x","verified":true}]}',
        *odd('{"breakpoints":[{"id":%(id)s,"instructionReference":%(address)s,"line":%(line)s,"verified":%(verified)s}]}',
             id=("1", NO_NUMBERS), address=('"0x00010008"', NO_WORDS), line=("2", NO_NUMBERS), verified=("true", NO_TRUTHS)),
        *odd('{"breakpoints":[{"line":%(line)s,"message":%(message)s,"verified":false}]}',
             line=("7", NO_NUMBERS), message=('"bad condition"', NO_TEXTS)),
    )), PROFILE),
    Row("what became of breakpoints at instructions", [
        *both_ways("setInstructionBreakpoints", '{"breakpoints":[]}', "SetInstructionBreakpoints"),
        *both_ways("setInstructionBreakpoints", '{"breakpoints":[{"id":1,"instructionReference":"0x00010014","verified":true},'
                   '{"message":"bad address","verified":false}]}',
                   "SetInstructionBreakpoints set 1 65556 unset " + spelled("bad address")),
    ], PROFILE),
    Row("what became of breakpoints at functions", [
        *both_ways("setFunctionBreakpoints", '{"breakpoints":[]}', "SetFunctionBreakpoints"),
        *both_ways("setFunctionBreakpoints", '{"breakpoints":[{"id":1,"instructionReference":"0x0001000c","verified":true},'
                   '{"message":"unknown function","verified":false}]}',
                   "SetFunctionBreakpoints set 1 65548 unset " + spelled("unknown function")),
    ], PROFILE),
    Row("no bodies of setFunctionBreakpoints", none_of("setFunctionBreakpoints", (
        SET, UNSET, "{}", '{"breakpoints":{}}', '{"breakpoints":[{"id":1,"verified":true}]}', '{"breakpoints":[{"verified":false}]}',
        '{"breakpoints":[{"id":1,"instructionReference":"0x0001000c","name":"f","verified":true}]}',
    )), PROFILE),
    Row("no bodies of setInstructionBreakpoints", none_of("setInstructionBreakpoints", (
        SET, UNSET, "{}", '{"breakpoints":[{"id":1,"verified":true}]}', '{"breakpoints":[{"verified":false}]}',
        *odd('{"breakpoints":[{"id":%(id)s,"instructionReference":%(address)s,"verified":%(verified)s}]}',
             id=("1", NO_NUMBERS), address=('"0x00010008"', NO_WORDS), verified=("true", NO_TRUTHS)),
        *odd('{"breakpoints":[{"message":%(message)s,"verified":false}]}', message=('"bad address"', NO_TEXTS)),
    )), PROFILE),
]

FRAMES_AND_VARIABLES = [
    Row("frames", [
        *both_ways("stackTrace", FRAME % {name: right for name, (right, _) in FRAME_KINDS.items()},
                   "StackTrace 1 1 %s 65536 1 1 %s %s" % (spelled("_start"), spelled("p.s"), spelled("/w/p.s"))),
        *both_ways("stackTrace", '{"stackFrames":[],"totalFrames":257}', "StackTrace 257"),
        *both_ways("stackTrace", '{"stackFrames":[{"column":0,"id":4,"instructionPointerReference":"0x00010024","line":0,"name":"g+24"},'
                   '{"column":0,"id":5,"instructionPointerReference":"0x00000000","line":4294967295,"name":"\\"\u00e9",'
                   '"source":{"name":"","path":""}}],"totalFrames":2}',
                   "StackTrace 2 4 %s 65572 0 0 none 5 %s 0 4294967295 0 %s %s" % (spelled("g+24"), spelled('"\u00e9'), spelled(""), spelled(""))),
    ], PROFILE),
    Row("no bodies of stackTrace", none_of("stackTrace", (
        "{}", '{"stackFrames":[]}', '{"totalFrames":0}', '{"stackFrames":[{}],"totalFrames":1}', '{"stackFrames":{},"totalFrames":1}',
        '{"more":1,"stackFrames":[],"totalFrames":0}',
        *odd(FRAME, **FRAME_KINDS),
        # a source without its path, and none at all that is there
        '{"stackFrames":[{"column":1,"id":1,"instructionPointerReference":"0x00010000","line":1,"name":"f","source":{"name":"p.s"}}],"totalFrames":1}',
        '{"stackFrames":[{"column":1,"id":1,"instructionPointerReference":"0x00010000","line":1,"name":"f","source":null}],"totalFrames":1}',
    )), PROFILE),
    Row("scopes", [
        *both_ways("scopes", '{"scopes":[]}', "Scopes"),
        *both_ways("scopes", '{"scopes":[{"expensive":false,"name":"Registers","presentationHint":"registers","variablesReference":2},'
                   '{"expensive":false,"name":"Stack","variablesReference":3}]}', "Scopes registers 2 stack 3"),
    ], PROFILE),
    Row("no bodies of scopes", none_of("scopes", (
        "{}", '{"scopes":[{}]}',
        '{"scopes":[{"expensive":true,"name":"Stack","variablesReference":3}]}',
        '{"scopes":[{"expensive":false,"name":"Heap","variablesReference":3}]}',
        '{"scopes":[{"expensive":false,"name":"Registers","variablesReference":3}]}',
        '{"scopes":[{"expensive":false,"name":"Registers","presentationHint":"locals","variablesReference":3}]}',
        '{"scopes":[{"expensive":false,"name":"Stack","presentationHint":"registers","variablesReference":3}]}',
        *odd('{"scopes":[{"expensive":%(expensive)s,"name":%(name)s,"variablesReference":%(reference)s}]}',
             expensive=("false", NO_TRUTHS), name=('"Stack"', NO_TEXTS), reference=("3", NO_NUMBERS)),
    )), PROFILE),
    Row("variables", [
        *both_ways("variables", '{"variables":[]}', "Variables"),
        *both_ways("variables", '{"variables":[{"name":"a0","value":"0x00000007","variablesReference":0},'
                   '{"name":"pc","value":"0xffffffff","variablesReference":0}]}',
                   "Variables %s 7 %s 4294967295" % (spelled("a0"), spelled("pc"))),
    ], PROFILE),
    Row("no bodies of variables", none_of("variables", (
        "{}", '{"variables":[{}]}', '{"variables":[{"name":"a0","value":"0x00000007"}]}',
        '{"variables":[{"name":"a0","value":"0x00000007","variablesReference":1}]}',
        *odd('{"variables":[{"name":%(name)s,"value":%(value)s,"variablesReference":0}]}', name=('"a0"', NO_TEXTS), value=('"0x00000007"', NO_WORDS)),
    )), PROFILE),
]

VALUES = [
    Row("that every thread goes on", both_ways("continue", '{"allThreadsContinued":true}', "Continue"), PROFILE),
    Row("no bodies of continue", none_of("continue", ("{}", '{"allThreadsContinued":false}', '{"allThreadsContinued":1}')), PROFILE),
    Row("the value of a variable that was set", [
        *both_ways("setVariable", '{"value":"0xffffffff"}', "SetVariable 4294967295"),
        *both_ways("setVariable", '{"value":"0x00000000"}', "SetVariable 0"),
        *none_of("setVariable", ("{}", '{"value":"0x00000000","variablesReference":0}', *odd('{"value":%(value)s}', value=("", NO_WORDS)))),
    ], PROFILE),
    Row("the value of an expression", [
        *both_ways("evaluate", '{"result":"0x00000009","variablesReference":0}', "Evaluate 9"),
        *none_of("evaluate", ("{}", '{"result":"0x00000009"}', '{"result":"0x00000009","variablesReference":1}',
                              *odd('{"result":%(result)s,"variablesReference":0}', result=("", NO_WORDS)))),
    ], PROFILE),
    Row("how many bytes were written", [
        *both_ways("writeMemory", '{"bytesWritten":4}', "WriteMemory 4"),
        *both_ways("writeMemory", '{"bytesWritten":4294967295}', "WriteMemory 4294967295"),
        *none_of("writeMemory", ("{}", '{"bytesWritten":4,"offset":0}', *odd('{"bytesWritten":%(bytes)s}', bytes=("", NO_NUMBERS)))),
    ], PROFILE),
    Row("successes without a body", [
        step for command in ("attach", "cancel", "configurationDone", "disconnect", "launch", "next", "pause", "restart",
                             "reverseContinue", "setExceptionBreakpoints", "stepBack", "stepIn", "stepOut", "terminate")
        for text in ['{"command":"%s","request_seq":5,"seq":9,"success":true,"type":"response"}' % command]
        for step in (read(text, 9, is_done(5, command, "Empty")), write(9, text), no_message(text_of(command, "{}")))
    ], PROFILE),
]

INSTRUCTION = '{"instructions":[{"address":"0x00010000","instruction":"addi a0, zero, 5","instructionBytes":"13 05 50 00"}]}'
NO_INSTRUCTION = '{"instructions":[{"address":"0x0000fffc","instruction":"(invalid)","presentationHint":"invalid"}]}'
END_OF_MEMORY = '{"address":"0x0010fffc","data":"AAAAAA==","unreadableBytes":4}'
# What the four bytes of an instruction may not be, and bytes in base64: padding left out, spare bits, other digits, blanks.
NO_FOUR_BYTES = ('"13055000"', '"13 05 50"', '"13 05 50 0"', '"13 05 50 00 "', '" 13 05 50 00"', '"13 05 50 00 00"', '"13-05-50-00"',
                 '"13,05,50,00"', '"130 5 50 00"', '"13 05 50 0g"', '"13 05 5A 00"', '"0x 13 05 50"', '"0x00500513"', '""', "5244179", "null", "[19,5,80,0]")
NO_BASE64 = ('"AAAAAA"', '"AAAAAA="', '"AAAAAA==="', '"AAAAAB=="', '"_-8="', '"AAAA AA=="', '"AAAAAA==\\n"', '"A"', '"="', "0", "null", "[]")
VECTORS = ("", ""), ("f", "Zg=="), ("fo", "Zm8="), ("foo", "Zm9v"), ("foob", "Zm9vYg=="), ("fooba", "Zm9vYmE="), ("foobar", "Zm9vYmFy")

MEMORY = [
    Row("instructions", [
        *both_ways("disassemble", '{"instructions":[]}', "Disassemble"),
        *both_ways("disassemble", INSTRUCTION, "Disassemble valid 65536 %s 5244179" % spelled("addi a0, zero, 5")),
        *both_ways("disassemble", NO_INSTRUCTION, "Disassemble invalid 65532"),
        *both_ways("disassemble", '{"instructions":[{"address":"0xffffffff","instruction":"(invalid)","presentationHint":"invalid"},'
                   '{"address":"0x00010004","instruction":".word 0xfedcba98","instructionBytes":"98 ba dc fe"},'
                   '{"address":"0x00010008","instruction":"(invalid)","instructionBytes":"00 00 00 00"}]}',
                   "Disassemble invalid 4294967295 valid 65540 %s 4275878552 valid 65544 %s 0" % (spelled(".word 0xfedcba98"), spelled("(invalid)"))),
    ], PROFILE),
    Row("no bodies of disassemble", none_of("disassemble", (
        "{}", "[]", '{"instructions":{}}', '{"instructions":null}', '{"instructions":[1]}', '{"instructions":[{}]}',
        # no bytes; members of the other kind; another text or hint where there is no word
        '{"instructions":[{"address":"0x00010000","instruction":"addi a0, zero, 5"}]}',
        '{"instructions":[{"address":"0x00010000","instruction":"addi a0, zero, 5","instructionBytes":"13 05 50 00","presentationHint":"normal"}]}',
        '{"instructions":[{"address":"0x0000fffc","instruction":"(invalid)"}]}',
        '{"instructions":[{"address":"0x0000fffc","instruction":"(invalid)","instructionBytes":"00 00 00 00","presentationHint":"invalid"}]}',
        '{"instructions":[{"address":"0x0000fffc","instruction":"","presentationHint":"invalid"}]}',
        '{"instructions":[{"address":"0x0000fffc","instruction":"(invalid)","presentationHint":"normal"}]}',
        '{"instructions":[{"address":"0x0000fffc","instruction":"(invalid)","presentationHint":null}]}',
        '{"instructions":[{"address":"0x0000fffc","presentationHint":"invalid"}]}',
        # members out of order, or further ones
        '{"instructions":[{"instruction":"addi a0, zero, 5","address":"0x00010000","line":1,"instructionBytes":"13 05 50 00"}]}',
        '{"instructions":[],"more":1}',
        *odd('{"instructions":[{"address":%(address)s,"instruction":%(text)s,"instructionBytes":%(bytes)s}]}',
             address=('"0x00010000"', NO_WORDS), text=('"addi a0, zero, 5"', NO_TEXTS), bytes=('"13 05 50 00"', NO_FOUR_BYTES)),
        *odd('{"instructions":[{"address":%(address)s,"instruction":"(invalid)","presentationHint":"invalid"}]}', address=("", NO_WORDS)),
    )), PROFILE),
    Row("bytes of memory", [
        *both_ways("readMemory", END_OF_MEMORY, "ReadMemory 1114108 00000000 4"),
        *both_ways("readMemory", '{"address":"0x00010000","data":"EwVQAA=="}', "ReadMemory 65536 13055000 0"),
        *both_ways("readMemory", '{"address":"0x00000000","data":"","unreadableBytes":4294967295}', "ReadMemory 0  4294967295"),
        *both_ways("readMemory", '{"address":"0xffffffff","data":""}', "ReadMemory 4294967295  0"),
        *both_ways("readMemory", '{"address":"0x00010000","data":"+/8=","unreadableBytes":1}', "ReadMemory 65536 fbff 1"),
    ], PROFILE),
    Row("bytes in base64", [
        step for text, encoded in VECTORS
        for step in both_ways("readMemory", '{"address":"0x00010000","data":"%s"}' % encoded, "ReadMemory 65536 %s 0" % spelled(text))
    ], ENCODING),
    Row("no bodies of readMemory", none_of("readMemory", (
        "{}", "[]", '{"address":"0x00010000"}', '{"data":"AAAAAA=="}', '{"address":"0x00010000","unreadableBytes":4}',
        # that all can be read is not said
        '{"address":"0x00010000","data":"AAAAAA==","unreadableBytes":0}',
        '{"address":"0x00010000","bytes":"AAAAAA=="}', '{"address":"0x00010000","count":4,"data":"AAAAAA=="}',
        *odd('{"address":%(address)s,"data":%(bytes)s,"unreadableBytes":%(unreadable)s}',
             address=('"0x0010fffc"', NO_WORDS), bytes=('"AAAAAA=="', NO_BASE64), unreadable=("4", NO_NUMBERS)),
    )), PROFILE),
]

REFUSED = [
    Row("a body that found no memory can be read and written again", [
        *both_ways("stackTrace", FRAME % {name: right for name, (right, _) in FRAME_KINDS.items()},
                   "StackTrace 1 1 %s 65536 1 1 %s %s" % (spelled("_start"), spelled("p.s"), spelled("/w/p.s"))),
        *both_ways("setBreakpoints", UNSET, "SetBreakpoints unset 7 " + spelled("unknown source")),
        *both_ways("scopes", '{"scopes":[{"expensive":false,"name":"Stack","variablesReference":3}]}', "Scopes stack 3"),
        *both_ways("variables", '{"variables":[{"name":"a0","value":"0x00000007","variablesReference":0}]}', "Variables %s 7" % spelled("a0")),
        *both_ways("disassemble", INSTRUCTION, "Disassemble valid 65536 %s 5244179" % spelled("addi a0, zero, 5")),
        *both_ways("readMemory", END_OF_MEMORY, "ReadMemory 1114108 00000000 4"),
    ], PROFILE, refused=True),
]

# The greatest stack trace, list of variables, list of breakpoints, disassembly and piece of memory that the adapter sends.
LINES = range(1, 1025)
WORDS = [(65536 + 4 * i, ".word 0x%08x" % (i * 0x000f4243), i * 0x000f4243) for i in range(4096)]
PIECE = bytes(i * i // 256 % 256 for i in range(65536))
GREATEST_SIZES = [
    Row("257 frames", both_ways(
        "stackTrace", '{"stackFrames":[%s],"totalFrames":257}' % ",".join(
            '{"column":1,"id":%d,"instructionPointerReference":"0x%08x","line":%d,"name":"f+%d","source":{"name":"p.s","path":"/w/p.s"}}'
            % (i, 65536 + 4 * i, i, 4 * i) for i in range(257)),
        "StackTrace 257 " + " ".join("%d %s %d %d 1 %s %s" % (i, spelled("f+%d" % (4 * i)), 65536 + 4 * i, i, spelled("p.s"), spelled("/w/p.s"))
                                     for i in range(257))), PROFILE, refused=7),
    Row("1,024 breakpoints", both_ways(
        "setBreakpoints", '{"breakpoints":[%s]}' % ",".join(
            '{"id":%d,"instructionReference":"0x%08x","line":%d,"verified":true}' % (i, 65536 + 4 * i, i) for i in LINES),
        "SetBreakpoints " + " ".join("set %d %d %d" % (i, 65536 + 4 * i, i) for i in LINES)), PROFILE, refused=13),
    Row("33 registers", both_ways(
        "variables", '{"variables":[%s]}' % ",".join('{"name":"x%d","value":"0x%08x","variablesReference":0}' % (i, i * 0x01010101) for i in range(33)),
        "Variables " + " ".join("%s %d" % (spelled("x%d" % i), i * 0x01010101) for i in range(33))), PROFILE, refused=True),
    Row("4,096 instructions", both_ways(
        "disassemble", '{"instructions":[%s]}' % ",".join(
            '{"address":"0x%08x","instruction":"%s","instructionBytes":"%s"}' % (address, text, word.to_bytes(4, "little").hex(" "))
            for address, text, word in WORDS),
        "Disassemble " + " ".join("valid %d %s %d" % (address, spelled(text), word) for address, text, word in WORDS)), PROFILE, refused=101),
    Row("65,536 bytes of memory", both_ways(
        "readMemory", '{"address":"0x00010000","data":"%s"}' % b64encode(PIECE).decode(), "ReadMemory 65536 %s 0" % spelled(PIECE)), PROFILE, refused=True),
]

ROWS = BREAKPOINTS + FRAMES_AND_VARIABLES + VALUES + MEMORY + REFUSED + GREATEST_SIZES
