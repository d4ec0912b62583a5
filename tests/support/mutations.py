"""Sessions as no editor has them: those of the rows, changed at random in their messages, values, bytes and programs. A number and a seed make
the same session again."""
import copy
import json
import random

from rows import session_back, session_breaks, session_looks, session_references, session_runs
from support.debugging import PATH
from support.program import frame
from support.programs import CALLS, CIRCLES, COUNTS, PRINTS, RECURS, WRITES_ITSELF

# The path of the program, in the folder in which a session runs: as long as that of the rows.
HERE = "./pp.s"
PROGRAMS = (CALLS, PRINTS, RECURS, COUNTS, WRITES_ITSELF, CIRCLES)
SESSIONS = (
    session_runs.two_pieces, session_runs.steps, session_runs.restarts, session_runs.paused, session_looks.in_a_recursion,
    session_looks.code_that_is_written_over, session_looks.at_an_instruction, session_looks.expressions, session_references.joined_while_it_runs,
    session_references.in_one_piece, session_references.the_last_number, session_breaks.too_many,
    session_back.through_a_call, session_back.there_and_back,
)
NUMBERS = (0, 1, -1, 2, 3, 255, 256, 1023, 1024, 1025, 4096, 65535, 65536, 65537, 2147483647, 2147483648, -2147483648, -2147483649, 4294967295, 4294967296,
           9223372036854775807, 9223372036854775808, -9223372036854775808, 18446744073709551615, 18446744073709551616, 1.0, 1.5, 1e9)
TEXTS = ("", " ", "0", "0x", "0x10000", "0x0001000c", "65536", "pc", "a0", "[sp]", "a0 == 1", "1 +", "(" * 65, "!" * 64 + "1", "0 && [0]", "x" * 1025, "sp+0", "zero",
         "\u0000", "\u00e9", "\U0001f600", "instruction", "named", "indexed", "AAAA", "EwUlAA==", "=", "initialize", "disconnect", "threads", "1" * 400)
LINES = (b"ebreak", b"ecall", b"li a7, 93", b"li a7, 1", b"ret", b"call f", b"f:", b"j f", b".word 0", b".space 4096", b".align 12", b"sw a0, 0(sp)", b"lw a0, -1(sp)",
         b"la t0, f", b"sw a0, 0(t0)", b"jalr a0", b"# nothing", b".half 1, 2", b"\xff", b"li a0, 99999999999", b"addi a0, a0, -2048", b"lui a0, 0xfffff")


def messages_of(data):
    """The bodies of a stream of frames."""
    found = []
    while data:
        header, _, data = data.partition(b"\r\n\r\n")
        length = int(header.split(b":")[1])
        found.append(json.loads(data[:length]))
        data = data[length:]
    return found


ALL = [messages_of(session().sent) for session in SESSIONS]
EACH = [message for session in ALL for message in session]


def places(value, path=()):
    """The paths of all values within a value."""
    yield path
    if isinstance(value, (dict, list)):
        for key, part in (value.items() if isinstance(value, dict) else enumerate(value)):
            yield from places(part, path + (key,))


def another(chance, value):
    """A value in place of this one."""
    kind = chance.randrange(8)
    if isinstance(value, str) and kind < 4:
        return chance.choice(TEXTS) if kind < 3 else value + chance.choice(TEXTS)
    if isinstance(value, (int, float)) and kind < 5:
        return chance.choice(NUMBERS) if kind < 3 else value + chance.choice((-1, 1))
    return chance.choice((None, True, False, [], {}, [value], {"x": value}, chance.choice(NUMBERS), chance.choice(TEXTS), [value] * chance.choice((2, 300))))


def with_another_value(chance, message):
    """The message with one of its values changed, or one of its members gone."""
    path = chance.choice(list(places(message))[1:] or [()])
    if not path:
        return message
    whole = copy.deepcopy(message)
    holder = whole
    for key in path[:-1]:
        holder = holder[key]
    if chance.random() < 0.15:
        del holder[path[-1]]
    else:
        holder[path[-1]] = another(chance, holder[path[-1]])
    return whole


def changed_session(chance, session):
    """The messages in another order, some twice or not at all, some of other sessions, some with other values."""
    session = list(session)
    for _ in range(chance.choice((0, 1, 1, 2, 3, 6))):
        at = chance.randrange(len(session))
        kind = chance.randrange(7)
        if kind == 0:
            session.insert(at, chance.choice(EACH))
        elif kind == 1 and len(session) > 1:
            del session[at]
        elif kind == 2:
            session.insert(at, session[at])
        elif kind == 3:
            to = chance.randrange(len(session))
            session[at], session[to] = session[to], session[at]
        else:
            session[at] = with_another_value(chance, session[at])
    return session


def renumbered(chance, session):
    """Most sessions have numbers that rise; a few are left as they are."""
    if chance.random() < 0.1:
        return session
    return [{**message, "seq": number} if message.get("seq").__class__ is int else message for number, message in enumerate(session, 1)]


def framed(chance, message):
    """A frame of a message, of which the header may be another."""
    body = json.dumps(message, ensure_ascii=chance.random() < 0.5, separators=(",", ":")).encode("utf-8", "surrogatepass")
    kind = chance.randrange(250)
    if kind == 0:
        return b"content-length:\t%d \r\nX-More: %s\r\n\r\n%s" % (len(body), chance.choice((b"", b"b", b"c: d")), body)
    if kind == 1:
        return b"Content-Length: %d\r\n\r\n%s" % (max(0, len(body) + chance.choice((-1, 1, 5, 1000000, 2000000))), body)
    if kind == 2:
        return b"X" * chance.choice((1, 100, 4000, 5000)) + b": 1\r\n" + frame(body)
    return frame(body)


def with_other_bytes(chance, data):
    """The bytes, a few of them changed, more, fewer or twice."""
    data = bytearray(data)
    for _ in range(chance.choice((1, 1, 2, 8))):
        at = chance.randrange(len(data) + 1)
        kind = chance.randrange(5)
        if kind == 0 and at < len(data):
            data[at] = chance.randrange(256)
        elif kind == 1:
            data[at:at] = bytes(chance.choice((0, 10, 13, 34, 44, 58, 91, 92, 93, 123, 125, 255)) for _ in range(chance.randrange(1, 5)))
        elif kind == 2:
            del data[at:at + chance.randrange(1, 40)]
        elif kind == 3:
            data[at:at] = data[at:at + chance.randrange(1, 200)]
        elif at < len(data):
            data[at] ^= 1 << chance.randrange(8)
    return bytes(data[:chance.randrange(len(data) + 1)] if data and chance.random() < 0.2 else data)


def program_of(chance):
    """The text of a program, mostly one of those of the rows with lines changed."""
    lines = chance.choice(PROGRAMS).split(b"\n")
    for _ in range(chance.choice((0, 0, 0, 1, 2, 5))):
        at = chance.randrange(len(lines))
        if chance.random() < 0.3:
            lines[at:at] = [chance.choice(LINES)] * chance.choice((1, 1, 3, 2000))
        else:
            lines[at] = chance.choice(LINES) if chance.random() < 0.7 else with_other_bytes(chance, lines[at])
    return b"\n".join(lines)


def pieces_of(chance, data):
    """The bytes in pieces: in one, in a few, or in many."""
    most = chance.choice((len(data) + 1, len(data) + 1, 1000, 100, 7))
    pieces = []
    while data:
        count = chance.randrange(1, most + 1)
        pieces.append(data[:count])
        data = data[count:]
    return pieces if len(pieces) < 300 else [b"".join(pieces)]


def session_of(seed, number):
    """The pieces of a session that launches HERE, and the text of the program there."""
    chance = random.Random("%s:%d" % (seed, number))
    session = renumbered(chance, changed_session(chance, chance.choice(ALL)))
    data = b"".join(framed(chance, message) for message in session)
    if chance.random() < 0.2:
        data = with_other_bytes(chance, data)
    return pieces_of(chance, data.replace(PATH.encode(), HERE.encode())), program_of(chance)
