"""What a stream of bytes from an editor is read as, by the rules of docs/PROTOCOL.md: bodies, and what closes the connection."""
import json
import math
import re

LONGEST_HEADER = 4096
LONGEST_BODY = 1048576
# So many arrays and objects may stand in each other.
DEEPEST = 127
FIELD = re.compile(rb"([\x21-\x39\x3b-\x7e]+):([\x20-\x7e\t]*)\Z")


class Fault(Exception):
    """What closes a connection, by its name."""


def length_of(header):
    """The length that a header part gives, which ends with an empty line."""
    fields = []
    for line in header[:-4].split(b"\r\n"):
        field = FIELD.match(line)
        if field is None:
            raise Fault("Frame(Header)")
        fields.append((field[1].lower(), field[2].strip(b" \t")))
    lengths = [value for name, value in fields if name == b"content-length"]
    if len(lengths) != 1:
        raise Fault("Frame(TwoLengths)" if lengths else "Frame(NoLength)")
    if not re.fullmatch(rb"[0-9]{1,10}", lengths[0]):
        raise Fault("Frame(BadLength)")
    if int(lengths[0]) > LONGEST_BODY:
        raise Fault("Frame(TooLong)")
    return int(lengths[0])


def next_frame(rest):
    """The body of the first frame, and what is left after it; none where no frame is whole yet."""
    end = rest[:LONGEST_HEADER].find(b"\r\n\r\n")
    if end < 0:
        if len(rest) >= LONGEST_HEADER:
            raise Fault("Frame(HeaderTooLong)")
        return None
    begin = end + 4
    length = length_of(rest[:begin])
    return (rest[begin:begin + length], rest[begin + length:]) if len(rest) >= begin + length else None


def no_constant(name):
    raise ValueError(name)


def finite(text):
    """A number with a point or an exponent, where there is one that is near."""
    if math.isinf(float(text)):
        raise ValueError(text)
    return float(text)


def value_of(body):
    """The value of a body. A text that escapes half of a pair has none."""
    value = json.loads(body.decode(), parse_constant=no_constant, parse_float=finite)
    json.dumps(value, ensure_ascii=False).encode()
    return value


def depth_of(value):
    """How many arrays and objects stand in each other."""
    parts = value.values() if isinstance(value, dict) else value if isinstance(value, list) else None
    return 0 if parts is None else 1 + max(map(depth_of, parts), default=0)


def request_of(body):
    """The request that a body is, or none: a response or an event is passed over."""
    try:
        value = value_of(body)
    except (ValueError, RecursionError):
        raise Fault("Message(NotJson)") from None
    if depth_of(value) > DEEPEST:
        raise Fault("Message(NotJson)")
    if not isinstance(value, dict) or value.get("type") not in ("request", "response", "event"):
        raise Fault("Message(NotAMessage)")
    if value["type"] != "request":
        return None
    if not isinstance(value.get("command"), str):
        raise Fault("Message(NotAMessage)")
    seq = value.get("seq")
    if isinstance(seq, bool) or not isinstance(seq, int) or not 0 <= seq <= 2147483647:
        raise Fault("Message(BadSeq)")
    return value


def read(data):
    """The requests before the first fault, each a value, and its name or `none`."""
    requests = []
    try:
        while (frame := next_frame(data)) is not None:
            body, data = frame
            request = request_of(body)
            requests += [] if request is None else [request]
    except Fault as fault:
        return requests, str(fault)
    return requests, "none"


def messages(data):
    """The messages that were written, each a value: frames as they are always written, numbered from 1."""
    found = []
    while data:
        header = re.match(rb"Content-Length: ([1-9][0-9]*)\r\n\r\n", data)
        length = int(header[1])
        body, data = data[header.end():header.end() + length], data[header.end() + length:]
        if len(body) != length:
            raise AssertionError("an unfinished frame was written: %r" % body)
        found.append(json.loads(body))
    if [message["seq"] for message in found] != list(range(1, len(found) + 1)):
        raise AssertionError("the numbers of what was written: %s" % [message["seq"] for message in found])
    return found
