"""Streams of the base protocol, and what they are read as; frames of bodies; the texts of errors."""
from support.players import NO_MEMORY, Row, alike, tried

PLAYER = "test_messages"
TAKES_NONE = {"Unframer::new": "new", "Unframer::next_body": "next", "Unframer::peek_body": "peek", "Unframer::retract": "retract"}
LIMIT = 1048576

PROTOCOL = "the base protocol, \"Header Part\" and \"Content Part\""
PROFILE = "the base protocol, with the faults of docs/PROTOCOL.md"
BY_HAND = "worked by hand"
INITIALIZE = b'{"seq":1,"type":"request","command":"initialize","arguments":{"adapterID":"rvdap"}}'


def framed(body):
    """The smallest frame of a body."""
    return b"Content-Length: %d\r\n\r\n%s" % (len(body), body)


def new(limit=LIMIT):
    return "new %d" % limit, "ok"


def feed(piece, fault="ok"):
    return "feed " + piece.hex(), fault


def feed_once(piece):
    return "feed_once " + piece.hex(), "ok"


def lends(body):
    return "next", body.hex()


def peeks(body):
    return "peek", body.hex()


def frame(body, wanted):
    return "frame " + body.hex(), wanted.hex()


def turns(count, piece):
    """So many times a body is lent and the piece is fed."""
    return "turns %d %s" % (count, piece.hex()), "true"


def text(error, wanted):
    return "fault " + error, wanted


NONE_WAITS = ("next", "none")
NONE_TO_PEEK = ("peek", "none")
RETRACT = ("retract", "ok")


def faults(*streams):
    """Each stream in one piece, on an unframer of its own, with what `feed` answers."""
    return [step for stream, fault in streams for step in (new(), feed(stream, fault))]


def pieces_of(stream, size):
    return [stream[i:i + size] for i in range(0, len(stream), size)]


def header_part_of(size):
    """A header part of so many bytes, of a frame whose body has two."""
    field = b"Content-Length: 2\r\nX: "
    return field + b"x" * (size - len(field) - 4) + b"\r\n\r\n"


NUMBERED = [b"%d" % i for i in range(10000)]
NUMBERED_STREAM = b"".join(map(framed, NUMBERED))


def numbered_in_pieces_of(size):
    """Ten thousand frames in pieces of a size, read in order."""
    return [new()] + list(map(feed, pieces_of(NUMBERED_STREAM, size))) + list(map(lends, NUMBERED)) + [NONE_WAITS]


def numbered_as_they_come(size):
    """Ten thousand frames in pieces of a size, each read as soon as it is whole."""
    steps, came, whole, waiting = [new()], 0, 0, list(NUMBERED)
    for piece in pieces_of(NUMBERED_STREAM, size):
        steps.append(feed(piece))
        came += len(piece)
        while waiting and whole + len(framed(waiting[0])) <= came:
            whole += len(framed(waiting[0]))
            steps.append(lends(waiting.pop(0)))
        steps.append(NONE_WAITS)
    return steps


# Each piece differs from those beside it, since 251 does not divide its size.
LONGEST = bytes(i * 7 % 251 for i in range(LIMIT))

ROWS = [
    Row("names of either case and blanks round the value are fine", [
        new(),
        feed(b"content-length:  2\r\nX-A: b\r\n\r\n{}"),
        peeks(b"{}"), lends(b"{}"), NONE_TO_PEEK, NONE_WAITS,
        feed(b"CONTENT-LENGTH:\t0002 \r\n\r\n[]Content-Length: 0\r\n\r\n"),
        lends(b"[]"), lends(b""), NONE_WAITS,
    ], PROTOCOL),
    Row("each fault has its name", faults(
        (b"\r\n\r\n", "Header"),
        (b"Content-Length 2\r\n\r\n{}", "Header"),
        (b": 2\r\n\r\n{}", "Header"),
        (b"Content-Length: 2\r\nX: \x07\r\n\r\n{}", "Header"),
        (b"Content-Length : 2\r\n\r\n{}", "Header"),
        (b"X: 1\r\n\r\n", "NoLength"),
        (b"Content-Length: 2\r\ncontent-length: 2\r\n\r\n{}", "TwoLengths"),
        (b"Content-Length: -1\r\n\r\n", "BadLength"),
        (b"Content-Length: \r\n\r\n", "BadLength"),
        (b"Content-Length: 00000000002\r\n\r\n{}", "BadLength"),
        (b"Content-Length: 1048577\r\n\r\n", "TooLong"),
        (b"Content-Length: 9999999999\r\n\r\n", "TooLong"),
    ), PROFILE),
    Row("the first fault in order is answered", faults(
        (b"Content-Length: 1\r\nContent-Length: 1\r\nX\r\n\r\n", "Header"),
        (b"Content-Length: x\r\nContent-Length: 1048577\r\n\r\n", "TwoLengths"),
    ), PROFILE),
    Row("the limit and the size of a header part are exact", faults(
        (b"Content-Length: 1048576\r\n\r\n", "ok"),
        (b"Content-Length: 1048577\r\n\r", "ok"),
        (b"a" * 4095, "ok"),
        (b"a" * 4096, "HeaderTooLong"),
    ), PROFILE),
    Row("a header part has up to 4,096 bytes", faults(
        (header_part_of(4095) + b"{}", "ok"),
        (header_part_of(4096) + b"{}", "ok"),
        (header_part_of(4097) + b"{}", "HeaderTooLong"),
        (header_part_of(4097)[:4095], "ok"),
        (header_part_of(4097)[:4096], "HeaderTooLong"),
    ) + [new(), feed(header_part_of(4096) + b"{}"), lends(b"{}"), NONE_WAITS], PROFILE),
    Row("the limit is any that 32 bits hold", [
        new(0),
        feed(b"Content-Length: 0\r\n\r\n"), lends(b""),
        feed(b"Content-Length: 1\r\n\r\n", "TooLong"),
        new(4294967295),
        feed(b"Content-Length: 4294967295\r\n\r\n"), NONE_WAITS,
        new(4294967295),
        feed(b"Content-Length: 4294967296\r\n\r\n", "TooLong"),
    ], BY_HAND),
    Row("a fault stays and the bodies before it too", [
        new(),
        feed(b"Content-Length: 2\r\n\r\n{}Content-Length: 3\r\n\r\n[1]X: 1\r\n\r\n", "NoLength"),
        lends(b"{}"),
        feed(b"Content-Length: 2\r\n\r\n{}", "NoLength"),
        lends(b"[1]"), NONE_WAITS,
        feed(b"", "NoLength"),
    ], PROFILE),
    Row("a frame is the smallest", [
        frame(b"", b"Content-Length: 0\r\n\r\n"),
        frame(b"{}", b"Content-Length: 2\r\n\r\n{}"),
        frame(INITIALIZE, b"Content-Length: 83\r\n\r\n" + INITIALIZE),
    ], PROTOCOL),
    Row("a frame is read whole", [new(), feed(framed(INITIALIZE)), lends(INITIALIZE)], PROTOCOL),
    Row("a frame is read cut after every byte", [
        new(),
        *(step for byte in pieces_of(framed(INITIALIZE), 1) for step in (NONE_WAITS, feed(byte))),
        lends(INITIALIZE), NONE_WAITS,
    ], PROTOCOL),
    Row("ten thousand frames are read in order however cut, byte by byte", numbered_in_pieces_of(1), PROTOCOL),
    Row("ten thousand frames are read in order however cut, by seven bytes", numbered_in_pieces_of(7), PROTOCOL),
    Row("ten thousand frames are read in order however cut, by 4,096 bytes", numbered_in_pieces_of(4096), PROTOCOL),
    Row("ten thousand frames that come by seven bytes are read as they come", numbered_as_they_come(7), PROTOCOL),
    Row("a frame that is read makes room for the next", [
        new(),
        feed(framed(b"{}")), turns(1000, framed(b"[]")), lends(b"[]"), NONE_WAITS,
        feed(framed(b"1") + framed(b"2")), turns(1, framed(b"3")), lends(b"2"), lends(b"3"), NONE_WAITS,
    ], BY_HAND),
    Row("ten thousand frames that were taken back are read again", [
        new(),
        feed(NUMBERED_STREAM), *map(lends, NUMBERED), NONE_WAITS,
        RETRACT,
        *map(feed, pieces_of(NUMBERED_STREAM, 7)), *map(lends, NUMBERED), NONE_WAITS,
    ], PROTOCOL),
    Row("a piece that was taken back can come in other cuts", [
        new(),
        feed(b"Content-Length: 2\r\n\r\n{}Content-Le"),
        feed(b"ngth: 3\r\n\r\n[1]Content-Length: 1\r\n\r\n"),
        lends(b"{}"), lends(b"[1]"), NONE_WAITS,
        RETRACT,
        feed(b"n"),
        feed(b"gth: 3\r\n\r\n[1]Content-Length: 1\r\n\r"),
        lends(b"{}"), lends(b"[1]"), NONE_WAITS,
        feed(b"\n7"),
        lends(b"7"), NONE_WAITS,
    ], BY_HAND),
    Row("a fault is taken back with its piece", [
        new(),
        feed(b"Content-Length: 2\r\n\r\n{}Content-Le"),
        feed(b"ngth: 3\r\n\r\n[1]Content-Length: x\r\n\r\n", "BadLength"),
        lends(b"{}"), lends(b"[1]"), NONE_WAITS,
        RETRACT,
        lends(b"{}"), NONE_WAITS,
        feed(b"ngth: 1\r\n\r\n7"),
        lends(b"7"), NONE_WAITS,
    ], BY_HAND),
    Row("one piece alone is taken back", [
        new(),
        RETRACT, NONE_WAITS,
        feed(b"Content-Length: 2\r\n\r\n{}"),
        feed(b"Content-Length: 3\r\n\r\n[1]"),
        RETRACT, RETRACT,
        lends(b"{}"), NONE_WAITS,
        RETRACT, NONE_WAITS,
        feed(b"Content-Length: 1\r\n\r\n7"),
        lends(b"7"),
        RETRACT, NONE_WAITS,
    ], BY_HAND),
    Row("a fault of before stays where a piece is taken back", [
        new(),
        feed(b"Content-Length: 2\r\n\r\n{}X: 1\r\n\r\n", "NoLength"),
        feed(b"Content-Length: 1\r\n\r\n7", "NoLength"),
        lends(b"{}"), NONE_WAITS,
        RETRACT, RETRACT,
        lends(b"{}"), NONE_WAITS,
        feed(b"", "NoLength"),
        RETRACT,
        feed(b"", "NoLength"),
    ], BY_HAND),
    Row("a piece that found no memory can be fed again", [
        new(),
        feed(b"Content-Length: 2\r\n\r\n{}Content-Le"),
        feed(b"ngth: 3\r\n\r\n[1]Content-Length: 1\r\n\r\n"),
        feed(b"7X: 1\r\n\r\n", "NoLength"),
        lends(b"{}"), lends(b"[1]"), lends(b"7"), NONE_WAITS,
    ], BY_HAND, refused=True),
    Row("where a piece found no memory the one before is taken back", [
        new(),
        feed(b"Content-Length: 2\r\n\r\n{}"),
        feed_once(b"Content-Length: 3\r\n\r\n[1]"),
        RETRACT,
        lends(b"{}"), NONE_WAITS,
    ], BY_HAND, refused=True, otherwise=[["ok", "ok", "NoMemory", "ok", "none", "none"]]),
    Row("a piece for which there is room is taken though no memory is left for the rest of its frame", [
        new(),
        feed(framed(b"x" * 40)), lends(b"x" * 40),
        feed_once(b"Content-Length: 1000\r\n\r\n"),
        feed(b"y" * 1000), lends(b"y" * 1000), NONE_WAITS,
    ], BY_HAND, refused=True),
    tried("what an unframer lends is not changed by a piece that found no memory", BY_HAND,
          alike(new(), feed(framed(b"{}"))),
          [(*feed_once(framed(b"[1]")), NO_MEMORY), *alike(peeks(b"{}"), lends(b"{}")), (*lends(b"[1]"), "none"), *alike(
              feed(framed(b"[1]")), lends(b"[1]"), NONE_WAITS)]),
    tried("a frame that began is whole where its end is fed again after it found no memory", BY_HAND,
          alike(new(), feed(framed(b"{}")[:-1])),
          [(*feed_once(b"}" + framed(b"[1]")), NO_MEMORY), (*peeks(b"{}"), "none"), ("feed " + (b"}" + framed(b"[1]")).hex(), "NoLength", "ok"),
           *alike(lends(b"{}"), lends(b"[1]"), NONE_WAITS)]),
    Row("a frame that found no memory can be made again", [frame(b"{}", b"Content-Length: 2\r\n\r\n{}")], PROTOCOL, refused=True),
    Row("a body of 1 MiB is framed", [frame(LONGEST, b"Content-Length: 1048576\r\n\r\n" + LONGEST)], PROTOCOL, refused=True),
    Row("a body of 1 MiB comes back in pieces of 65,536 bytes", [
        new(),
        *(step for piece in pieces_of(framed(LONGEST), 65536) for step in (NONE_WAITS, feed(piece))),
        peeks(LONGEST), lends(LONGEST), NONE_WAITS,
    ], PROTOCOL),
    Row("each error has its text", [
        text("Header", "header line is no field"),
        text("NoLength", "no content length"),
        text("TwoLengths", "two content lengths"),
        text("BadLength", "bad content length"),
        text("TooLong", "content too long"),
        text("HeaderTooLong", "header too long"),
        text("NoMemory", "no memory"),
    ], "what the variants are documented to say"),
]
