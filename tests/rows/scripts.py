"""Scripts: what their lines list, what the last one watches, and which line is the first that is wrong.

A script has one event a line: `connect`, `send JSON` (one framed piece), `bytes HEX`, `turn`, `turn FILE`, `slice N`, `hold`, `sent N`,
`drop`; its last line is `watch C N` or `watch C all`. Words are parted by one space. Numbers are decimal digits: of 32 bits for a slice and
a connection, of 64 for the others.

A recording is a script that was written while things happened. It may lack its last line, and end anywhere: what comes after its last line
feed says nothing. An event is written as one line: a piece as `send` where it is the smallest frame of a body that has no line feed, and no
carriage return at its end, else as `bytes` in lower case; numbers without leading zeros.
"""
from support.players import Row
from support.program import frame

PLAYER = "test_scripts"
RULES = "the rules at the head of this table, worked by hand"


def script(text, wanted, refused=False):
    """A script, and what it lists."""
    text = text if isinstance(text, bytes) else text.encode()
    return ("script " + text.hex()).strip(), wanted


def lists(*lines, wanted, end="\n"):
    return script("\n".join((*lines, "watch 1 all")) + end, " ".join([*([wanted] if wanted else []), "watch 1 all"]))


def piece(body):
    return "recv " + frame(body).hex()


def wrong(number, *lines):
    """The line of this number is the first that is wrong."""
    return script("\n".join(lines) + "\n", "line %d" % number)


def recorded(text, wanted):
    """A recording, and what it lists."""
    return ("recorded " + text.encode().hex()).strip(), wanted


def written(*lines, wanted):
    """What is written of events that these lines say."""
    return "written " + "".join(line + "\n" for line in lines).encode().hex(), " ".join((line + "\n").encode().hex() for line in wanted)


def as_bytes(text):
    return "bytes " + text.encode().hex()


FRAME = frame("{}").decode()

ROWS = [
    Row("a script lists each kind of event", [lists("connect", "send {\"seq\":1}", "bytes 0aFf", "turn", "turn /w/p s.s", "slice 100000", "hold", "sent 12", "drop",
        wanted=" ".join(["connect", piece('{"seq":1}'), "recv 0aff", "turn", "turn-with " + b"/w/p s.s".hex(), "slice 100000", "hold", "sent 12", "drop"]))], RULES, refused=True),
    Row("a script may watch at once", [lists(wanted=""), script("watch 1 1003\n", "watch 1 1003"), script("watch 4294967295 18446744073709551615\n", "watch 4294967295 18446744073709551615")], RULES),
    Row("the last line may lack its end", [lists("turn", wanted="turn", end="")], RULES),
    Row("a carriage return before a line feed is no part of a line", [script("connect\r\nslice 3\r\nwatch 2 0\r\n", "connect slice 3 watch 2 0")], RULES),
    Row("leading zeros are fine", [lists("slice 007", "sent 000", wanted="slice 7 sent 0")], RULES),
    Row("the greatest numbers", [lists("slice 4294967295", "sent 18446744073709551615", wanted="slice 4294967295 sent 18446744073709551615")], RULES),
    Row("numbers that are too large", [wrong(1, "slice 4294967296", "watch 1 all"), wrong(2, "connect", "sent 18446744073709551616", "watch 1 all"),
        wrong(1, "watch 4294967296 all"), wrong(1, "watch 1 18446744073709551616")], RULES),
    Row("what is no number", [wrong(1, "slice", "watch 1 all"), wrong(1, "slice ", "watch 1 all"), wrong(1, "slice -1", "watch 1 all"), wrong(1, "slice 1a", "watch 1 all"),
        wrong(1, "slice +1", "watch 1 all"), wrong(1, "sent 0x10", "watch 1 all"), wrong(1, "watch one all"), wrong(1, "watch 1 ALL"), wrong(1, "watch 1")], RULES),
    Row("words are parted by one space", [wrong(1, "slice  1", "watch 1 all"), wrong(1, " connect", "watch 1 all"), wrong(1, "connect ", "watch 1 all"), wrong(1, "slice\t1", "watch 1 all"),
        wrong(1, "watch  1 all"), wrong(1, "watch 1  all"), wrong(1, "watch 1 all ")], RULES),
    Row("what follows send is framed as it stands", [lists("send  {} ", wanted=piece(" {} ")), lists("send x", wanted=piece("x")), wrong(1, "send ", "watch 1 all"), wrong(1, "send", "watch 1 all")], RULES),
    Row("bytes are pairs of digits, one at least", [wrong(1, "bytes ", "watch 1 all"), wrong(1, "bytes a", "watch 1 all"), wrong(1, "bytes 0g", "watch 1 all"), wrong(1, "bytes 0a 0b", "watch 1 all")], RULES),
    Row("a file has a name", [wrong(1, "turn ", "watch 1 all"), lists("turn  x", wanted="turn-with " + b" x".hex())], RULES),
    Row("no other words", [wrong(2, "connect", "Connect", "watch 1 all"), wrong(1, "recv 00", "watch 1 all"), wrong(3, "connect", "turn", "stop", "watch 1 all")], RULES),
    Row("no line is blank", [wrong(2, "connect", "", "turn", "watch 1 all"), script("\nwatch 1 all\n", "line 1")], RULES),
    Row("nothing follows what is watched", [wrong(1, "watch 1 all", "turn"), wrong(2, "connect", "watch 1 0", "watch 1 all")], RULES),
    Row("a script without what is watched is wrong at its last line", [wrong(1, "connect"), wrong(3, "connect", "turn", "drop")], RULES),
    Row("an empty script is one empty line", [script("", "line 1"), script("\n", "line 1")], RULES),
    Row("only the first line that is wrong counts", [wrong(2, "connect", "x", "y", "watch")], RULES),
    Row("a recording may watch something, or lack its last line", [recorded("connect\nturn\nwatch 1 all\n", "connect turn watch 1 all"),
        recorded("connect\nturn\n", "connect turn"), recorded("", "")], RULES, refused=True),
    Row("a recording may be cut anywhere", [recorded("connect\nslice 12\nsent 7\nwatch 2 all\n"[:count], wanted)
        for count, wanted in [*((at, "") for at in range(8)), *((at, "connect") for at in range(8, 17)), *((at, "connect slice 12") for at in range(17, 24)),
                              *((at, "connect slice 12 sent 7") for at in range(24, 36)), (36, "connect slice 12 sent 7 watch 2 all")]], RULES),
    Row("a line that is wrong is wrong in a recording too", [recorded("connect\nslice\nturn\n", "line 2"), recorded("connect\nslice\nturn", "line 2"), recorded("\n", "line 1"),
        recorded("watch 1 all\nturn\n", "line 1"), recorded("watch 1 all\nturn", "watch 1 all")], RULES),
    Row("events are written as they are read", [written("connect", "send {\"seq\":1}", "bytes 00ff", "turn", "turn /w/p s.s", "slice 100000", "hold", "sent 12", "drop", "watch 7 all",
        wanted=["connect", "send {\"seq\":1}", "bytes 00ff", "turn", "turn /w/p s.s", "slice 100000", "hold", "sent 12", "drop", "watch 7 all"])], RULES, refused=True),
    Row("one line says each event", [written("bytes 00FF", "slice 007", "sent 000", "slice 4294967295", "sent 18446744073709551615", wanted=["bytes 00ff", "slice 7", "sent 0", "slice 4294967295",
        "sent 18446744073709551615"])], RULES),
    Row("a piece that is a smallest frame is written as its body", [written(as_bytes(FRAME), as_bytes(frame("é" * 40).decode()), wanted=["send {}", "send " + "é" * 40])], RULES),
    Row("any other piece is written as its bytes", [written(*pieces, wanted=pieces) for pieces in [[as_bytes(text) for text in (
        FRAME[:-1], FRAME + " ", FRAME * 2, FRAME.replace(": ", ":"), FRAME.replace("2", "02"), "x: y\r\n" + FRAME, "Content-Length: 0\r\n\r\n", "Content-Length: 2\n\r\n{}", "\n", "{}",
        frame("a\nb").decode(), frame("a\n").decode(), frame("a\r").decode())]]], RULES),
    Row("a body may have carriage returns before its end", [written(as_bytes(frame("a\rb").decode()), wanted=["send a\rb"])], RULES),
    Row("no line says a piece of no bytes, nor a path that a line can't end with", [("no-line", "true true true true false")], RULES),
]
