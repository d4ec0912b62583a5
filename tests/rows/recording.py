"""Sessions that are recorded: what a script gets while events are told, and which texts are kept.

A recorder writes the line of each event while it is told, and at the end that all for connection 1 is watched. Slices that follow each
other are one line, with all their moves, as long as 32 bits hold them; that line is written once another event comes, or at the end. The
text of a turn is kept before its line is written, which names the copy: the first is `1.s`. Where a copy is not kept or a line not written
whole, the recording has ended.
"""
from support.players import Row

PLAYER = "test_scripts"
RULES = "the rules at the head of this table, worked by hand"
ROOM = 1000


def recorded(events, wanted, copies=(), room=ROOM, kept=9, is_whole=True):
    """What is recorded of events, of whose turns with a file the text is its path."""
    told = "".join(event + "\n" for event in events).encode()
    words = [word for number, text in enumerate(copies, 1) for word in (str(number), text.encode().hex())]
    return "record %s %d %d" % (told.hex(), room, kept), " ".join([*words, wanted.encode().hex(), "whole" if is_whole else "part"])


def lines(*all_lines):
    return "".join(line + "\n" for line in (*all_lines, "watch 1 all"))


def first(text, count):
    """A script that has room for the first bytes of a text alone."""
    return {"wanted": text[:count], "room": count, "is_whole": count == len(text)}


EVENTS = ["connect", "send {\"seq\":1}", "slice 3", "slice 4", "turn a b", "turn", "bytes 00ff", "slice 5", "hold", "sent 12", "turn c", "drop", "slice 6"]
WHOLE = lines("connect", "send {\"seq\":1}", "slice 7", "turn 1.s", "turn", "bytes 00ff", "slice 5", "hold", "sent 12", "turn 2.s", "drop", "slice 6")

ROWS = [
    Row("each event is a line, and slices that follow each other are one", [recorded(EVENTS, WHOLE, copies=["a b", "c"])], RULES),
    Row("nothing happened", [recorded([], lines())], RULES),
    Row("a slice of no moves is an event", [recorded(["slice 0"], lines("slice 0")), recorded(["slice 0", "slice 7", "slice 0"], lines("slice 7"))], RULES),
    Row("more moves than 32 bits hold are two lines", [recorded(["slice 4294967294", "slice 1"], lines("slice 4294967295")),
        recorded(["slice 4294967295", "slice 1"], lines("slice 4294967295", "slice 1")),
        recorded(["slice 4294967290", "slice 7", "slice 4", "slice 4294967285"], lines("slice 4294967290", "slice 11", "slice 4294967285"))], RULES),
    Row("a script that is full has the first bytes", [recorded(EVENTS[:2], **first(lines(*EVENTS[:2]), count)) for count in range(len(lines(*EVENTS[:2])) + 1)], RULES),
    Row("after a line that was cut nothing is written or kept", [recorded(["connect", "drop", "turn a"], "conn", room=4, is_whole=False)], RULES),
    Row("after a copy that was not kept nothing is written", [recorded(["connect", "slice 5", "turn a", "hold"], "connect\n", kept=0, is_whole=False),
        recorded(["turn a", "turn", "turn b", "hold"], "turn 1.s\nturn\n", copies=["a"], kept=1, is_whole=False)], RULES),
]
