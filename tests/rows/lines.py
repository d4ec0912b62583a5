"""Line tables: which line an address is of, where a line is, and the nearest label; and the parts of an image."""
from support.line_table import LineTable
from support.players import Row

PLAYER = "test_machine"
LINES = LineTable("lines")

PROFILE = "worked by hand from the definitions of crates/image/specs/Lines.antt"

# Line 3 has two words at 0x10000, line 5 one at 0x1000c, line 9 three at 0x10010; the image ends at 0x10020.
THREE_LINES = ((3, 0x10000, 2), (5, 0x1000c, 1), (9, 0x10010, 3))


def table(rows=THREE_LINES, labels=(), end=0x10020):
    """The steps that make a table."""
    return [("lines row %d %d %d" % row, "ok") for row in rows] + [("lines label %s %d" % label, "ok") for label in labels] \
        + [("lines new %d" % end, "ok")]


def starts(address, wanted):
    return "lines starts %d" % address, wanted


def lines_are(*pairs):
    return [LINES.line_of(address, line) for address, line in pairs]


def labels_are(*found):
    return [LINES.label_at(*each) for each in found]


# Lines 1, 3, 5, .. with a word each and as much data after it, each with a label.
MANY = table(rows=[(2 * n + 1, 0x10000 + 8 * n, 1) for n in range(10000)], labels=[("l%d" % n, 0x10000 + 8 * n) for n in range(10000)],
             end=0x10000 + 80000)

ROWS = [
    Row("a line is found by each of its bytes", table() + lines_are(
        (0, "none"),
        (0xffff, "none"),
        (0x10000, 3),
        (0x10007, 3),
        (0x10008, "none"),
        (0x1000b, "none"),
        (0x1000c, 5),
        (0x1000f, 5),
        (0x10010, 9),
        (0x1001b, 9),
        (0x1001c, "none"),
        (0x10020, "none"),
        (0xffffffff, "none"),
    ), PROFILE),
    Row("only the first byte of a line starts it", table()
        + [starts(address, "true") for address in (0x10000, 0x1000c, 0x10010)]
        + [starts(address, "false") for address in (0xffff, 0x10004, 0x10008, 0x10014, 0x1001c, 0x10020)], PROFILE),
    Row("a line without code is bound to the next", table() + [
        LINES.address_of(0, "none"), LINES.bind(0, 3, 0x10000),
        LINES.address_of(3, 0x10000), LINES.bind(3, 3, 0x10000),
        LINES.address_of(4, "none"), LINES.bind(4, 5, 0x1000c),
        LINES.address_of(5, 0x1000c), LINES.bind(5, 5, 0x1000c),
        LINES.address_of(6, "none"), LINES.bind(6, 9, 0x10010),
        LINES.address_of(9, 0x10010), LINES.bind(9, 9, 0x10010),
        LINES.address_of(10, "none"), LINES.bind(10, "none"),
        LINES.address_of(0xffffffff, "none"), LINES.bind(0xffffffff, "none"),
    ], PROFILE),
    Row("the first of the nearest labels is answered", table(labels=(
        ("early", 0x8000),
        ("first", 0x10000),
        ("again", 0x10000),
        ("later", 0x10008),
        ("end", 0x10020),
    )) + labels_are(
        (0x8000, "none"),
        (0xffff, "none"),
        (0x10000, "first", 0),
        (0x10007, "first", 7),
        (0x10008, "later", 0),
        (0x1001f, "later", 0x17),
        (0x10020, "none"),
    ), PROFILE),
    Row("labels that fall are answered alike", table(labels=(
        ("high", 0x10008),
        ("low", 0x10004),
        ("high_again", 0x10008),
        ("low_again", 0x10004),
        ("early", 0x9000),
    )) + labels_are(
        (0x10000, "early", 0x7000),
        (0x10004, "low", 0),
        (0x10007, "low", 3),
        (0x10008, "high", 0),
        (0x1001f, "high", 0x17),
        (0x10020, "none"),
    ), PROFILE),
    Row("labels are found by name, and by their place in the text", table(labels=(("high", 0x10008), ("low", 0x10004), ("early", 0x8000))) + [
        LINES.label_count(3),
        LINES.label(0, "high", 0x10008), LINES.label(1, "low", 0x10004), LINES.label(2, "early", 0x8000), LINES.label(3, "none"),
        LINES.label_address("high", 0x10008), LINES.label_address("low", 0x10004), LINES.label_address("early", 0x8000),
        LINES.label_address("lo", "none"), LINES.label_address("lower", "none"), LINES.label_address("Low", "none"),
    ], PROFILE),
    Row("an empty table knows no line", table(rows=(), labels=(("late", 0x10002),), end=0x10004) + [
        LINES.line_of(0x10000, "none"),
        LINES.address_of(0, "none"), LINES.bind(0, "none"),
        starts(0x10000, "false"),
        LINES.label_at(0x10001, "none"),
        LINES.label_at(0x10003, "late", 1),
    ], PROFILE),
    Row("a table without labels finds none", table() + [LINES.label_count(0), LINES.label(0, "none"), LINES.label_address("a", "none")], PROFILE),
    Row("an image gives its parts back", table(rows=(), end=0x10004) + [
        ("lines image %d 13000000" % 0x10000, "ok"),
        ("lines bytes", "13000000"),
        ("lines parts", "%d 13000000" % 0x10000),
        LINES.label_at(0x10000, "none"),
    ], "what the image was made of"),
    Row("a table of ten thousand lines and labels is searched", MANY + [
        step for n in (0, 1, 4999, 5000, 9998, 9999) for step in (
            LINES.line_of(0x10000 + 8 * n, 2 * n + 1), LINES.line_of(0x10003 + 8 * n, 2 * n + 1), LINES.line_of(0x10004 + 8 * n, "none"),
            starts(0x10000 + 8 * n, "true"), starts(0x10001 + 8 * n, "false"),
            LINES.address_of(2 * n + 1, 0x10000 + 8 * n), LINES.address_of(2 * n, "none"), LINES.bind(2 * n, 2 * n + 1, 0x10000 + 8 * n),
            LINES.label_at(0x10007 + 8 * n, "l%d" % n, 7),
        )
    ] + [LINES.line_of(0x10000 + 80000, "none"), LINES.bind(20000, "none"), LINES.label_at(0x10000 + 80000, "none")], PROFILE),
    Row("ten thousand labels that fall are searched", table(rows=(), end=0x10000 + 40000, labels=[
        ("l%d" % n, 0x10000 + 4 * (9999 - n)) for n in range(10000)
    ]) + [LINES.label_at(0x10003 + 4 * (9999 - n), "l%d" % n, 3) for n in (0, 1, 5000, 9998, 9999)], PROFILE),
]
