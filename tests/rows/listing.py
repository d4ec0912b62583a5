"""Listings of texts, and what comes in their place."""
from support.programs import INCREMENT_LISTING
from support.players import Row

PLAYER = "test_assembler"

PROFILE = "docs/MACHINE.md, \"Listings\", with words of GNU as and ld 2.40"

# A function that adds 1, called once.
INCREMENT = b"_start: li a0, 5\ncall f\nli a7, 93\necall\nf: addi a0, a0, 1\nret\n"


def writer(room):
    """A writer that takes so many bytes, and then fails."""
    return "list writer %d" % room, "ok"


def lists(text, answer="ok"):
    return "list text " + text.hex(), answer


def taken(wanted):
    return "list taken", wanted.hex()


def listing(text, wanted):
    """The listing of a text, for a writer that has room for a byte more."""
    return [writer(len(wanted) + 1), lists(text), taken(wanted)]


ROWS = [
    Row("a line stands for each instruction", listing(INCREMENT, INCREMENT_LISTING), PROFILE),
    Row("data is left out", [
        *listing(b"d: .word d\nbeq x0, x0, d\n.byte 1, 2\n.align 2\nfence\n.space 6",
                 b"00010004 fe000ee3 beq zero, zero, 0x00010000\n0001000c 0ff0000f fence iorw, iorw\n"),
        *listing(b"# nothing\n", b""),
    ], PROFILE),
    Row("a text with an error is not listed", [writer(1000), lists(b"nop\naddi a0, a0\n", "line 2: BadOperand"), taken(b"")], PROFILE),
    Row("the memory has 1 MiB", [
        *listing(b".space 1048572\nnop\n", b"0010fffc 00000013 addi zero, zero, 0\n"),
        writer(1000), lists(b".space 1048572\nnop\n.byte 0\n", "line 3: TooLarge"), taken(b""),
    ], PROFILE),
    Row("listing", listing(INCREMENT, INCREMENT_LISTING), PROFILE, refused=True),
    Row("a writer that fails has a part of the listing", [
        step for room in (0, 1, 100, len(INCREMENT_LISTING) - 1)
        for step in (writer(room), lists(INCREMENT, "write fault"), taken(INCREMENT_LISTING[:room]))
    ], "docs/MACHINE.md, \"Listings\": the listing could not be written, or only a part of it"),
    Row("the longest program is listed", listing(b"nop\n" * 262144, b"".join(
        b"%08x 00000013 addi zero, zero, 0\n" % (0x10000 + 4 * n) for n in range(262144))), PROFILE),
]
