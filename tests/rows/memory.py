"""The memory of the machine: what is read and written, and each fault."""
from support.players import NO_MEMORY, Row

PLAYER = "test_machine"
TAKES_NONE = {"Memory::byte": "memory byte", "Memory::word": "memory word", "Memory::word_bytes": "memory word_bytes", "Memory::read": "memory read",
              "Memory::half": "memory half"}
BASE = 0x10000
SIZES = (4096, 8192, 1048576, 16777216)

PROFILE = "docs/MACHINE.md, \"Memory\""
BY_HAND = "worked by hand from docs/MACHINE.md, \"Memory\""

# 251 does not divide its length, so that no two parts of it of a like length are the same.
BLOCK = bytes(i * 7 % 251 for i in range(1048576))


def new(size=4096):
    return "memory new %d" % size, "ok"


def byte(address, wanted):
    return "memory byte %d" % address, str(wanted)


def half(address, wanted):
    return "memory half %d" % address, str(wanted)


def word(address, wanted):
    return "memory word %d" % address, str(wanted)


def word_bytes(address, wanted):
    return "memory word_bytes %d" % address, wanted


def read(address, before, after, answer="ok"):
    """Reads into bytes, as many as there are of them, and expects these then."""
    return "memory read %d %s" % (address, before.hex()), "%s %s" % (answer, after.hex())


def write_byte(address, value, answer="ok"):
    return "memory write_byte %d %d" % (address, value), answer


def write_half(address, value, answer="ok"):
    return "memory write_half %d %d" % (address, value), answer


def write_word(address, value, answer="ok"):
    return "memory write_word %d %d" % (address, value), answer


def write(address, block, answer="ok"):
    return "memory write %d %s" % (address, block.hex()), answer


def once(step):
    """The same, and not made again where it finds no memory."""
    command, answer = step
    return command.replace("memory ", "memory once ", 1), answer


def over_three_pages(*made):
    """A write of bytes that lie in three pages, of which these were made before, and the same write again. Where the first finds no memory for
    one of the others, it writes no byte."""
    start, block = 4094, BLOCK[:4100]
    before = bytearray(16384)
    for page in made:
        before[4096 * page + 100] = 9
    after = bytes(before[:start]) + block + bytes(before[start + len(block):])

    def goes(answer, left):
        yield new(16384)
        yield from (write_byte(BASE + 4096 * page + 100, 9) for page in made)
        yield once(write(BASE + start, block, answer))
        yield read(BASE, bytes(16384), left)
        yield write(BASE + start, block)
        yield read(BASE, bytes(16384), after)

    otherwise = [] if len(made) == 3 else [[answer for _, answer in goes(NO_MEMORY, before)]]
    there = "".join(", page %d being there" % page for page in made)
    return Row("a write over three pages" + there, list(goes("ok", after)), BY_HAND, refused=True, otherwise=otherwise)


ROWS = [
    Row("new memory is zero at each size", [step for size in SIZES for step in (
        new(size),
        byte(BASE, 0),
        byte(BASE + size - 1, 0),
        byte(BASE + size, "none"),
        byte(BASE - 1, "none"),
        byte(0, "none"),
        byte(0xffffffff, "none"),
    )], PROFILE),
    Row("halfwords and bytes make a word", [
        new(),
        write_half(0x10ffe, 1),
        write_byte(0x10fff, 2),
        word(0x10ffc, 0x02010000),
        write_word(BASE, 0x04030201),
        read(BASE + 1, bytes(3), b"\2\3\4"),
    ], BY_HAND),
    Row("misaligned comes before outside", [
        new(),
        write_half(0x10fff, 1, "Misaligned"),
        write_half(1, 1, "Misaligned"),
        write_half(0x11000, 1, "Outside"),
        write_word(0x11000, 1, "Outside"),
        write_word(0x10ffe, 1, "Misaligned"),
        write_word(2, 1, "Misaligned"),
        write_byte(0xffff, 1, "Outside"),
        word(0x10ffe, "Misaligned"),
        word(0xfffffffc, "Outside"),
        word(0xfffc, "Outside"),
        word(0x10ffc, 0),
    ], PROFILE),
    Row("what does not fit is not written at all", [
        new(),
        write(0x10ffe, b"ab"),
        write(0x10ffe, b"xyz", "Outside"),
        write(0xfffe, b"xyz", "Outside"),
        write(0xffffffff, b"xy", "Outside"),
        write(0, b""),
        word(0x10ffc, 0x62610000),
        read(0x10fff, b"\7\7", b"\7\7", "Outside"),
        read(0, b"", b""),
    ], BY_HAND),
    Row("memory of 16 MiB holds what is written at its ends", [
        new(16777216),
        write(BASE, BLOCK),
        write(0x1010000 - len(BLOCK), BLOCK),
        write(0x1010001 - len(BLOCK), BLOCK, "Outside"),
        read(BASE, bytes(len(BLOCK)), BLOCK),
        read(0x1010000 - len(BLOCK), bytes(len(BLOCK)), BLOCK),
        byte(BASE + len(BLOCK), 0),
        byte(0x100ffff - len(BLOCK), 0),
        write_word(0x100fffc, 0xfffefdfc),
        write_half(0x100fffa, 0xfbfa),
        write_byte(0x100fff9, 0xf9),
        read(0x100fff8, bytes(8), BLOCK[-8:-7] + b"\xf9\xfa\xfb\xfc\xfd\xfe\xff"),
        byte(0x100ffff, 255),
    ], BY_HAND),
    Row("halfwords, and those of a page that was not written", [
        new(8192),
        half(BASE, 0),
        half(0x11ffe, 0),
        half(0x10001, "Misaligned"),
        half(0x12001, "Misaligned"),
        half(0x12000, "Outside"),
        half(0xfffe, "Outside"),
        half(0xfffffffe, "Outside"),
        write_word(0x10ffc, 0x84838281),
        half(0x10ffc, 0x8281),
        half(0x10ffe, 0x8483),
        half(0x11000, 0),
        write_half(0x11ffe, 0xfedc),
        half(0x11ffe, 0xfedc),
        byte(0x11fff, 0xfe),
        half(0x11ffc, 0),
    ], BY_HAND, refused=True),
    Row("the bytes of a word, and those of a page that was not written", [
        new(8192),
        word_bytes(BASE, "00000000"),
        word_bytes(0x10002, "Misaligned"),
        word_bytes(0x12002, "Misaligned"),
        word_bytes(0x12000, "Outside"),
        word_bytes(0xfffc, "Outside"),
        word_bytes(0xfffffffc, "Outside"),
        write_word(0x10ffc, 0x84838281),
        word_bytes(0x10ffc, "81828384"),
        word_bytes(0x11000, "00000000"),
        write_half(0x11ffe, 0xfedc),
        word_bytes(0x11ffc, "0000dcfe"),
    ], BY_HAND, refused=True),
    Row("reads over pages of which one was written", [
        step for at, wanted in ((4095, b"\7" + bytes(8192)), (4096, b"\0\7" + bytes(8191)), (8191, bytes(4096) + b"\7" + bytes(4096)),
                                (8192, bytes(4097) + b"\7" + bytes(4095))) for step in (
            new(16384),
            write_byte(BASE + at, 7),
            read(BASE + 4095, b"\xff" * 8193, wanted),
            read(BASE + at - 1, b"\xff" * 3, b"\0\7\0"),
            read(BASE + 12288, b"\xff" * 4096, bytes(4096)),
            word(BASE + 12288, 0),
        )
    ], BY_HAND),
    *(over_three_pages(*made) for made in ((), (0,), (1,), (2,), (0, 1), (0, 2), (1, 2), (0, 1, 2))),
    Row("memory that was not there is there when it is asked for again", [new(8192), write_word(0x11ffc, 7), word(0x11ffc, 7), byte(BASE, 0)],
        PROFILE, refused=True),
]
