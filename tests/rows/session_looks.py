"""What an editor sees of a program that stands still, and what it changes: frames, scopes, variables, expressions, memory, instructions."""
from rows.session_breaks import LEAPS, NO_INSTRUCTION, at_instructions, at_lines, back
from rows.session_runs import EBREAK, ENTRY, GREATEST, PAUSE, STEP
from support.breaks import ADDRESS, at, is_not, is_set, on
from support.debugging import BAD_ARGUMENTS, INITIALIZED, TOO_MUCH, exits, printed, stopped
from support.looks import (BAD_EXPRESSION, BAD_MEMORY_REFERENCE, BAD_VALUE, BASE, END, NOT_WRITABLE, OUTSIDE_MEMORY, REGISTERS,
                           UNKNOWN_NAME, Looking, frame_at, frame_of_no_line, instruction, loaded, looking, no_instruction, registers,
                           stack, text)
from support.players import Row
from support.programs import CALLS, COUNTS, PRINTS, RECURS

PLAYER = "test_session"
PROFILE = "docs/PROTOCOL.md and docs/MACHINE.md, worked by hand"

# Calls itself for ever, from the second of two instructions.
DEEPENS = b"t: call t\n"
# RECURS with 256 calls of itself within the first: 257 in all.
RECURS_DEEPLY = RECURS.replace(b"li a0, 2", b"li a0, 256")
# No label before the second line, two at it, and data that has one.
LABELS = b"nop\na: b: nop\nebreak\nd: .word 0\n"
# Stands at its first instruction, with its two words of data behind the code.
DATA = b"_start: ebreak\nla t0, n\nlw a0, 0(t0)\nlw a1, 4(t0)\nebreak\nn: .word 1, 2\n"

# The words of CALLS, with their disassembly.
LISTING = [instruction(BASE + 4 * place, number, shown) for place, (number, shown) in enumerate([
    (0x00500513, "addi a0, zero, 5"), (0x00000097, "auipc ra, 0x0"), (0x010080e7, "jalr ra, 16(ra)"), (0x05d00893, "addi a7, zero, 93"),
    (0x00000073, "ecall"), (0x00150513, "addi a0, a0, 1"), (0x00008067, "jalr zero, 0(ra)")])]


def at_entry(file=CALLS):
    """The program stands at its first instruction."""
    return looking(file, stopOnEntry=True).slices(9, 0, "Stopped", ENTRY)


def in_registers():
    """The same. The frame has the number 1, its registers 2, and its stack 3."""
    return at_entry().trace([frame_at(1, BASE, "_start", 1)]).scopes(1, 2, 3)


# ---- frames


def in_a_recursion():
    """Frames and the words of the stack, over a call of a function that calls itself, and out of it."""
    script = loaded(RECURS).sets([at(9)], [is_set(1, 0x10024, 9)]).asks("configurationDone").slices(100, 7, "Stopped", at_lines(1))
    script.sets([], []).asks("next").slices(100, 13, "Stopped", STEP)
    script.trace([frame_at(1, 0x1002c, "g+24", 10), frame_at(2, 0x10008, "_start+8", 2)])
    script.scopes(1, 3, 4).lists(4, stack(0x1000c))
    script.asks("stepOut").slices(100, 3, "Stopped", STEP).trace([frame_at(5, 0x1000c, "_start+12", 3)])
    script.scopes(5, 6, 7).lists(7, []).lists(6, registers(0x1000c, ra=0x1000c))
    return script.asks("stepOut").slices(100, 1, "Ended", *exits(0))


def in_the_inner_call():
    """A frame stands at the call, and not where that returns to; each call has its own return address on the stack."""
    script = loaded(RECURS).sets([at(9)], [is_set(1, 0x10024, 9)]).asks("configurationDone").slices(100, 7, "Stopped", at_lines(1))
    script.trace([frame_at(1, 0x10024, "g+16", 9), frame_at(2, 0x10008, "_start+8", 2)])
    script.asks("continue").slices(100, 6, "Stopped", at_lines(1))
    script.trace([frame_at(3, 0x10024, "g+16", 9), frame_at(4, 0x10028, "g+20", 9), frame_at(5, 0x10008, "_start+8", 2)])
    script.scopes(3, 6, 7).lists(6, registers(0x10024, END - 8, ra=0x1002c)).lists(7, stack(0x1002c, 0x1000c))
    script.evaluates("[sp]", 0x1002c, frameId=3).evaluates("[sp + 4]", 0x1000c).evaluates("a0", 0, frameId=5)
    return script.sets([at(12)], [is_set(2, 0x10034, 12)]).asks("continue").slices(100, 3, "Stopped", at_lines(2)).trace(
        [frame_at(8, 0x10034, "d", 12), *(frame_at(9 + k, 0x10028, "g+20", 9) for k in (0, 1)), frame_at(11, 0x10008, "_start+8", 2)])


def of_some_frames():
    """A number is given to a frame when it is first shown, in the order of the frames that are asked for."""
    script = loaded(RECURS).sets([at(9, None, "2")], [is_set(1, 0x10024, 9)]).asks("configurationDone").slices(100, 13, "Stopped", at_lines(1))
    inner, outer, start = (0x10024, "g+16", 9), (0x10028, "g+20", 9), (0x10008, "_start+8", 2)
    script.trace([], 3, startFrame=3).trace([], 3, startFrame=GREATEST, levels=GREATEST)
    script.trace([frame_at(1, *outer)], 3, startFrame=1, levels=1).trace([frame_at(2, *inner), frame_at(1, *outer)], 3, levels=2)
    script.trace([frame_at(1, *outer), frame_at(3, *start)], 3, startFrame=1, levels=0)
    script.trace([frame_at(3, *start)], 3, startFrame=2, levels=GREATEST).trace([frame_at(3, *start)], 3, startFrame=2)
    return script.trace([frame_at(2, *inner), frame_at(1, *outer), frame_at(3, *start)], levels=3).scopes(2, 4, 5).scopes(1).scopes(3)


def deep(moves, count):
    """After so many moves of a program that deepens, two for each call, there are so many frames."""
    script = looking(DEEPENS).slices(moves, moves, "Spent").asks("pause").slices(9, 0, "Stopped", PAUSE)
    return script.trace([frame_at(1, BASE, "t", 1), *(frame_at(k, BASE + 4, "t+4", 1) for k in range(2, count + 1))])


def deep_in_parts():
    """257 frames, twenty at once, as an editor asks for them."""
    script = looking(DEEPENS).slices(600, 600, "Spent").asks("pause").slices(9, 0, "Stopped", PAUSE)
    shown = [frame_at(1, BASE, "t", 1), *(frame_at(k, BASE + 4, "t+4", 1) for k in range(2, 258))]
    for begin in range(0, 280, 20):
        script.trace(shown[begin:begin + 20], 257, startFrame=begin, levels=20)
    return script.trace(shown)


def pushed_out():
    """Of 257 calls the oldest is not kept. It does not come back where the others have returned, and is stepped out of all the same."""
    script = loaded(RECURS_DEEPLY).sets([at(12), at(10, "sp == 0x10fffc")], [is_set(1, 0x10034, 12), is_set(2, 0x1002c, 10)])
    script.asks("configurationDone").slices(9999, 1540, "Stopped", at_lines(1))
    script.trace([frame_at(1, 0x10034, "d", 12), *(frame_at(k, 0x10028, "g+20", 9) for k in range(2, 258))])
    script.sets([at(10, "sp == 0x10fffc")], [is_set(3, 0x1002c, 10)]).asks("continue").slices(9999, 766, "Stopped", at_lines(3))
    script.trace([frame_at(258, 0x1002c, "g+24", 10)]).asks("stepOut").slices(9, 3, "Stopped", STEP)
    return script.trace([frame_at(259, 0x1000c, "_start+12", 3)])


def names_of_frames():
    """Before the first label a frame has its address for a name; of two labels at one address it has the first; data has no line."""
    script = at_entry(LABELS).trace([frame_at(1, BASE, "0x00010000", 1)]).asks("next").slices(9, 1, "Stopped", STEP)
    script.trace([frame_at(2, 0x10004, "a", 2)]).asks("next").slices(9, 1, "Stopped", STEP).trace([frame_at(3, 0x10008, "a+4", 3)])
    script.asks("next").slices(9, 1, "Stopped", EBREAK).trace([frame_of_no_line(4, 0x1000c, "d")])
    return script.scopes(4, 5, 6).lists(5, [("zero", 0)], count=1)


def outside_the_program():
    """A frame beyond the image has its address for a name, and no line, however the editor counts."""
    illegal = stopped("exception", "illegal instruction")
    script = looking(LEAPS).slices(9, 3, "Stopped", illegal).trace([frame_of_no_line(1, 0x10fffc)])
    script.drops().connects().asks("initialize", linesStartAt1=False, columnsStartAt1=False).launches(LEAPS).asks("configurationDone")
    script.slices(9, 3, "Stopped", illegal).trace([frame_of_no_line(2, 0x10fffc)]).drops().begins(NO_INSTRUCTION)
    return script.slices(9, 1, "Stopped", illegal).trace([frame_of_no_line(3, 0x10004)]).scopes(3, 4, 5)


def from_0(line_base, column_base):
    """Lines and columns of frames are counted as the editor of the connection counts them, whatever the one before it did."""
    script = looking(RECURS).drops().connects().asks("initialize", linesStartAt1=bool(line_base), columnsStartAt1=bool(column_base))
    script.launches(RECURS).sets([at(8 + line_base)], [is_set(1, 0x10024, 8 + line_base)]).asks("configurationDone")
    script.slices(100, 7, "Stopped", at_lines(1))
    script.trace([frame_at(1, 0x10024, "g+16", 8 + line_base, column=column_base),
                  frame_at(2, 0x10008, "_start+8", 1 + line_base, column=column_base)])
    script.drops().begins(RECURS, stopOnEntry=True).slices(9, 0, "Stopped", ENTRY)
    return script.trace([frame_at(3, BASE, "_start", 1)])


# Paths of programs, and the names of their sources.
PATHS = [("p.s", "p.s"), ("/p.s", "p.s"), ("/w/", ""), ("", ""), ("/w/\"é\\.s", "\"é\\.s"), ("C:\\p.s", "C:\\p.s")]


def of_a_source(path, name):
    script = Looking().connects().asks("initialize").asks("launch", file=CALLS, events=[INITIALIZED], program=path, stopOnEntry=True)
    script.asks("configurationDone").slices(9, 0, "Stopped", ENTRY)
    return script.trace([{**frame_at(1, BASE, "_start", 1), "source": {"name": name, "path": path}}])


# ---- variables


def after_output():
    """Registers are those of the stop, and not those of the start."""
    script = looking(PRINTS).slices(100, 4, "Stopped", printed(7), EBREAK).trace([frame_at(1, 0x10010, "e", 5)]).scopes(1, 2, 3)
    return script.lists(2, registers(0x10010, a0=7, a7=1)).lists(3, [])


def some_of_the_registers():
    whole = registers(BASE)
    script = in_registers().lists(2, whole).lists(2, whole, filter="named").lists(2, [], filter="indexed").lists(2, [], filter="indexed", count=9)
    script.lists(2, whole[10:18], start=10, count=8).lists(2, whole[10:18], start=10, count=8, filter="named").lists(2, whole[:1], count=1)
    script.lists(2, whole, count=0).lists(2, whole[1:], start=1).lists(2, whole[32:], start=32, count=9).lists(2, [], start=33)
    return script.lists(2, [], start=GREATEST, count=GREATEST).lists(2, whole, start=0, count=GREATEST)


def words_of_the_stack():
    """The words from sp on, at whatever address that is, while all four bytes of each are in memory; 64 of them at most."""
    script = in_registers().lists(3, []).writes("0x0010fff9", bytes(range(1, 8)), 7)
    for sp, words in ((END - 7, (0x04030201,)), (END - 8, (0x03020100, 0x07060504)), (END - 4, (0x07060504,)), (END - 3, ()), (END, ()),
                      (0, ()), (BASE - 1, ()), (BASE - 4, ()), (0xfffffffe, ()), (END - 252, (*[0] * 61, 0x03020100, 0x07060504)),
                      (END - 256, (*[0] * 62, 0x03020100, 0x07060504)), (END - 260, (*[0] * 63, 0x03020100)), (END - 264, (*[0] * 64,))):
        script.sets_variable(2, "sp", str(sp), sp).lists(3, stack(*words))
    script.sets_variable(2, "sp", str(BASE), BASE).lists(3, stack(0x00500513, 0x00000097), count=2)
    script.lists(3, stack(0x00500513, 0x97, 0x010080e7)[1:], start=1, count=2).lists(3, [], filter="indexed").lists(3, [], start=64)
    return script.lists(3, stack(*[0] * 64)[63:], start=63, filter="named")


def set_registers():
    """A register takes the value that is set, in each form of a number, and the program goes on with it."""
    script = in_registers()
    for value, wanted in (("-1", 0xffffffff), ("0", 0), ("4294967295", 0xffffffff), ("-2147483648", 0x80000000), ("0x2a", 42),
                          ("0xFfFfFfFf", 0xffffffff), ("0x0000002A", 42), ("007", 7), ("-0", 0), ("00000000000000000000000000000000042", 42)):
        script.sets_variable(2, "a0", value, wanted).evaluates("a0", wanted)
    for value in ("", "z", "+1", "--1", "1 ", " 1", "1.0", "0x", "0X1", "-0x1", "0x000000001", "0x1g", "4294967296", "-2147483649", "1e3",
                  "a0", "٣"):
        script.sets_variable(2, "a0", value, BAD_VALUE)
    script.lists(2, registers(BASE, a0=42))
    for number, name in enumerate(REGISTERS[1:], 1):
        script.sets_variable(2, name, str(number), number)
    return script.lists(2, registers(BASE, **{name: number for number, name in enumerate(REGISTERS)})).asks("next").slices(9, 1, "Stopped", STEP)


def not_set():
    """What is no name of the list, then what cannot be written, then what is no value; nothing changes, and the program goes on as it would."""
    script = in_registers()
    for name in ("zero", "pc"):
        script.sets_variable(2, name, "1", NOT_WRITABLE).sets_variable(2, name, "z", NOT_WRITABLE)
    for name in ("q", "", "x1", "x0", "fp", "A0", "PC", "a0 ", " a0", "sp+0", "Registers"):
        script.sets_variable(2, name, "1", UNKNOWN_NAME).sets_variable(2, name, "z", UNKNOWN_NAME)
    return script.lists(2, registers(BASE)).asks("continue").slices(9, 6, "Ended", *exits(6))


def not_set_in_the_stack():
    """A word of the stack cannot be written. What is no word of it, as there is no further one, is no name of the list."""
    script = in_registers().sets_variable(3, "sp+0", "1", UNKNOWN_NAME).sets_variable(2, "sp", "0x0010fff8", END - 8)
    for name in ("sp+0", "sp+4"):
        script.sets_variable(3, name, "1", NOT_WRITABLE).sets_variable(3, name, "z", NOT_WRITABLE)
    for name in ("sp+8", "sp+1", "sp", "a0", "pc", "zero", "sp+00", "sp+04", "sp-4", "", "SP+0"):
        script.sets_variable(3, name, "1", UNKNOWN_NAME).sets_variable(3, name, "z", UNKNOWN_NAME)
    script.lists(3, stack(0, 0)).sets_variable(2, "sp", str(BASE), BASE).sets_variable(3, "sp+252", "1", NOT_WRITABLE)
    return script.sets_variable(3, "sp+256", "1", UNKNOWN_NAME).lists(3, stack(0x00500513), count=1)


def set_and_gone_on():
    """The program goes on with what was set: here it leaves its function for another address, and with another code."""
    script = loaded(CALLS).sets([at(6)], [is_set(1, 0x10018, 6)]).asks("configurationDone").slices(9, 4, "Stopped", at_lines(1))
    script.trace([frame_at(1, 0x10018, "f+4", 6), frame_at(2, 0x10008, "_start+8", 2)]).scopes(1, 3, 4).lists(3, registers(0x10018, ra=0x1000c, a0=6))
    script.sets_variable(3, "a0", "0x0000002a", 42).sets_variable(3, "ra", str(0x10010), 0x10010).sets_variable(3, "a7", "93", 93)
    script.lists(3, registers(0x10018, ra=0x10010, a0=42, a7=93)).trace([frame_at(1, 0x10018, "f+4", 6), frame_at(2, 0x10008, "_start+8", 2)])
    return script.asks("continue").slices(9, 1, "Ended", *exits(42))


# ---- expressions


def at_an_instruction():
    script = loaded(CALLS).sets_at_instructions([on("0x00010010", 4), on("0x00010010", 2)], [is_set(1, 0x10014), is_not(ADDRESS)])
    script.asks("configurationDone").slices(100, 3, "Stopped", at_instructions(1)).evaluates("a0 * 2 - 1", 9).evaluates("-1 < 1", 1)
    script.evaluates("1 +", BAD_EXPRESSION).evaluates("[0]", BAD_EXPRESSION)
    script.trace([frame_at(1, 0x10014, "f", 5), frame_at(2, 0x10008, "_start+8", 2)]).scopes(1, 3, 4).sets_variable(3, "a0", "-1", 0xffffffff)
    script.sets_variable(3, "zero", "1", NOT_WRITABLE).sets_variable(3, "q", "1", UNKNOWN_NAME).sets_variable(3, "a0", "z", BAD_VALUE)
    return script.lists(3, registers(0x10014, ra=0x1000c, a0=0xffffffff)).asks("continue").slices(100, 3, "Ended", *exits(0))


def expressions():
    """The hart is seen as it is from any frame and from none; what the editor says of the place does not matter."""
    script = loaded(CALLS).sets([at(5)], [is_set(1, 0x10014, 5)]).asks("configurationDone").slices(9, 3, "Stopped", at_lines(1))
    script.trace([frame_at(1, 0x10014, "f", 5), frame_at(2, 0x10008, "_start+8", 2)])
    for frame in (1, 2, None):
        script.evaluates("pc", 0x10014, frameId=frame, context="hover").evaluates("ra + 0", 0x1000c, frameId=frame, format={"hex": False})
    for shown, wanted in ((" \ta0\t ", 5), ("x10", 5), ("fp", 0), ("zero", 0), ("4294967295 + 2", 1), ("[pc]", 0x00150513), ("1 || [0]", 1),
                          ("0 && [0]", 0), ("[0x10fffc]", 0), ("(" * 64 + "7" + ")" * 64, 7), ("0" * 1021 + "255", 255)):
        script.evaluates(shown, wanted, frameId=1)
    for shown in ("", " ", "q", "A0", "a0 =", "a0 = 1", "a0;", "0x", "4294967296", "[0x10fffd]", "[0x110000]", "[0xffff]", "(" * 65 + "7" + ")" * 65,
                  "0" * 1022 + "255", "1\n", "\u00a0a0", "sp+0 +"):
        script.evaluates(shown, BAD_EXPRESSION, frameId=1)
    return script.asks("evaluate", BAD_ARGUMENTS, expression=1).asks("evaluate", BAD_ARGUMENTS, expression="a0", frameId="1")


# ---- memory


def code_that_is_written_over():
    """An instruction that was executed before, and is written over, is executed as it is now."""
    script = loaded(COUNTS).sets([at(2)], [back(1)]).asks("configurationDone").slices(99, 4, "Stopped", at_lines(1)).evaluates("a0", 1)
    script.writes("0x0001000c", b"\x13\x05\x25\0", 4).asks("continue").slices(99, 5, "Stopped", at_lines(1)).evaluates("a0", 3)
    assert b'"data":"EwUlAA=="' in script.sent
    script.reads("0x0010fffc", 8, 0x10fffc, bytes(4), 4).reads("0x0010fffc", 0, 0x10fffc, b"")
    script.asks("readMemory", OUTSIDE_MEMORY, memoryReference="0x00110000", count=1)
    return script.disassembles("0x0001000c", 1, [instruction(0x1000c, 0x00250513, "addi a0, a0, 2")])


def bytes_at_the_end():
    """As many bytes as memory has are shown, and how many of those asked for are missing."""
    script = at_entry().reads("0x0010fffc", 8, 0x10fffc, bytes(4), 4).reads("0x0010fffc", 0, 0x10fffc, b"")
    script.asks("readMemory", OUTSIDE_MEMORY, memoryReference="0x00110000", count=1).reads("0x00110000", 0, 0x110000, b"")
    script.reads("0x0010ffff", 65536, 0x10ffff, b"\0", 65535).reads("0x0010ffff", 1, 0x10ffff, b"\0")
    script.asks("readMemory", OUTSIDE_MEMORY, memoryReference="0x0000ffff", count=2).reads("65536", 4, BASE, b"\x13\x05\x50\0")
    script.reads("0x00010004", 4, BASE, b"\x13\x05\x50\0", offset=-4).reads("0", 2, BASE + 1, b"\x05\x50", offset=65537)
    script.reads("0xffffffff", 0, 0xffffffff, b"").asks("readMemory", OUTSIDE_MEMORY, memoryReference="0xffffffff", offset=1, count=0)
    script.asks("readMemory", OUTSIDE_MEMORY, memoryReference="0xffffffff", offset=65537, count=4)
    return script.asks("readMemory", OUTSIDE_MEMORY, memoryReference="0", offset=-1, count=0)


def bytes_of_the_start():
    """65,536 bytes at most are shown at once, and 65,536 are written; one more is refused, and changes nothing."""
    written = bytes(range(256)) * 256
    script = at_entry().writes("0x00020000", written, 65536).does("turn", "Nothing").reads("0x00020000", 65536, 0x20000, written)
    script.asks("readMemory", TOO_MUCH, memoryReference="0x00020000", count=65537).asks("readMemory", TOO_MUCH, memoryReference="0", count=GREATEST)
    script.writes("0x00020000", bytes(65537), TOO_MUCH).writes("0x00020000", bytes(65537), TOO_MUCH, allowPartial=True)
    return script.reads("0x0001fffe", 4, 0x1fffe, b"\0\0\0\x01").reads("0x0002fffe", 4, 0x2fffe, b"\xfe\xff\0\0")


def written_past_the_end():
    """What does not fit is not written at all, unless a part may be."""
    script = at_entry().writes("0x0010fffe", b"\1\2\3\4", OUTSIDE_MEMORY).writes("0x0010fffe", b"\1\2\3\4", OUTSIDE_MEMORY, allowPartial=False)
    script.reads("0x0010fffc", 4, 0x10fffc, bytes(4)).writes("0x0010fffe", b"\1\2\3\4", 2, allowPartial=True)
    script.reads("0x0010fffc", 4, 0x10fffc, b"\0\0\1\2")
    script.writes("0x0010ffff", b"\7", 1, allowPartial=True).writes("0x0010fffd", b"\6\6\6", 3).reads("0x0010fffc", 4, 0x10fffc, b"\0\6\6\6")
    for reference, offset in (("0x00110000", 0), ("0x0000ffff", 0), ("0", 0), ("0xffffffff", 0), ("0xffffffff", 65537), ("65536", -1)):
        script.writes(reference, b"\1\2", OUTSIDE_MEMORY, offset=offset, allowPartial=True).writes(reference, b"\1\2", OUTSIDE_MEMORY, offset=offset)
    return script.reads("0x00010000", 4, BASE, b"\x13\x05\x50\0")


def nothing_written():
    """Where nothing is written any address will do."""
    script = at_entry()
    for reference in ("0", "0x00010000", "0x00110000", "4294967295"):
        script.writes(reference, b"", 0).writes(reference, b"", 0, allowPartial=True)
    script.writes("4294967295", b"", OUTSIDE_MEMORY, offset=1).writes("0", b"", OUTSIDE_MEMORY, offset=-1, allowPartial=True)
    return script.writes("4294967295", b"", 0, offset=-2147483648)


def bad_data():
    """Data that is no base64, in one of its forms, is a bad argument, and nothing is written."""
    script = at_entry()
    for data in ("A", "AA", "AA=", "AB==", "AAB=", "A A=", "AA==\n", "AA-_", "=", "AAAA=", None, 1):
        script.asks("writeMemory", BAD_ARGUMENTS, memoryReference="65536", data=data)
    script.asks("writeMemory", BAD_ARGUMENTS, memoryReference="65536", data="AA==", allowPartial=1)
    return script.reads("0x00010000", 4, BASE, b"\x13\x05\x50\0")


def data_that_is_written():
    """Words that an editor writes are those that the program loads, at any address and over the bound of a page."""
    script = looking(DATA).slices(9, 1, "Stopped", EBREAK).reads("0x00010018", 8, 0x10018, b"\1\0\0\0\2\0\0\0").writes("0x00010019", b"\7\0\0\7", 4)
    script.asks("continue").slices(9, 5, "Stopped", EBREAK).evaluates("a0", 0x00000701).evaluates("a1", 0x00000007)
    script.writes("0x0001fffe", b"\1\2\3\4", 4).evaluates("[0x1fffc]", 0x02010000).evaluates("[0x20000]", 0x0403)
    script.asks("restart").slices(9, 1, "Stopped", EBREAK).reads("0x00010018", 8, 0x10018, b"\1\0\0\0\2\0\0\0")
    return script.reads("0x0001fffe", 4, 0x1fffe, bytes(4))


def written_to_new_pages():
    """A write into pages that were not written takes memory. Where it finds none nothing is answered, and the turn comes again."""
    script = looking(DATA).slices(9, 1, "Stopped", EBREAK).writes("0x00080ffe", b"\1\2\3\4", 4).reads("0x00080ffd", 6, 0x80ffd, b"\0\1\2\3\4\0")
    return script.writes("0x00080ffe", b"\5", 1).reads("0x00080ffe", 2, 0x80ffe, b"\5\2").evaluates("[0x80ffc]", 0x02050000)


BAD_REFERENCES = ("", "0x", "0X00010000", "0x000010000", " 0x00010000", "65536 ", "+65536", "-65536", "4294967296", "0x100010000", "sp", "1e5")


def bad_references():
    script = at_entry()
    for reference in BAD_REFERENCES:
        script.asks("readMemory", BAD_MEMORY_REFERENCE, memoryReference=reference, count=65537)
        script.asks("disassemble", BAD_MEMORY_REFERENCE, memoryReference=reference, instructionCount=4097)
        script.writes(reference, b"\1", BAD_MEMORY_REFERENCE)
    return script


def too_much_outside():
    """Too much is refused before it is looked at where it is."""
    script = at_entry().asks("readMemory", TOO_MUCH, memoryReference="0", offset=-1, count=65537).writes("0", bytes(65537), TOO_MUCH)
    return script.asks("disassemble", TOO_MUCH, memoryReference="0", offset=-1, instructionCount=4097)


# ---- instructions


def instructions():
    """Memory is listed as it is, before, in and after the program."""
    script = at_entry().disassembles("0x00010000", 3, [no_instruction(0xfff8), no_instruction(0xfffc), LISTING[0]], instructionOffset=-2)
    script.disassembles("0x00010000", 8, [*LISTING, instruction(0x1001c, 0, ".word 0x00000000")], resolveSymbols=True)
    script.disassembles("0x00010008", 2, LISTING[1:3], instructionOffset=-1).disassembles("0x00010008", 2, LISTING[1:3], offset=-4)
    script.disassembles("65536", 0, []).disassembles("0x00010002", 1, [no_instruction(0x10002)]).disassembles("0x0010fffc", 2, [
        instruction(0x10fffc, 0, ".word 0x00000000"), no_instruction(0x110000)])
    script.writes("0x00010000", b"\x6f\0\0\0", 4).disassembles("65536", 2, [instruction(BASE, 0x6f, "jal zero, 0x00010000"), LISTING[1]])
    return script.disassembles("0", 2, [no_instruction(0xfffffffc), no_instruction(0)], instructionOffset=-1)


def most_instructions():
    """4,096 instructions: the answer is longer than what may wait."""
    script = at_entry().sends("disassemble", memoryReference="0x00020000", instructionCount=4096).sends("threads")
    body = text({"instructions": [instruction(0x20000 + 4 * place, 0, ".word 0x00000000") for place in range(4096)]})
    script.answers("disassemble", body=body, seq=script.asked - 1).does("turn", "Full").takes().answers("threads").takes()
    return script.asks("disassemble", TOO_MUCH, memoryReference="0x00020000", instructionCount=4097)


ROWS = [
    Row("frames and the stack over a call in a recursion, and out of it", in_a_recursion().steps, PROFILE, refused=True),
    Row("frames and the stack in the inner call of a recursion", in_the_inner_call().steps, PROFILE),
    Row("some of the frames", of_some_frames().steps, PROFILE, refused=True),
    *(Row("%d frames of a program that calls itself for ever" % count, deep(moves, count).steps, PROFILE)
      for moves, count in ((0, 1), (2, 2), (510, 256), (512, 257), (514, 257), (10000, 257))),
    Row("257 frames, twenty at once", deep_in_parts().steps, PROFILE),
    Row("calls that were pushed out do not come back", pushed_out().steps, PROFILE),
    Row("names of frames", names_of_frames().steps, PROFILE),
    Row("frames outside the program", outside_the_program().steps, PROFILE),
    *(Row("frames with lines from %d and columns from %d" % bases, from_0(*bases).steps, PROFILE) for bases in ((0, 0), (0, 1), (1, 0), (1, 1))),
    *(Row("frames of the source %r" % path, of_a_source(path, name).steps, PROFILE) for path, name in PATHS),
    Row("registers after what was printed", after_output().steps, PROFILE),
    Row("some of the registers", some_of_the_registers().steps, PROFILE),
    Row("words of the stack", words_of_the_stack().steps, PROFILE),
    Row("registers that are set", set_registers().steps, PROFILE),
    Row("registers that cannot be set", not_set().steps, PROFILE),
    Row("words of the stack cannot be set", not_set_in_the_stack().steps, PROFILE),
    Row("a program goes on with the registers that were set", set_and_gone_on().steps, PROFILE, refused=True),
    Row("values, and a register that is set, at an instruction", at_an_instruction().steps, PROFILE, refused=True),
    Row("expressions from each frame", expressions().steps, PROFILE),
    Row("code that is written over", code_that_is_written_over().steps, PROFILE, refused=True),
    Row("bytes at the end of memory", bytes_at_the_end().steps, PROFILE),
    Row("65,536 bytes, and one more", bytes_of_the_start().steps, PROFILE),
    Row("bytes that are written past the end of memory", written_past_the_end().steps, PROFILE),
    Row("no bytes are written", nothing_written().steps, PROFILE),
    Row("data that is no base64", bad_data().steps, PROFILE),
    Row("data that is written is loaded", data_that_is_written().steps, PROFILE),
    Row("data that is written to new pages", written_to_new_pages().steps, PROFILE, refused=True),
    Row("memory references that are none", bad_references().steps, PROFILE),
    Row("too much is refused before where it is", too_much_outside().steps, PROFILE),
    Row("instructions as memory has them", instructions().steps, PROFILE),
    Row("4,096 instructions, and one more", most_instructions().steps, PROFILE),
]
