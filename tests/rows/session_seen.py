"""Snapshots: what there is to see of a session, with the queries of a mirror, whether an editor was told of it or not."""
from rows.session_breaks import at_lines
from rows.session_runs import EBREAK, ENTRY
from support.breaks import at, is_set
from support.debugging import PATH, exits, printed
from support.looks import BASE, END, Looking, frame_at, loaded, looking
from support.players import Row
from support.programs import CALLS, PRINTS, RECURS

PLAYER = "test_session"
PROFILE = "docs/MACHINE.md and docs/PROTOCOL.md, worked by hand"
NONE = "none"


def sees(script, **answers):
    """What a snapshot answers to each of these queries, of which `_` stands for a space."""
    for query, wanted in answers.items():
        script.does("seen " + query.replace("_", " ").replace("source break", "source_break %s" % PATH).replace("instruction break", "instruction_break"), str(wanted))
    return script


def nothing():
    """Without a program nothing is to be seen."""
    return sees(Looking(), run="Unknown", path=NONE, source_break_0=NONE, instruction_break_0=NONE, frame_0=NONE, register_32=NONE, register_0=NONE,
                **{"byte_%d" % BASE: NONE, "printed": "Unknown"})


def an_entry():
    """A program stands at its entry. Its memory has its image, and 0 after it."""
    script = looking(CALLS, stopOnEntry=True).slices(9, 0, "Stopped", ENTRY)
    sees(script, run="Stopped", path=PATH, frame_0="0 %d _start" % BASE, frame_1=NONE, register_0=0, register_2=END, register_10=0, register_32=BASE, register_33=NONE,
         source_break_0=NONE, instruction_break_0=NONE)
    return sees(script, **{"byte_%d" % BASE: 0x13, "byte_%d" % (BASE + 1): 0x05, "byte_%d" % (BASE + 2): 0x50, "byte_%d" % (END - 1): 0, "byte_%d" % END: NONE, "byte_%d" % (BASE - 1): NONE})


def a_breakpoint():
    """A breakpoint, frames in a call of a function by itself, and their numbers: 0 before they are given."""
    script = loaded(RECURS).sets([at(9)], [is_set(1, 0x10024, 9)]).asks("configurationDone").slices(100, 7, "Stopped", at_lines(1))
    sees(script, source_break_0="1 %d" % 0x10024, source_break_1=NONE, frame_0="0 %d g+16" % 0x10024, frame_1="0 %d _start+8" % 0x10008, frame_2=NONE)
    script.trace([frame_at(1, 0x10024, "g+16", 9), frame_at(2, 0x10008, "_start+8", 2)])
    return sees(script, frame_0="1 %d g+16" % 0x10024, frame_1="2 %d _start+8" % 0x10008, register_1=0x1000c, register_2=END - 4, register_10=1)


def an_end():
    """The end has its code; the machine is as it was left."""
    script = loaded(CALLS).asks("configurationDone").slices(100, 6, "Ended", *exits(6))
    return sees(script, run="Ended(Some(6))", register_10=6, register_17=93, register_32=0x10010)


def what_was_printed():
    """A snapshot can be made that of the program as it ran."""
    script = loaded(PRINTS).asks("configurationDone").slices(100, 4, "Stopped", printed(7), EBREAK)
    return sees(script, run="Stopped", printed="Running", register_10=7, register_32=0x10010)


ROWS = [
    Row("nothing is to be seen without a program", nothing().steps, PROFILE),
    Row("what is to be seen at an entry", an_entry().steps, PROFILE, refused=True),
    Row("what is to be seen at a breakpoint", a_breakpoint().steps, PROFILE, refused=True),
    Row("what is to be seen of a program that ended", an_end().steps, PROFILE),
    Row("what is to be seen after output", what_was_printed().steps, PROFILE),
]
