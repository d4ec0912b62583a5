"""The built program with each allocation refused in turn, and what asks for no allocation."""
from support.allocations import ends_well_without_memory, how_many
from support.players import play
from support.program import expect, run
from support.texts import ANSWERS, SESSION


def the_program_ends_well_without_memory():
    ends_well_without_memory(lambda environment: run(SESSION, environment=environment), ANSWERS)


FRAME = b"Content-Length: 40\r\n\r\n" + b"x" * 40


def asks_for_no_growth(first, wanted):
    """After the first piece a thousand turns, each of which lends a body and feeds a frame, ask for no more memory than none. An unframer that copies bodies
    out asks for a thousand allocations more."""
    def asked(turns):
        lines = ["new 100", "feed " + first.hex(), "turns %d %s" % (turns, FRAME.hex())]
        count, gave = how_many(lambda environment: play("test_messages", lines, environment))
        expect(gave, (["ok", "ok", "true"], 0), "the answers with %d turns" % turns)
        return count

    expect(asked(1000) - asked(0), 0, wanted)


def frames_that_are_read_at_once_ask_for_no_growth():
    asks_for_no_growth(FRAME, "the growths of a thousand feeds where all was read")


def frames_of_which_half_is_read_ask_for_no_growth():
    asks_for_no_growth(FRAME + FRAME, "the growths of a thousand feeds where just half was read")


def checks():
    """Each check with its name."""
    return [(check.__name__.replace("_", " "), check) for check in (
        the_program_ends_well_without_memory,
        frames_that_are_read_at_once_ask_for_no_growth,
        frames_of_which_half_is_read_ask_for_no_growth,
    )]
