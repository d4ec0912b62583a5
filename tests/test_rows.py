"""The tables in tests/rows, played row by row, and what every player makes of a line that is no command."""
import subprocess
from functools import partial

from support.players import SECONDS, is_played, is_played_without_memory, play, program_of, tables
from support.program import expect


def what_is_no_command_ends_a_run():
    for line in ("fed 00", "feed", "feed 00 00", "feed 0", "feed 0g", "new", "new x", "new 4294967296", "next ", " next", ""):
        expect(play("test_messages", ["new 5", line, "next"]), (["ok", "?"], 2), "the answers with the line %r" % line)


def an_answer_that_is_not_taken_ends_a_run():
    with open("/dev/full", "wb") as full:
        ran = subprocess.run([program_of("test_messages")], input=b"new 5\nnext\n", stdout=full, timeout=SECONDS)
    expect(ran.returncode, 1, "the status with a full device")


def checks():
    """Each check with its name: of the players, and a row played, where it says so with each allocation refused too."""
    found = [(check.__name__.replace("_", " "), check) for check in (what_is_no_command_ends_a_run, an_answer_that_is_not_taken_ends_a_run)]
    for table, module in tables():
        for row in module.ROWS:
            found.append(("%s: %s" % (table, row.name), partial(is_played, module.PLAYER, row)))
            if row.refused:
                which = "each allocation" if row.refused == 1 else "one allocation of %d" % row.refused
                takes_none = tuple(getattr(module, "TAKES_NONE", {}).values())
                found.append(("%s: %s, %s refused" % (table, row.name, which), partial(is_played_without_memory, module.PLAYER, row, takes_none)))
    return found
