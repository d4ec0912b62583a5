"""The tables in tests/rows, played: for each row what a layer is asked, command by command, and what it has to answer.

A table is a module with PLAYER, the crate of the program that plays it, and ROWS. A player reads commands, each of them a line of
arguments, and prints for each a line with what the layer answered; it expects nothing.
"""
import glob
import importlib
import os
import subprocess
from dataclasses import dataclass
from itertools import zip_longest

from support.allocations import each_refusal
from support.program import TOP, expect

SECONDS = 120
NO_MEMORY = "NoMemory"


@dataclass
class Row:
    """Commands and their answers, from a fresh start of the layer.

    steps: pairs of a command and the answer that is expected. source: where the expected answers come from. refused: where the row is
    also played without memory, one allocation of how many is refused in turn: True, which is 1, is each. otherwise: lists of answers, each
    of which comes then in place of those of the steps, where a command that is not made again found no memory."""
    name: str
    steps: list
    source: str
    refused: int = False
    otherwise: list = ()


def program_of(player):
    return os.path.join(TOP, "crates", player, "out", player)


def play(player, lines, environment=None):
    """Plays the commands, and answers the lines that come and the status."""
    ran = subprocess.run([program_of(player)], input="".join(line + "\n" for line in lines), env=environment, stdout=subprocess.PIPE,
                         encoding="utf-8", timeout=SECONDS)
    return ran.stdout.splitlines(), ran.returncode


def shown(line):
    """A line as a message shows it, without the middle of a long one."""
    return repr(line) if line is None or len(line) <= 200 else "%r .. %r (%d characters)" % (line[:80], line[-80:], len(line))


def expect_answers(lines, row):
    """Fails at the first answer that differs from the expected one, is missing, or is one too many."""
    for number, (answer, step) in enumerate(zip_longest(lines, row.steps), 1):
        command, wanted = step or (None, None)
        if answer != wanted:
            raise AssertionError("%s: command %d, %s, was answered with %s, and not with %s (%s)"
                                 % (row.name, number, shown(command), shown(answer), shown(wanted), row.source))


def is_played(player, row):
    lines, status = play(player, [command for command, _ in row.steps])
    expect_answers(lines, row)
    expect(status, 0, "%s: the status" % row.name)
    expect(bool(row.steps), True, "%s: there are steps" % row.name)


def tried(name, source, *groups):
    """A row of groups of calls, in each of which one that is not made again may find no memory: commands with the answer that comes where it finds
    some, and the one that comes where it finds none."""
    steps = [(command, answer) for group in groups for command, answer, _ in group]
    without = [[none if group is other else answer for group in groups for _, answer, none in group]
               for other in groups if any(none == NO_MEMORY for _, _, none in other)]
    return Row(name, steps, source, refused=True, otherwise=without)


def alike(*steps):
    """Commands of which the answers are the same either way."""
    return [(command, answer, answer) for command, answer in steps]


def without_the_line(lines):
    """The lines without the first that tells that a call found no memory and was made again."""
    at = lines.index(NO_MEMORY) if NO_MEMORY in lines else len(lines)
    return lines[:at] + lines[at + 1:]


def is_a(command, words):
    """Whether a command begins with these words."""
    return (command + " ").startswith(words + " ")


def is_played_without_memory(player, row, takes_none=()):
    """Allocations refused in turn: the answers are the same, with a line where a call found no memory. Where the player itself found
    none, it ends with status 3, and the answers so far are the first ones. takes_none: the words with which calls begin that take no memory."""
    def once(environment):
        lines, status = play(player, [command for command, _ in row.steps], environment)
        which = "%s, allocation %s refused" % (row.name, environment["REFUSE_ALLOC"])
        expect(status in (0, 3), True, "%s: the status %d is right" % (which, status))
        if NO_MEMORY in lines and lines.index(NO_MEMORY) < len(row.steps):
            command = row.steps[lines.index(NO_MEMORY)][0]
            expect([words for words in takes_none if is_a(command, words)], [], "%s: %s takes no memory, and found none" % (which, shown(command)))
        others = [other for other in row.otherwise if lines == first_of(other, lines, status)]
        if not others:
            rest = without_the_line(lines)
            expect_answers(rest, Row(which, first_of(row.steps, rest, status), row.source))
        return NO_MEMORY in lines and status == 0, others if status == 0 else []

    runs = each_refusal(once, int(row.refused))
    expect(any(found_none for found_none, _ in runs), True, "%s: a call found no memory" % row.name)
    for other in row.otherwise:
        expect(any(other in others for _, others in runs), True, "%s: the other answers came: %s" % (row.name, shown(" / ".join(other))))


def first_of(wanted, lines, status):
    """What is wanted of a run: all, or where the player found no memory as much as there are lines."""
    return wanted if status == 0 else wanted[:len(lines)]


def tables():
    """The name and the module of each table."""
    for path in sorted(glob.glob(os.path.join(TOP, "tests", "rows", "[!_]*.py"))):
        name = os.path.splitext(os.path.basename(path))[0]
        yield name, importlib.import_module("rows." + name)
