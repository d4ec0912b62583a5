"""What a person sees of the proofs: a line for each crate that is proved, and on a terminal a last line that moves.

All that `rt` says is in a log.
"""
import re
import shutil
import sys
import time

SHOWN = 40


class Progress:
    """total: how many crates there are. proved: how many of them were proved before."""

    def __init__(self, log, total, proved):
        self.log, self.total, self.proved = open(log, "w", encoding="utf-8"), total, proved
        self.said, self.functions, self.began = {}, {}, time.monotonic()
        self.moves = sys.stdout.isatty()

    def begins(self, name):
        self.said[name], self.functions[name] = [], ""

    def hears(self, name, line):
        """A line that `rt` says of a crate."""
        self.log.write("%s: %s\n" % (name, line))
        self.log.flush()
        self.said[name] = [*self.said[name][1 - SHOWN:], line]
        if found := re.match(r"so far: (\d+ of \d+) functions", line):
            self.functions[name] = found[1] + " functions"
        elif found := re.match(r"logic=proved functions=(\d+)", line):
            self.functions[name] = found[1] + " functions"
        self.move()

    def ends(self, name):
        """A crate is proved."""
        self.proved += 1
        self.shows("[%2d/%d] %-14s %14s  %s" % (self.proved, self.total, name, self.functions.pop(name) or "unchanged", self.clock()))
        self.move()

    def fails(self, name, status, log):
        del self.functions[name]
        why = "%s is not proved: rt ended with status %d. All that was said is in %s" % (name, status, log)
        self.shows("\n".join([*self.said[name], why]))

    def shows(self, text):
        """Prints lines, in place of the one that moves."""
        print("\r\033[K" * self.moves + text, flush=True)

    def move(self):
        if self.moves:
            crates = ", ".join("%s %s" % it for it in self.functions.items())
            text = "[%2d/%d] %s  %s" % (self.proved, self.total, crates, self.clock())
            print("\r\033[K" + text[:shutil.get_terminal_size().columns - 1], end="", flush=True)

    def clock(self):
        return "%d:%02d" % divmod(int(time.monotonic() - self.began), 60)
