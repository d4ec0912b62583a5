"""Breaks the clauses of `.rt` files that are longer than 100 columns, for tools/wrap."""
import re

MOST = 100
STEP = 4
# A line has this much of a clause at least.
LEAST = 24
OPENING, CLOSING = "([{", ")]}"
BEGINS = re.compile(r"(ensures|requires|ghost invariant|ghost view|invariant)\b")
# What a line best begins with, in this order: an operator; else an argument.
OPERATORS = (("→ ", 0), ("× ", 1), ("↔ ", 1), ("≡ ", 2), ("|| ", 2), ("++ ", 3), ("∷ ", 4), ("+ ", 4), ("(λ", 5), ("(", 6), ("record {", 6), ("λ ", 7))
OTHERWISE = 8
# After these words, and between a lambda and its body, nothing is broken.
BINDS = re.compile(r"(^|[\s(])λ( [^.]*)?$|λ [^.()]*\.$|\b(ensures|requires|invariant|view|record|then|if|let)$|[={]$|ensures \w+$")


def depths(text):
    """How many brackets are open before each character."""
    found, opened = [], 0
    for character in text:
        opened -= character in CLOSING
        found.append(opened)
        opened += character in OPENING
    return found


def rank(text, at):
    """How well a line ends at this blank: the less, the better."""
    for begins, place in OPERATORS:
        if text.startswith(begins, at + 1):
            return place
    return 5 if text[:at].endswith((";", ",")) else OTHERWISE


def can_break(text, at):
    return not text[:at].count('"') % 2 and not BINDS.search(text[:at]) and text[at + 1] != "}"


def weight(place):
    """By how much an operator is better than an argument one bracket further out."""
    return 0 if place < 5 else 0.5 if place < OTHERWISE else 1.2


def lines_of(text, indent, further):
    """The lines of a clause: each ends where fewest brackets are open. Those after the first have the further indent."""
    lines = []
    while indent + len(text) > MOST:
        depth = depths(text)
        places = [at for at in range(LEAST, MOST - indent + 1) if text[at] == " " and can_break(text, at)]
        if not places:
            break
        at = min(places, key=lambda p: (depth[p] + weight(rank(text, p)), rank(text, p), -p))
        lines.append(" " * indent + text[:at])
        text, indent = text[at + 1:], further
    return lines + [" " * indent + text]


def broken(lines):
    """For each line those that stand in its place: of a clause that is too long more than one."""
    opened, indent_of_clause, found = 0, 0, []
    for line in lines:
        text = line.lstrip(" ")
        indent = len(line) - len(text)
        begins = bool(BEGINS.match(text))
        if begins and opened == 0:
            indent_of_clause = indent
        if (begins or opened > 0) and not text.startswith("//"):
            found.append(lines_of(text, indent, indent_of_clause + STEP))
            opened += sum((it in OPENING) - (it in CLOSING) for it in text)
        else:
            found.append([line])
    return found
