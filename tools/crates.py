"""The crates by crates.txt: what each stands on, and the sum of all that it is proved from."""
import hashlib
import os
import re


def table_of(text):
    """The crates of this repository that each stands on by itself, by the text of crates.txt; libraries of the kit are left out."""
    rows = [line.partition("#")[0].partition(":") for line in text.splitlines()]
    uses = {words.split()[0]: re.split(r"[\s,]+", names) for words, _, names in rows if words.strip()}
    return {name: [it for it in names if it in uses] for name, names in uses.items()}


def below(table, name):
    """All that a crate stands on, each after what it stands on itself."""
    found = []
    for it in table[name]:
        found += [crate for crate in [*below(table, it), it] if crate not in found]
    return found


def texts_of(folder, parts=("src", "specs", "proofs")):
    """The files that a crate is proved from, or those of some of its parts."""
    for part in parts:
        for place, folders, names in os.walk(os.path.join(folder, part)):
            folders.sort()
            yield from (os.path.join(place, name) for name in sorted(names))


def size_of(folder):
    """How much code a crate has: what its proof takes grows with that, more than with its proofs."""
    return sum(map(os.path.getsize, texts_of(folder, ("src",))))


def sum_of(folder, more):
    """A sum of a crate's files, and of whatever else its proof rests on."""
    made = hashlib.sha256(repr(more).encode())
    for path in texts_of(folder):
        with open(path, "rb") as file:
            made.update(repr((os.path.relpath(path, folder), file.read())).encode())
    return made.hexdigest()


def sums_of(top, table, names, kit):
    """The sum of each of these crates, given lowest first: its files, those of the crates below it, and the kit that proves them."""
    sums = {}
    for name in names:
        sums[name] = sum_of(os.path.join(top, "crates", name), [kit, [(it, sums[it]) for it in table[name]]])
    return sums


def longest_first(top, table, names, waiting):
    """Those that wait of these crates, given lowest first. First are those with the most code on their way up to the last:
    they hold up the most."""
    weights = {}
    for name in reversed(names):
        above = [weights[it] for it in weights if name in table[it]]
        weights[name] = size_of(os.path.join(top, "crates", name)) + max(above, default=0)
    return sorted(waiting, key=lambda name: -weights[name])
