"""Mutants as the edit files say them, and the batches in which they are tried."""
import os
import re

FUNCTION = re.compile(r"( *)(?:pub(?:\([a-z]+\))? )?(?:const )?fn (\w+)")
IMPL = re.compile(r"impl(?:<[^>]*>)? (?:(.*) for )?(\w+)")
TYPE = re.compile(r"(?:pub(?:\([a-z]+\))? )?(?:struct|enum) (\w+)")


class BadEdit(Exception):
    """An edit that cannot be tried, with the reason."""


class Mutant:
    """A crate with some lines changed.

    lines: what stands in place of a line, by the path of its file in the crate and its index. touched: the functions that these
    lines belong to. refused: those of which the prover has to refuse one. is_alone: whether it changes more than functions.
    """

    def __init__(self, crate, name, lines, refused):
        self.name, self.lines = name, lines
        for path, index in lines:
            if is_of_law(crate, path, index):
                raise BadEdit("line %d of %s is of a law, which has no body to make wrong: change something that it speaks of" % (index + 1, path))
        around = {function_at(crate, path, index) for path, index in lines}
        self.is_alone, self.touched = None in around, around - {None}
        self.refused = set(refused) or self.touched
        if self.is_alone and not refused:
            raise BadEdit("it changes more than functions: a line 'refused: module::function' has to say which is refused")

    def write(self, folder):
        """Changes the lines in a folder that holds the crate's text."""
        for (path, index), line in self.lines.items():
            with open(os.path.join(folder, path), "r+", encoding="utf-8") as it:
                lines = it.read().split("\n")
                lines[index] = line
                it.seek(0)
                it.truncate()
                it.write("\n".join(lines))


def function_at(crate, path, index):
    """The function of src/ that a line belongs to, as the prover calls it, or None."""
    return next((name for name, lines, _ in functions_in(crate, path) if index in lines), None)


def is_of_law(crate, path, index):
    """Whether a line is of the clauses of a law: a function that does nothing, so that no mutant of it is wrong."""
    return any(index in lines[:-1] and is_law for _, lines, is_law in functions_in(crate, path))


def functions_in(crate, path):
    """The functions of a file of src/ that have a body: the prover's name, the indices of its lines, and whether the body is empty. The file is in the
    layout of rt fmt."""
    if not path.startswith("src/"):
        return
    lines, owner, module = crate.lines(path), [], module_of(path)
    for first, line in enumerate(lines):
        function, impl = FUNCTION.match(line), IMPL.match(line)
        if impl:
            owner = (module if impl[1] else home_of(crate, path, impl[2])) + [capitalized(impl[2]) + re.sub(r"\W", "", impl[1] or "")]
        elif function and has_body(lines[first:]):
            name = "::".join((owner if function[1] else module) + [function[2]])
            ends = (function[1] + "}", function[1] + "{}")
            last = first if line.endswith("}") else next(i for i in range(first, len(lines)) if lines[i] in ends)
            yield name, range(first, last + 1), lines[last] == ends[1]


def has_body(lines):
    """Whether the function that begins with these lines has a body, as one that a trait declares has not."""
    return next(line for line in lines if line.endswith((";", "{", "{}"))).endswith(("{", "{}"))


def module_of(path):
    return [it for it in path[len("src/"):-len(".rt")].split("/") if it not in ("lib", "main")]


def home_of(crate, path, name):
    """The module of a type: its methods go by it, wherever they stand."""
    declares = [it for it in crate.files("src") if any(said and said[1] == name for said in map(TYPE.match, crate.lines(it)))]
    return module_of(path if path in declares or not declares else declares[0])


def capitalized(name):
    """The name of a type as the prover writes it: Bool for bool."""
    return name[0].upper() + name[1:]


def read(crate, file):
    """The mutant of an edit file."""
    path, old, refused, texts = None, None, [], {}
    with open(file, encoding="utf-8") as it:
        said = it.read().splitlines()
    for line in said:
        word, _, text = line.partition(":")
        text = text[1:]
        if word == "file":
            path = text
            texts.setdefault(path, "\n".join(crate.lines(path)))
        elif word == "refused":
            refused.append(text)
        elif word == "old" and path:
            old = text
        elif word == "new" and old:
            if texts[path].count(old) != 1:
                raise BadEdit("its old text stands %d times in %s, and not once: %s" % (texts[path].count(old), path, old))
            texts[path], old = texts[path].replace(old, text), None
        else:
            raise BadEdit("this is no line of an edit: %s" % line)
    pairs = [(path, index, pair) for path, text in texts.items() for index, pair in enumerate(zip(crate.lines(path), text.split("\n")))]
    lines = {(path, index): new for path, index, (was, new) in pairs if was != new}
    if not lines:
        raise BadEdit("it changes nothing")
    return Mutant(crate, name_of(file), lines, refused)


def name_of(file):
    return os.path.basename(file)[:-len(".edit")]


def batches(mutants):
    """The mutants parted so that no two of a batch touch one function."""
    made = []
    for it in mutants:
        free = [batch for batch in made if not any(it.is_alone or other.is_alone or it.touched & other.touched for other in batch)]
        if free:
            free[0].append(it)
        else:
            made.append([it])
    return made
