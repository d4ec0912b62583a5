"""Crates, their checks by the prover, and what these say of single functions."""
import os
import re
import shutil
import subprocess

KIT = os.path.dirname(os.path.dirname(os.path.realpath(shutil.which("rt") or "rt")))
PARTS = ("src", "specs", "proofs")
VERDICT = re.compile(r"fn (\S+): (.*)")
OPEN = re.compile(r"note: src/\S+:\d+:\d+: it is not proved .*\(`(\S+)`\)")
# What `search` broke off has no note of its own.
UNPROVED = re.compile(r"`search` did not prove ((?:`[^`]+`(?:, | and )?)+)")
WAITS = re.compile(r"note: `search` has not tried the goals of `(\S+)`, which wait for a callee's proof")
ERROR = re.compile(r"(?:\./)?((?:src|specs|proofs)/\S+?):(\d+):\d+: error(?:\[\S+\])?: (?:`([^`]*)`: )?(.*)")
# What is said of an answer for a goal that is gone; and of one that names something else that is, or rests on a refused one.
GONE, LOST = re.compile(r"\.Goals` has no "), re.compile(r"is not in scope|has no |is no name|declarations? that depend")


class Crate:
    """A crate of the repository at top."""

    def __init__(self, top, name):
        self.top, self.name, self.folder = top, name, os.path.join(top, "crates", name)
        self.library = os.path.join(self.folder, "out", "rlib", name + ".rlib")
        uses = uses_in(top)
        self.kit = ["std"] + [it for it in uses[name] if it not in uses]
        self.own = [Crate(top, it) for it in uses[name] if it in uses]
        self.below = list({lower.name: lower for it in self.own for lower in it.below + [it]}.values())

    def files(self, *parts):
        """The paths in the crate of the files in these folders of it."""
        found = [os.path.join(at, name) for part in parts for at, _, names in os.walk(os.path.join(self.folder, part)) for name in names]
        return sorted(os.path.relpath(it, self.folder) for it in found)

    def lines(self, path):
        with open(os.path.join(self.folder, path), encoding="utf-8") as it:
            return it.read().split("\n")

    def build_below(self):
        """Builds the libraries below where one is older than its text, or than the text or the library of one below it."""
        newest = 0
        for it in self.below:
            made = os.path.join(it.library, "format")
            newest = max([newest] + [os.path.getmtime(os.path.join(it.folder, path)) for path in it.files(*PARTS)])
            if not os.path.exists(made) or os.path.getmtime(made) < newest:
                subprocess.run(["rt", "lib"], cwd=it.folder, stdin=subprocess.DEVNULL, stdout=subprocess.DEVNULL, check=True)
            newest = max(newest, os.path.getmtime(made))

    def copy(self, room, kept):
        """Copies the crate's text into a new folder, and what checks kept. Links do for that, since a check never writes into a kept file."""
        for it in PARTS:
            if os.path.isdir(os.path.join(self.folder, it)):
                shutil.copytree(os.path.join(self.folder, it), os.path.join(room, it))
        if os.path.isdir(kept):
            shutil.copytree(kept, os.path.join(room, "out"), copy_function=link)

    def check(self, room, names):
        """What a check of these functions says in such a folder."""
        root = "src/main.rt" if "src/main.rt" in self.files("src") else "src/lib.rt"
        words = [KIT + "/bin/rattle", "check", "--crate-name", self.name, root, "--jobs", "1", "--incremental", "out"]
        words += ["--antt-project", KIT + "/rattle/logic/antt-project.json", "--logic-built", KIT + "/logic_built"]
        words += [word for it in self.kit for word in ("--extern", "%s=%s/rlibs/%s.rlib" % (it, KIT, it))]
        words += [word for it in self.own for word in ("--extern", "%s=%s" % (it.name, it.library))]
        places = [KIT + "/rlibs"] + [os.path.dirname(it.library) for it in self.below]
        words += [word for it in places for word in ("-L", "dependency=" + it)]
        words += [word for it in sorted(names) for word in ("--only", it)]
        ran = subprocess.run(words, cwd=room, stdin=subprocess.DEVNULL, stdout=subprocess.PIPE, stderr=subprocess.STDOUT, encoding="utf-8", errors="replace")
        return Report(self.name, ran.stdout, ran.returncode)


class Report:
    """What a check said.

    status: the check's. end: its last line. verdicts: on each function. open: the goals of each function's own that are not
    proved. gone: the goals that its proof answers and that are gone. waiting: the functions of which not all goals were tried, as a function
    that they call has no proof. unread: what is said of a place in src/ or specs/, by its path and index.
    """

    def __init__(self, crate, text, status):
        self.status, self.end = status, text.strip().rpartition("\n")[2]
        self.verdicts, self.open, self.gone, self.unread = {}, {}, {}, {}
        self.waiting = {plain(name[len(crate) + 2:]) for name in WAITS.findall(text)}
        goals = []
        for line in text.splitlines():
            verdict, goal, error = VERDICT.match(line), OPEN.match(line), ERROR.match(line)
            if verdict:
                name = plain(verdict[1][len(crate) + 2:])
                self.verdicts[name] = verdict[2]
                unproved = UNPROVED.search(verdict[2])
                self.open.setdefault(name, []).extend(goals or re.findall("`([^`]+)`", unproved[1] if unproved else ""))
                goals = []
            elif goal:
                goals.append(goal[1])
            elif error and not error[1].startswith("proofs/"):
                self.unread[error[1], int(error[2]) - 1] = line
            elif error and (GONE.search(line) or not LOST.search(line)):
                found = self.gone if GONE.search(line) else self.open
                found.setdefault(owner_of(error[1]), []).append(error[3] or error[4])


def within(found, names):
    """What was found of these functions and of the closures in them."""
    return sorted({one for it in names for name, all in found.items() if (name + "::").startswith(it + "::") for one in all})


def owner_of(path):
    """The function that a file of proofs/ is about, or "" where it has lemmas: such a file, or the folder that it is in, begins with a capital letter."""
    folder = os.path.dirname(path)[len("proofs/"):]
    return "" if folder[:1].isupper() else plain(folder.replace("/", "::"))


def plain(name):
    """The prover's name of a function, or of a closure in it, module::fn::function::all, as module::function::all."""
    return re.sub(r"(^|::)fn::", r"\1", name)


def uses_in(top):
    """What each crate of crates.txt stands on."""
    with open(os.path.join(top, "crates.txt"), encoding="utf-8") as it:
        said = [line.partition("#")[0].partition(":") for line in it]
    return {name.split()[0]: uses.split() for name, _, uses in said if name.strip()}


def link(at, to):
    try:
        os.link(at, to)
    except OSError:
        shutil.copy2(at, to)
