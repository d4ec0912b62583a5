"""tools/prove, with a stand-in for `rt`, which proves nothing: it waits a little, makes files and prints lines as `rt` does."""
import glob
import importlib.machinery
import os
import pty
import re
import shutil
import signal
import subprocess
import sys
import tempfile
import time
from contextlib import contextmanager

from support.program import TOP, expect

sys.path.insert(0, os.path.join(TOP, "tools"))

import crates  # noqa: E402
import machine  # noqa: E402

# d stands on b and c, which stand on a; the program stands on all but other and test_a. `hex` is a library of the kit.
LIST = """# heading
a:
b: a hex   # a comment
c: a
other: a
d: b c
test_a: a
rvdap: d
"""
BELOW = {"a": [], "b": ["a"], "c": ["a"], "d": ["a", "b", "c"], "rvdap": ["a", "b", "c", "d"]}

RT = '''#!%s
import os, sys, time
name, words = os.path.basename(os.getcwd()), sys.argv[1:]
if words == ["version"]:
    print("rattle-kit-0 logic 0")
    sys.exit()
def note(word):
    with open(os.environ["NOTES"], "a") as file:
        file.write("%s %s %s\\n" % (word, name, os.getcwd()))
def make(path, text):
    os.makedirs(os.path.dirname(path), exist_ok=True)
    with open(path, "w") as file:
        file.write(text)
for it in os.environ["BELOW_" + name].split():
    made, text = "../%s/out/rlib/stamp" % it, "../%s/src/lib.rt" % it
    if os.path.getmtime(made) < os.path.getmtime(text):
        sys.exit("the out of %s is older than its text" % it)
jobs = words[2:3]
if words != (["run", "--jobs", *jobs, "--", "--version"] if name == "rvdap" else ["lib", "--jobs", *jobs]):
    sys.exit("the words are %s" % words)
note("begin")
with open(os.environ["NOTES"] + ".share", "a") as file:
    file.write("%s %s %d\\n" % (name, *jobs, os.nice(0)))
if os.path.exists("out/incremental/kept"):
    note("kept")
make("out/incremental/kept", name)
if name != os.environ.get("SILENT"):
    print("rt: chose --jobs 1 for %s\\nso far: 1 of 2 functions" % name, flush=True)
time.sleep(float(os.environ.get("SECONDS_" + name, 0.05)))
for _ in range(2000 if "MEETS_" + name in os.environ else 0):
    with open(os.environ["NOTES"]) as file:
        if "begin %s " % os.environ["MEETS_" + name] in file.read():
            break
    time.sleep(0.01)
if os.environ.get("FAILS") == name:
    for number in range(60):
        print("fn %s::f%d: not proved" % (name, number))
    sys.exit(1)
if name != os.environ.get("SILENT"):
    print("fn %s::f: proved\\nlogic=proved functions=2 sum=0" % name, flush=True)
make("out/rlib/stamp", name)
make("out/rlib/%s.rlib/checked.a" % name, name)
make("out/" + name, "program")
note("end")
'''


@contextmanager
def repository():
    """A repository with those crates, and the stand-in beside it."""
    with tempfile.TemporaryDirectory() as folder:
        top = os.path.join(folder, "top")
        shutil.copytree(os.path.join(TOP, "tools"), os.path.join(top, "tools"), ignore=shutil.ignore_patterns("__pycache__"))
        texts = {"crates.txt": LIST, "HANDLES": "Handles allowed: none.\n", "docs/INSTALL.md": "```\nrattle-kit-0 logic 0\n```\n",
                 "../bin/rt": RT.replace("%s", sys.executable, 1)}
        texts.update({"crates/%s/src/lib.rt" % name: name for name in (*BELOW, "other", "test_a")})
        for path, text in texts.items():
            path = os.path.join(top, path)
            os.makedirs(os.path.dirname(path), exist_ok=True)
            with open(path, "w", encoding="utf-8") as file:
                file.write(text)
        os.chmod(os.path.join(folder, "bin", "rt"), 0o755)
        yield top


def environment(top, **more):
    folder = os.path.dirname(top)
    path = os.path.join(folder, "bin") + ":" + os.environ["PATH"]
    below = {"BELOW_" + name: " ".join(names) for name, names in BELOW.items()}
    return {**os.environ, "PATH": path, "NOTES": os.path.join(folder, "notes"), **below, **more}


def begun(top, out=subprocess.PIPE, **more):
    words = [sys.executable, os.path.join(top, "tools", "prove"), "--at-once", "2"]
    return subprocess.Popen(words, env=environment(top, **more), stdin=subprocess.DEVNULL, stdout=out, stderr=subprocess.STDOUT, text=True)


def proved(top, **more):
    """What a run prints, and its status."""
    with begun(top, **more) as run:
        return run.communicate(timeout=60)[0], run.returncode


def notes(top):
    """When each crate was begun and ended, in that order, as pairs of a word and a name; a new run begins with none."""
    path = os.path.join(os.path.dirname(top), "notes")
    if not os.path.exists(path):
        return []
    with open(path, encoding="utf-8") as file:
        lines = file.read().splitlines()
    os.remove(path)
    return [tuple(line.split()[:2]) for line in lines]


def text_of(top, *path):
    with open(os.path.join(top, *path), encoding="utf-8") as file:
        return file.read()


def each_crate_after_those_below_it():
    with repository() as top:
        out, status = proved(top)
        seen = notes(top)
        expect((status, sorted(name for word, name in seen if word == "begin")), (0, sorted(BELOW)), "what was proved, after\n%s" % out)
        for name, names in BELOW.items():
            for it in names:
                is_before = seen.index(("end", it)) < seen.index(("begin", name))
                expect(is_before, True, "%s was proved before %s was begun, in %s" % (it, name, seen))
        expect(text_of(top, "crates/rvdap/out/rvdap"), "program", "the program")
        expect(os.path.exists(os.path.join(top, "build", "prove")), False, "the copies are there after the run")


def two_side_by_side():
    with repository() as top:
        proved(top, MEETS_b="c", MEETS_c="b")
        seen = notes(top)
        between = seen[seen.index(("end", "a")) + 1:seen.index(("begin", "d"))]
        expect([word for word, _ in between], ["begin", "begin", "end", "end"], "b and c, between a and d")


def the_two_crates_that_hold_up_most_get_most_processors_and_the_others_give_way():
    with repository() as top:
        proved(top)
        said = text_of(top, "../notes.share").split()
        shares = {name: (jobs, int(nice) > os.nice(0)) for name, jobs, nice in zip(said[::3], said[1::3], said[2::3])}
        whole, half = ("2", False), ("1", False)
        expect(shares, {"a": whole, "b": whole, "c": half, "d": whole, "rvdap": whole}, "the jobs of each, and whether it gives way")
    prove = importlib.machinery.SourceFileLoader("prove", os.path.join(TOP, "tools", "prove")).load_module()
    four = prove.Proofs({}, {}, ["a", "b", "c", "d"], [], 4, None)
    four.working = ["d", "c", "b", "a"]
    expect([four.words(name)[-1] for name in four.order], ["4", "2", "1", "1"], "the jobs of four side by side")
    expect([four.words(name)[0] for name in four.order], ["rt", "rt", "nice", "nice"], "which of four give way")


def a_line_for_each_crate_and_a_log():
    with repository() as top:
        lines = proved(top)[0].splitlines()
        forms = [r"Proving 5 crates, 2 side by side\. .* an hour or more on four cores; .*",
                 r"Meanwhile README\.md .* build/prove\.log\."]
        forms += [r"\[ %d/5\] (%s) +2 functions  0:\d\d" % it for it in enumerate(("a", "b|c", "b|c", "d", "rvdap"), 1)]
        expect(len(lines), len(forms), "how many lines there are in %s" % lines)
        for line, form in zip(lines, forms):
            expect(bool(re.fullmatch(form, line)), True, "the line %r has the form %s" % (line, form))
        log = text_of(top, "build/prove.log").splitlines()
        expect([line for line in log if line.startswith("d: ")],
               ["d: rt: chose --jobs 1 for d", "d: so far: 1 of 2 functions", "d: fn d::f: proved", "d: logic=proved functions=2 sum=0"],
               "the log")


def a_crate_of_which_nothing_is_said_is_unchanged():
    with repository() as top:
        out, _ = proved(top, SILENT="d")
        expect(re.findall(r"^(\[ \d/5\] \w+) +unchanged  0:\d\d$", out, re.M), ["[ 4/5] d"], "the line of d, in %s" % out)


def a_line_that_moves_on_a_terminal():
    with repository() as top:
        ours, theirs = pty.openpty()
        run = begun(top, theirs)
        os.close(theirs)
        said = b""
        try:
            while piece := os.read(ours, 1 << 16):
                said += piece
        except OSError:
            pass  # so the end of a terminal is told
        os.close(ours)
        expect(run.wait(60), 0, "the status")
        lines = [line.split("\r")[-1] for line in said.decode().replace("\r\n", "\n").split("\n")]
        expect(b"\r\033[K[ 0/5] a 1 of 2 functions  0:0" in said, True, "the line moves in %r" % said)
        expect([bool(re.match(r"\x1b\[K\[ \d/5\] ", line)) for line in lines[2:7]], [True] * 5, "the lines that stay, %s" % lines)


def a_failure_shows_its_last_lines():
    with repository() as top:
        out, status = proved(top, FAILS="b", SECONDS_c="0.3")
        shown = ["fn b::f%d: not proved" % number for number in range(20, 60)]
        said = ["b is not proved: rt ended with status 1. All that was said is in build/prove.log"]
        expect((status, "\n".join([*shown, *said]) in out), (1, True), "the status and the last lines of\n%s" % out)
        expect(("f19" in out, out.count(" is not proved: ")), (False, 1), "whether more lines are shown, and how many failures")
        expect({name for _, name in notes(top)}, {"a", "b", "c"}, "what was begun")
        expect("b: fn b::f19: not proved" in text_of(top, "build/prove.log"), True, "the log")
        expect(text_of(top, "crates/b/out/incremental/kept"), "b", "what rt kept of the failed one")
        _, status = proved(top)
        seen = notes(top)
        expect((status, {name for _, name in seen}), (0, {"b", "d", "rvdap"}), "the next run")
        expect(("kept", "b") in seen, True, "it begins with what rt kept of the failed one")


def what_is_proved_stays_so():
    with repository() as top:
        proved(top)
        notes(top)
        out, status = proved(top)
        expect((out, status, notes(top)), ("All 5 crates are proved already, and none has changed.\n", 0, []), "a second run")
        with open(os.path.join(top, "crates", "c", "src", "lib.rt"), "a", encoding="utf-8") as file:
            file.write("changed")
        out, status = proved(top)
        begun_now = [name for word, name in notes(top) if word == "begin"]
        expect((status, begun_now), (0, ["c", "d", "rvdap"]), "after a change")
        expect("Proving 3 of 5 crates" in out, True, "what is said of it, in %s" % out)
        for place in glob.glob(os.path.join(top, "crates", "*", "out", "*")):
            if os.path.basename(place) not in ("incremental", "rlib"):
                os.remove(place)
        proved(top)
        expect([name for word, name in notes(top) if word == "begin"], ["rvdap"], "after the gate, which gives back libraries alone")
        shutil.rmtree(os.path.join(top, "crates", "b", "out"))
        proved(top)
        expect(notes(top), [("begin", "b"), ("end", "b")], "after what was made of b is gone")


def an_interrupt_leaves_what_is_proved():
    for number in (signal.SIGINT, signal.SIGTERM):
        with repository() as top:
            run = begun(top, SECONDS_b="30", SECONDS_c="30")
            until = time.monotonic() + 20
            while "so far" not in [line[3:9] for line in read(top).splitlines() if line[0] in "bc"] and time.monotonic() < until:
                time.sleep(0.02)
            run.send_signal(number)
            out, _ = run.communicate(timeout=20)
            expect((run.returncode, out.splitlines()[-1]),
                   (130, "Interrupted: what is proved stays, and the next run continues from there."), "the end, by signal %d" % number)
            expect(notes(top)[:2], [("begin", "a"), ("end", "a")], "what was proved")
            proved(top)
            expect(sorted(name for word, name in notes(top) if word == "begin"), ["b", "c", "d", "rvdap"], "the next run")


def read(top):
    path = os.path.join(top, "build", "prove.log")
    return text_of(path) if os.path.exists(path) else ""


def one_at_a_time_in_a_checkout():
    with repository() as top:
        run = begun(top, SECONDS_a="1")
        while "so far" not in read(top):
            time.sleep(0.02)
        expect(proved(top), ("tools/prove: another one is at work here\n", 1), "a second one")
        expect((run.communicate(timeout=60), run.returncode)[1], 0, "the first one")


def as_many_as_the_machine_has_room_for():
    text = "MemTotal:       24555068 kB\nMemFree:         1000 kB\nMemAvailable:   17825792 kB\n"
    expect(machine.available(text), 17 * 2**30, "the free memory")
    rooms = [machine.room(processors, gigabytes * 10**9) for processors, gigabytes in ((4, 24), (8, 10), (2, 24), (4, 2), (1, 24))]
    expect(rooms, [4, 3, 2, 1, 1], "how many at a time")
    expect(1 <= machine.at_once() <= len(os.sched_getaffinity(0)), True, "how many here")


def a_word_that_is_none_is_refused():
    for words in (["--help"], ["--at-once"], ["--at-once", "0"], ["--at-once", "2", "3"]):
        ran = subprocess.run([sys.executable, os.path.join(TOP, "tools", "prove"), *words], capture_output=True, text=True, check=False)
        expect((ran.returncode, "Usage: tools/prove [--at-once N]" in ran.stderr), (1, True), "tools/prove %s" % words)


def another_kit_is_told():
    with repository() as top:
        with open(os.path.join(top, "docs", "INSTALL.md"), "w", encoding="utf-8") as file:
            file.write("rattle-kit-1 logic 1\n")
        said = "This kit is rattle-kit-0 logic 0. The proofs were checked by rattle-kit-1 logic 1, and another kit may refuse them."
        expect(proved(top)[0].splitlines()[0], said, "the first line")


def the_documents_name_one_kit():
    said = {}
    for path in ("README.md", "docs/INSTALL.md", "docs/PROOFS.md"):
        said.update((line, path) for line in re.findall(r"^rattle-kit\S* .*$", text_of(TOP, path), re.M))
    expect(len(said), 1, "how many kits are named, by %s" % said)
    expect(len(re.findall(r"^rattle-kit\S* .*$", text_of(TOP, "docs/INSTALL.md"), re.M)), 1, "the line that tools/prove looks for")


def the_program_stands_on_its_crates():
    table = crates.table_of(text_of(TOP, "crates.txt"))
    found = crates.below(table, "rvdap")
    listed = re.findall(r"^(\w+): ?(.*)$", text_of(TOP, "crates.txt"), re.M)
    expect([name for name in found if name.startswith(("test", "bench"))], [], "crates of tests and benches")
    absent = [name for name in found if not os.path.isfile(os.path.join(TOP, "crates", name, "src", "lib.rt"))]
    expect(absent, [], "libraries that are not there")
    for name, uses in listed:
        if name in [*found, "rvdap"]:
            here = {it for it in uses.split("#")[0].split() if os.path.isdir(os.path.join(TOP, "crates", it))}
            before = found[:found.index(name)] if name in found else found
            expect(here - set(before), set(), "what %s stands on, and what does not come before it" % name)


def checks():
    return [("tools/prove: " + check.__name__.replace("_", " "), check) for check in (
        each_crate_after_those_below_it, two_side_by_side, the_two_crates_that_hold_up_most_get_most_processors_and_the_others_give_way,
        a_line_for_each_crate_and_a_log, a_crate_of_which_nothing_is_said_is_unchanged, a_line_that_moves_on_a_terminal, a_failure_shows_its_last_lines,
        what_is_proved_stays_so, an_interrupt_leaves_what_is_proved, one_at_a_time_in_a_checkout,
        as_many_as_the_machine_has_room_for, a_word_that_is_none_is_refused, another_kit_is_told, the_documents_name_one_kit,
        the_program_stands_on_its_crates)]
