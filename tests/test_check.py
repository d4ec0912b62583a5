"""`rvdap check` and `rvdap labels`: the errors of each file with their lines, their columns and words on them, and where labels are, as text and as
JSON; what cannot be read, and output that fails."""
import contextlib
import glob
import json
import os
import re
import subprocess
import tempfile
import threading

from support.allocations import each_refusal
from support.files import file_of
from support.program import PROGRAM, SECONDS, TOP, expect
from support.slips import NOT_ALIGNED, SLIPS, TEXTS, too_far, unmarked

LONGEST = 1048576
SORT, UNDEFINED = (os.path.join("examples", name) for name in ("sort.s", "undefined-label.s"))
EXPLANATIONS = {
    "NotUtf8": "a byte that is not UTF-8",
    "Syntax": "not labels and then one statement",
    "UnknownInstruction": "no such mnemonic or directive",
    "BadOperand": "too few operands, too many, or of another form",
    "OutOfRange": "a number does not fit its place, an instruction is not at a multiple of 4, or a target is too far",
    "TwiceDefined": "an earlier label has this name",
    "Undefined": "no line defines this label",
    "TooLarge": "memory ends before this line",
}
# Texts with an error of each kind: the kind, its line and its column, words on it, and the line itself, which is not told where the text is no UTF-8.
WRONG = (
    ("NotUtf8", b"nop\n# \xff\nbogus\n", 2, 3, EXPLANATIONS["NotUtf8"], None),
    ("Syntax", b"nop\n\n  1 2\n", 3, 3, EXPLANATIONS["Syntax"], "  1 2"),
    ("UnknownInstruction", b"\tbogus a0 # what?\n", 1, 2, EXPLANATIONS["UnknownInstruction"], "\tbogus a0 # what?"),
    ("BadOperand", b"nop\r\nadd a0\r\nnop\r\n", 2, 1, "add takes three registers: 1 operand stands here", "add a0"),
    ("OutOfRange", b"nop\n  addi a0, a0, 2048", 2, 16, "2048 is not in -2048 to 2047", "  addi a0, a0, 2048"),
    ("OutOfRange", b".byte 1\nnop\n", 2, 1, NOT_ALIGNED, "nop"),
    ("OutOfRange", b"f: beq a0, a1, e\n.space 4096\ne: nop\n", 1, 4, too_far(4100, "after"), "f: beq a0, a1, e"),
    ("TwiceDefined", b"f: nop\ng: nop\nf: nop # \xc3\xa9\n", 3, 1, "line 1 defines f before", "f: nop # é"),
    ("Undefined", b"_start: nop\n    j end\n", 2, 7, "no line defines end", "    j end"),
    ("TooLarge", b".space 1048576\nnop\n", 2, 1, EXPLANATIONS["TooLarge"], "nop"),
)
# The text of an error as it is told after the number of its line.
FAULT = ":%d: error: %s: %s\n"
UNDEFINED_TOLD = "examples/undefined-label.s:4:10: error: Undefined: no line defines g\n    call g\n"


def said(*words, stdout=subprocess.PIPE, environment=None, folder=TOP):
    ran = subprocess.run([PROGRAM, *words], stdin=subprocess.DEVNULL, stdout=stdout, stderr=subprocess.PIPE, env=environment, cwd=folder,
                         timeout=SECONDS)
    out = None if ran.stdout is None else ran.stdout.decode(errors="backslashreplace")
    return out, ran.stderr.decode(errors="backslashreplace"), ran.returncode


def check(*words, **how):
    return said("check", *words, **how)


def labels(*words, **how):
    return said("labels", *words, **how)


def told(path, kind, line, column, words, text):
    """What is told of an error in the file at a path."""
    return "%s:%d" % (path, line) + FAULT % (column, kind, words) + ("" if text is None else text + "\n")


def member_of(path, kind, line, column, words, text):
    return {"column": column, "explanation": words, "file": path, "kind": kind, "line": line, "text": text}


def bogus(path, line, text="bogus"):
    """What is told of a mnemonic that is none, and is like none."""
    return told(path, "UnknownInstruction", line, 1, EXPLANATIONS["UnknownInstruction"], text)


def compact(value):
    """A value as JSON, with its members in their order and without blanks."""
    return json.dumps(value, separators=(",", ":"), ensure_ascii=False) + "\n"


def write(path, text):
    with open(path, "wb") as file:
        file.write(text)


@contextlib.contextmanager
def files(**texts):
    """A folder that holds a file NAME.s for each text."""
    with tempfile.TemporaryDirectory() as folder:
        for name, text in texts.items():
            write(os.path.join(folder, name + ".s"), text)
        yield folder


# ---- check

def each_error_is_told_with_its_line():
    for kind, text, line, column, words, shown in WRONG:
        with file_of(text) as path:
            expect(check(path), (told(path, kind, line, column, words, shown), "", 1), "the error %s of %r" % (kind, text))
    expect({kind for kind, *_ in WRONG}, set(EXPLANATIONS), "the kinds that are tried")


def each_error_is_told_as_json():
    for kind, text, line, column, words, shown in WRONG:
        with file_of(text) as path:
            out, err, status = check("--json", path)
            member = member_of(path, kind, line, column, words, shown)
            expect((err, status, json.loads(out)), ("", 1, member), "the error %s of %r as JSON" % (kind, text))
            expect(out, compact(member), "its text")
            expect(check(path, "--json"), (out, "", 1), "the option after the file")


def what_json_escapes_is_escaped():
    line = "bogus \t# \"quoted\" \\ \x01 \x7f é \u2028 \U0001f600 /"
    with file_of("nop\n" + line + "\n") as path:
        out = check("--json", path)[0]
        expect(json.loads(out)["text"], line, "the line, read again")
        member = member_of(path, "UnknownInstruction", 2, 1, EXPLANATIONS["UnknownInstruction"], line)
        expect(out, compact(member), "the line, as it is written")
        expect(check(path)[0], bogus(path, 2, line), "the line as text")


def a_text_without_an_error_has_nothing_to_tell():
    expect(check(SORT), ("", "", 0), "examples/sort.s")
    expect(check("--json", SORT), ("", "", 0), "examples/sort.s with JSON")
    for text in (b"", b"\n", b"# nothing", b".word 1\n", b".space 1048576\n"):
        with file_of(text) as path:
            expect(check(path), ("", "", 0), "the text %r" % text)


def an_error_of_an_earlier_pass_is_told_first():
    with file_of("nop\nj x\nnop\nbogus\n") as path:
        expect(check(path)[0], bogus(path, 4), "the error that is told")


# ---- slips

def each_slip_is_named():
    """All slips are errors of lines that cannot be read, so one text has many. Among the first hundred errors of a text names are guessed."""
    for first in range(0, len(SLIPS), 100):
        slips = [(*unmarked(line), kind, words) for line, kind, words in SLIPS[first:first + 100]]
        with file_of("\n".join(line for line, *_ in slips)) as path:
            out, err, status = check(path)
            given = out.splitlines()
            for number, (line, column, kind, words) in enumerate(slips, 1):
                wanted = told(path, kind, number, column, words, line)
                expect(given[2 * number - 2:2 * number], wanted.splitlines(), "what is told of %r" % line)
            expect((len(given), err, status), (2 * len(slips), "", 1), "as many errors as slips")
            objects = [json.loads(it) for it in check("--json", path)[0].splitlines()]
            expect(objects, [member_of(path, kind, number, column, words, line)
                             for number, (line, column, kind, words) in enumerate(slips, 1)], "the same as JSON")


def names_are_guessed_in_the_first_hundred_errors():
    with file_of("ecal\n" * 101) as path:
        words = [line.partition("UnknownInstruction: ")[2] for line in check(path)[0].splitlines()[::2]]
        expect(words, ["ecal: ecall?"] * 100 + [EXPLANATIONS["UnknownInstruction"]], "the words on 101 errors")
    for count, words in ((1000, "no line defines l1x: l1?"), (1001, "no line defines l1x")):
        with file_of("".join("l%d:\n" % number for number in range(count)) + "j l1x\n") as path:
            expect(check(path)[0], told(path, "Undefined", count + 1, 3, words, "j l1x"), "a name beside %d labels" % count)


def each_slip_is_the_error_that_the_assembler_reports():
    for line, kind, _ in SLIPS:
        with file_of(unmarked(line)[0]) as path:
            expect(said("asm", path), ("", "rvdap: %s: line 1: %s\n" % (path, kind), 1), "asm of %r" % line)


def errors_of_one_pass_are_told_together():
    for text, errors in TEXTS:
        lines = [unmarked(line) for line in text]
        places = [(number, column, line) for number, (line, column) in enumerate(lines, 1) if column]
        expect(len(places), len(errors), "an error for each place that is marked in %r" % (text,))
        with file_of("\n".join(line for line, _ in lines)) as path:
            wanted = "".join(told(path, kind, number, column, words, line) for (number, column, line), (kind, words) in zip(places, errors))
            expect(check(path), (wanted, "", 1), "the errors of %r" % (text,))


def source_of(*path):
    with open(os.path.join(TOP, "crates", *path), encoding="utf-8") as file:
        return file.read()


def each_mnemonic_is_told_with_what_it_takes():
    """What is said of a mnemonic rests on a table of its own, which has the names that are read, each once."""
    names = sorted(re.findall(r'"([a-z.]+)" => Some\(', source_of("statements", "src", "mnemonics.rt")))
    tables = re.findall(r"&str; \d+\] = \[(.*?)\];", source_of("diagnostics", "src", "forms.rt"), re.S)
    expect(sorted(re.findall(r'"(.*?)"', " ".join(tables))), names, "the names of both tables")
    with file_of("\n".join("%s %%, %%, %%, %%" % name for name in names)) as path:
        lines = check(path)[0].splitlines()[::2]
    for name, line in zip(names, lines):
        words = line.partition(": BadOperand: ")[2]
        expect(words.startswith("%s takes " % name) or name in (".word", ".half", ".byte") and words.startswith("operand 1: "), True, line)
    expect(len(lines), len(names), "as many errors as names")


def many_errors_are_told():
    count = 20000
    with file_of("bogus\n" * count) as path:
        out, err, status = check(path)
        expect((out.count("\n"), err, status), (2 * count, "", 1), "as many errors as lines")
    with file_of("".join("l%d: j m%d\n" % (number, number) for number in range(count))) as path:
        out, err, status = check(path)
        expect((out.count(": error: Undefined: no line defines m"), err, status), (count, "", 1), "as many labels that no line defines")
    with file_of("beq a0, a1, e\n" * count + ".space 4096\ne: nop\n") as path:
        out, err, status = check(path)
        expect((out.count(": error: OutOfRange: the target is "), err, status), (count, "", 1), "as many targets that are too far")
    with file_of(".byte 1\n" + "f: nop\n" * count) as path:
        out, err, status = check(path)
        expect((out.count(": error: OutOfRange: "), out.count(": error: TwiceDefined: line 2 defines f before"), err, status), (1, count - 1, "", 1),
               "as many labels that are defined again, and one address")


# ---- files


def files_are_told_of_in_their_order():
    with files(a=b"bogus\n", b=b"nop\n", c=b"nop\nj x\n") as folder:
        first, second = bogus("a.s", 1), told("c.s", "Undefined", 2, 3, "no line defines x", "j x")
        for names, out, status in (("a b c", first + second, 1), ("c b a", second + first, 1), ("b a", first, 1), ("a b", first, 1), ("b", "", 0), ("b b b", "", 0),
                                   ("a a", first * 2, 1), ("a b a c b", first * 2 + second, 1)):
            expect(check(*(name + ".s" for name in names.split()), folder=folder), (out, "", status), "the files %s" % names)
        lines = check("--json", "a.s", "b.s", "c.s", folder=folder)[0].splitlines()
        expect([json.loads(line)["file"] for line in lines], ["a.s", "c.s"], "the files of the objects")


def what_cannot_be_read_leaves_the_others_checked():
    long = b"#" * (LONGEST + 1)
    with files(a=b"bogus\n", b=b"nop\n", long=long, longest=long[1:]) as folder:
        os.mkdir(os.path.join(folder, "folder.s"))
        fault, line = bogus("a.s", 1), "rvdap: %s: cannot read\n"
        for name in ("absent.s", "folder.s", "long.s", ""):
            for names, out in (((name,), ""), ((name, "a.s"), fault), (("a.s", name), fault), ((name, "b.s"), ""), (("b.s", name, "a.s", "b.s"), fault)):
                expect(check(*names, folder=folder), (out, line % name, 1), "the files %r" % (names,))
            out, err, status = check("--json", name, "a.s", folder=folder)
            expect((json.loads(out)["file"], err, status), ("a.s", line % name, 1), "JSON beside %r" % name)
        expect(check("absent.s", "a.s", "long.s", folder=folder), (fault, line % "absent.s" + line % "long.s", 1), "two that cannot be read")
        expect(check("longest.s", folder=folder), ("", "", 0), "a text of the greatest length")


def a_file_may_have_any_name():
    for name in ("a b.s", "naïve.s", "-", "--json", "a:1: error: b.s", "run"):
        with tempfile.TemporaryDirectory() as folder:
            write(os.path.join(folder, name), b"bogus\n")
            expect(check("--", name, folder=folder), (bogus(name, 1), "", 1), "a file %r" % name)
            expect(json.loads(check("--json", "--", name, folder=folder)[0])["file"], name, "a file %r in JSON" % name)


def many_files_are_checked():
    texts = {"f%d" % number: b"nop\n" * number + (b"bogus" if number % 3 == 0 else b"nop") for number in range(300)}
    with files(**texts) as folder:
        out, err, status = check(*(name + ".s" for name in texts), folder=folder)
    wanted = [bogus("f%d.s" % number, number + 1) for number in range(0, 300, 3)]
    expect((out, err, status), ("".join(wanted), "", 1), "300 files")


def explanations_are_those_of_help_and_manual():
    help_of_asm = said("asm", "--help")[0].partition("Errors")[2]
    for kind in ("NotUtf8", "Syntax", "UnknownInstruction", "TwiceDefined", "Undefined"):
        expect(re.search(r"^  %s +(.*?):" % kind, help_of_asm, re.M)[1], EXPLANATIONS[kind], "%s in the help of asm" % kind)
    with open(os.path.join(TOP, "packaging", "rvdap.1"), encoding="utf-8") as file:
        manual = dict(re.findall(r"^\.TP\n\.B (\w+)\n([^:\n]*)", file.read().replace("\\-", "-"), re.M))
    for kind in EXPLANATIONS.keys() - {"OutOfRange"}:
        expect(manual[kind], EXPLANATIONS[kind], "%s in the manual page" % kind)
    with open(os.path.join(TOP, "docs", "MACHINE.md"), encoding="utf-8") as file:
        guide = file.read()
    expect([kind for kind in EXPLANATIONS if "**%s.**" % kind not in guide], [], "kinds that docs/MACHINE.md leaves out")


# ---- labels

def statements(text):
    """The labels and the statement of each line of a simple text, with the number of the line."""
    for number, line in enumerate(text.splitlines(), 1):
        *names, rest = line.partition("#")[0].split(":")
        yield number, [name.strip() for name in names], rest.strip()


def expected_labels(path):
    """The labels of a text of instructions alone, by its lines and the addresses of its listing: pairs of name and address, and the line of each
    address."""
    with open(os.path.join(TOP, path), encoding="utf-8") as file:
        text = file.read()
    addresses = [int(line.split()[0], 16) for line in said("asm", path)[0].splitlines()]
    place, found, lines = 0, [], {}
    for number, names, statement in statements(text):
        found += [(name, 0x10000 + 4 * place) for name in names]
        for _ in range({"": 0, ".globl": 0, "call": 2, "la": 2}.get(statement.split(" ")[0], 1)):
            lines[addresses[place]] = number
            place += 1
    expect(place, len(addresses), "the instructions of %s" % path)
    return found, lines


def labels_of_an_example_are_those_of_its_listing():
    for path in (SORT, "examples/increment.s", "examples/nested.s"):
        found, lines = expected_labels(path)
        wanted = "".join("%08x code %d  %s\n" % (address, lines[address], name) for name, address in found)
        expect(labels(path), (wanted, "", 0), "the labels of %s" % path)
        wanted = "".join(compact({"address": address, "kind": "code", "line": lines[address], "name": name}) for name, address in found)
        expect(labels("--json", path), (wanted, "", 0), "the same as JSON")
        expect(labels(path, "--json"), (wanted, "", 0), "the option after the file")


def expect_labels(text, *wanted):
    """Fails unless these are the labels of a text: triples of address, place and name."""
    with file_of(text) as path:
        expect(labels(path), ("".join("%08x %s  %s\n" % it for it in wanted), "", 0), "the labels of %r" % text[:60])
        objects = []
        for address, place, name in wanted:
            kind, *line = place.split()
            objects.append({"address": address, "kind": kind, **({"line": int(line[0])} if line else {}), "name": name})
        expect(labels("--json", path), ("".join(map(compact, objects)), "", 0), "the same as JSON")


def what_stands_at_a_label_is_told():
    expect_labels(b"")
    expect_labels(b"nop\n")
    expect_labels(b"f:\n", (0x10000, "end", "f"))
    expect_labels(b"f: nop\n", (0x10000, "code 1", "f"))
    expect_labels(b"f:\n\n# more\n  nop\n", (0x10000, "code 4", "f"))
    expect_labels(b"nop\ne:\n", (0x10004, "end", "e"))
    expect_labels(b"f: nop\nd: .word 1, 2\nb: .byte 1\ne:", (0x10000, "code 1", "f"), (0x10004, "data", "d"), (0x1000c, "data", "b"), (0x1000d, "end", "e"))
    # The second instruction of a line that became two has no label; the one after it has.
    expect_labels(b"d: .word 5\n_start: la a0, d\nx: call _start\n", (0x10000, "data", "d"), (0x10004, "code 2", "_start"), (0x1000c, "code 3", "x"))


def labels_at_one_address_are_all_told():
    expect_labels(b"b: a: nop\nc: d:\ne: .word 1\nz: y:\n", (0x10000, "code 1", "b"), (0x10000, "code 1", "a"), (0x10004, "data", "c"), (0x10004, "data", "d"),
                  (0x10004, "data", "e"), (0x10008, "end", "z"), (0x10008, "end", "y"))


def a_label_stands_before_what_aligns():
    expect_labels(b".byte 1\na: .align 2\nb: nop\n", (0x10001, "data", "a"), (0x10004, "code 3", "b"))
    expect_labels(b"nop\na: .space 0\nb: nop\n", (0x10004, "code 3", "a"), (0x10004, "code 3", "b"))


def a_label_at_the_end_of_memory_is_told():
    expect_labels(b"d: .space 1048576\ne:\n", (0x10000, "data", "d"), (0x110000, "end", "e"))


def names_have_all_letters():
    expect_labels(b".L1$: _x.y: a0: nop: nop\n", (0x10000, "code 1", ".L1$"), (0x10000, "code 1", "_x.y"), (0x10000, "code 1", "a0"), (0x10000, "code 1", "nop"))


def many_labels_are_told():
    count = 2000
    text = "".join("l%d: nop\n" % number for number in range(count))
    expect_labels(text, *((0x10000 + 4 * number, "code %d" % (number + 1), "l%d" % number) for number in range(count)))


def a_text_with_an_error_has_no_labels():
    for kind, text, line, *_ in WRONG:
        with file_of(text) as path:
            for words in ((path,), ("--json", path)):
                expect(labels(*words), ("", "rvdap: %s: line %d: %s\n" % (path, line, kind), 1), "labels of %r" % text)


def labels_of_what_cannot_be_read():
    with files(long=b"#" * (LONGEST + 1)) as folder:
        for name in ("absent.s", ".", "long.s", ""):
            expect(labels(name, folder=folder), ("", "rvdap: %s: cannot read\n" % name, 1), "labels of %r" % name)


# ---- both

def a_fifo_is_read():
    for command, text, wanted in (("check", b"nop\nbogus\n", bogus("fifo", 2)), ("labels", b"f: nop\n", "00010000 code 1  f\n")):
        with tempfile.TemporaryDirectory() as folder:
            path = os.path.join(folder, "fifo")
            os.mkfifo(path)
            # A thread writes, so that a program that does not open the FIFO fails here, and no test waits for ever.
            threading.Thread(target=write, args=(path, text), daemon=True).start()
            expect(said(command, "fifo", folder=folder), (wanted, "", 1 if command == "check" else 0), "%s of a FIFO" % command)


def output_that_fails_is_a_fault():
    fault = "rvdap: read or write fault\n"
    for words in (("check", UNDEFINED), ("check", "--json", UNDEFINED), ("check", SORT, UNDEFINED), ("labels", SORT), ("labels", "--json", SORT)):
        with open("/dev/full", "wb") as full:
            expect(said(*words, stdout=full), (None, fault, 1), "a full disk: %s" % (words,))
        reading, writing = os.pipe()
        os.close(reading)
        expect(said(*words, stdout=writing), (None, fault, 1), "a pipe that nobody reads: %s" % (words,))
        os.close(writing)
        ran = subprocess.run(["sh", "-c", 'exec "$@" >&-', "sh", PROGRAM, *words], stdin=subprocess.DEVNULL, stderr=subprocess.PIPE, cwd=TOP, timeout=SECONDS)
        expect((ran.stderr.decode(), ran.returncode), (fault, 1), "no standard output: %s" % (words,))
    # What has nothing to write needs none.
    with open("/dev/full", "wb") as full:
        expect(check(SORT, stdout=full), (None, "", 0), "a full disk, and no error")


# Texts that are told with words of many forms.
SOME_SLIPS = b"ecal\n.asciz \"x\"\nli a0, 'a'\nlw a0, n\nsub a0, a0, 1\naddi a0, a0, 5000\n1: nop\nli a0,, 1\nADDI a0, a0, 1\n"
SOME_LABELS = b"end: j ned\nla a0, ra\nx: .word end, y\n"


def without_memory_it_ends_with_a_line():
    with files(a=b"nop\nj x\n", b=b"nop\n", slips=SOME_SLIPS, labels=SOME_LABELS, labelled=b"f: nop\nd: .word 1\ne:\n") as folder:
        for words in (("check", "a.s"), ("check", "--json", "a.s"), ("check", "a.s", "b.s", "a.s"), ("check", "b.s"), ("check", "slips.s"), ("check", "labels.s"), ("labels", "labelled.s"),
                      ("labels", "--json", "labelled.s")):
            whole = said(*words, folder=folder)
            given = each_refusal(lambda environment: said(*words, folder=folder, environment=environment))
            expect(len(given) > 20, True, "some allocations were refused")
            for out, err, status in given:
                if (out, err, status) != whole:
                    expect((err, status), ("rvdap: no memory\n", 1), "out of memory in %s" % (words,))
                    expect(whole[0].startswith(out) and (words[0] == "check" or out == ""), True, "what was written before it: %r" % out)


def words_that_are_not_taken():
    for words in (("check",), ("check", "--json"), ("check", "--memory", "8", SORT), ("labels",), ("labels", SORT, SORT), ("labels", "--count", SORT)):
        out, err, status = said(*words)
        expect((out, bool(err), status), ("", True, 2), "the words %s" % (words,))


def help_shows_what_is_so():
    """Help of each command that has an example: what that prints stands after it, up to `..` or an empty line."""
    for command in ("run", "check", "labels"):
        out, err, status = said(command, "--help")
        expect((err, status, said(command, "-h")), ("", 0, (out, err, status)), "help of %s" % command)
        expect(max(map(len, out.splitlines())) <= 80, True, "the lines of the help of %s fit a terminal" % command)
        [words, shown] = re.search(r"^  \$ rvdap (.*)\n((?:  .*\n)+)", out, re.M).groups()
        given = [path for word in words.split() for path in (sorted(os.path.relpath(it, TOP) for it in glob.glob(os.path.join(TOP, word))) or [word])]
        printed = said(*given)[0].splitlines()
        shown = [line[2:] for line in shown.splitlines()]
        if shown[-1] == "..":
            shown, printed = shown[:-1], printed[:len(shown) - 1]
        expect((shown, bool(shown)), (printed, True), "the example in the help of %s" % command)


def the_example_with_an_error_is_told():
    expect(check(UNDEFINED), (UNDEFINED_TOLD, "", 1), UNDEFINED)


def checks():
    """Each check with its name."""
    return [(check.__name__.replace("_", " "), check) for check in (
        each_error_is_told_with_its_line,
        each_error_is_told_as_json,
        what_json_escapes_is_escaped,
        a_text_without_an_error_has_nothing_to_tell,
        an_error_of_an_earlier_pass_is_told_first,
        each_slip_is_named,
        names_are_guessed_in_the_first_hundred_errors,
        each_slip_is_the_error_that_the_assembler_reports,
        errors_of_one_pass_are_told_together,
        each_mnemonic_is_told_with_what_it_takes,
        many_errors_are_told,
        files_are_told_of_in_their_order,
        what_cannot_be_read_leaves_the_others_checked,
        a_file_may_have_any_name,
        many_files_are_checked,
        explanations_are_those_of_help_and_manual,
        labels_of_an_example_are_those_of_its_listing,
        what_stands_at_a_label_is_told,
        labels_at_one_address_are_all_told,
        a_label_stands_before_what_aligns,
        a_label_at_the_end_of_memory_is_told,
        names_have_all_letters,
        many_labels_are_told,
        a_text_with_an_error_has_no_labels,
        labels_of_what_cannot_be_read,
        a_fifo_is_read,
        output_that_fails_is_a_fault,
        without_memory_it_ends_with_a_line,
        words_that_are_not_taken,
        help_shows_what_is_so,
        the_example_with_an_error_is_told,
    )]
