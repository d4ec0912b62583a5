"""The built program's `asm FILE`: listings on standard output, and what is said where there is none."""
import os
import subprocess
import tempfile

from support.allocations import each_refusal
from support.files import file_of
from support.program import PROGRAM, TOP, expect
from support.programs import INCREMENT, INCREMENT_LISTING

LONGEST = 1048576

# Each error: its pass, its name, and a text whose last line has it. They stand in the order of the help.
ERRORS = (
    (0, "NotUtf8", b"# \xff"),
    (1, "Syntax", b"1 2"),
    (1, "UnknownInstruction", b"bogus"),
    (1, "BadOperand", b"add a0"),
    (1, "OutOfRange", b"addi a0, a0, 2048"),
    (2, "TwiceDefined", b"a: a: nop"),
    (2, "OutOfRange", b".byte 1\nnop"),
    (2, "TooLarge", b".space 1048577"),
    (3, "Undefined", b"j x"),
    (3, "OutOfRange", b"beq a0, a1, 0"),
)


def listed(*words, environment=None, output=subprocess.PIPE):
    """Runs `rvdap asm` with these words, and answers its output, its standard error and its status."""
    ran = subprocess.run([PROGRAM, "asm", *words], stdin=subprocess.DEVNULL, stdout=output, stderr=subprocess.PIPE,
                         env=environment, timeout=60)
    return ran.stdout, ran.stderr, ran.returncode


def expect_listing(text, lines):
    with file_of(text) as path:
        expect(listed(path), (lines, b"", 0), "a listing")


def expect_fault(text, reason):
    with file_of(text) as path:
        expect(listed(path), (b"", b"rvdap: %s: %s\n" % (path.encode(), reason), 1), reason)


def the_example_is_listed():
    expect(listed(INCREMENT), (INCREMENT_LISTING, b"", 0), "the listing of examples/increment.s")


def the_guide_shows_that_listing():
    with open(os.path.join(TOP, "docs", "MACHINE.md"), "rb") as file:
        expect(b"```\n$ rvdap asm examples/increment.s\n" + INCREMENT_LISTING + b"```\n" in file.read(), True, "docs/MACHINE.md")


def a_text_on_six_lines_has_the_same_listing():
    expect_listing(b"_start: li a0, 5\ncall f\nli a7, 93\necall\nf: addi a0, a0, 1\nret", INCREMENT_LISTING)


def a_listing_is_assembled_to_the_same_words():
    texts = b"".join(line.split(b" ", 2)[2] + b"\n" for line in INCREMENT_LISTING.splitlines())
    expect_listing(texts, INCREMENT_LISTING)


def data_is_left_out():
    expect_listing(b".word 1\nnop\n.byte 2\n", b"00010004 00000013 addi zero, zero, 0\n")
    expect_listing(b"", b"")


def an_error_is_reported_at_its_line():
    for text, reason in (
        (b"nop\naddi a0, a0, 2048\n", b"line 2: OutOfRange"),
        (b"nop nop\nf: nop\nf: nop\n", b"line 1: BadOperand"),
        (b"f: nop\nf: nop\n", b"line 2: TwiceDefined"),
        (b"j g\n", b"line 1: Undefined"),
        (b"nop\nmul a0, a0, a0\n", b"line 2: UnknownInstruction"),
        (b"\n\n1: nop\n", b"line 3: Syntax"),
        (b"nop\n# \xff\n", b"line 2: NotUtf8"),
        (b".space 1048576\n.byte 0\n", b"line 2: TooLarge"),
    ):
        expect_fault(text, reason)


def a_file_of_the_greatest_length_is_listed():
    expect_listing(b"nop\n" + b"#" * (LONGEST - 4), b"00010000 00000013 addi zero, zero, 0\n")


def a_file_that_is_too_long_is_not_read():
    expect_fault(b"nop\n" + b"#" * (LONGEST - 3), b"cannot read")


def a_file_that_is_not_there_is_not_read():
    with tempfile.TemporaryDirectory() as folder:
        for path in (os.path.join(folder, "absent.s"), folder, ""):
            expect(listed(path), (b"", b"rvdap: %s: cannot read\n" % path.encode(), 1), "no such file")


def a_listing_that_is_not_taken_is_a_fault():
    with open("/dev/full", "wb") as full:
        expect(listed(INCREMENT, output=full), (None, b"rvdap: read or write fault\n", 1), "a full device")


def words_that_are_not_taken():
    for words in ((), (INCREMENT, INCREMENT), (INCREMENT, "--bad"), ("--version",)):
        out, err, status = listed(*words)
        expect((out, status, bool(err)), (b"", 2, True), "asm with %d words" % len(words))


def help_of_asm():
    out, err, status = listed("--help")
    expect((err, status), (b"", 0), "help")
    expect(listed("-h"), (out, err, status), "help by its short name")
    for words in (b"Usage: rvdap asm <FILE>", b"1,048,576 bytes", b"docs/MACHINE.md", b"line 2: OutOfRange", b"cannot read"):
        expect(words in out, True, "help has %r" % words)
    expect(max(map(len, out.splitlines())) <= 80, True, "the lines of help fit a terminal")


def help_of_asm_has_an_example():
    command, listing = listed("--help")[0].partition(b"  $ rvdap asm ")[2].split(b"\n", 1)
    expect(command, b"examples/increment.s", "the example")
    shown = [line.strip() for line in listing.partition(b"  ..\n")[0].splitlines()]
    expect((shown, bool(shown)), (INCREMENT_LISTING.splitlines()[:len(shown)], True), "the first lines of its listing")


def help_of_asm_has_a_line_for_each_error_under_its_pass():
    reported, number = [], None
    for line in listed("--help")[0].decode().splitlines():
        if line.startswith("Pass "):
            number = int(line.split()[1].rstrip(","))
        elif number is not None and line[:2] == "  " and line[2:3].isupper():
            reported.append((number, line.split()[0]))
            expect(len(line.split()) > 5, True, "what %s means" % line.split()[0])
    expect(reported, [(number, kind) for number, kind, _ in ERRORS], "the errors in the help")


def an_earlier_pass_is_reported_first():
    for number, kind, text in ERRORS:
        expect_fault(text, b"line %d: %s" % (text.count(b"\n") + 1, kind.encode()))
        for other, _, before in ERRORS:
            if other > number:
                both = before + b"\n" + text
                expect_fault(both, b"line %d: %s" % (both.count(b"\n") + 1, kind.encode()))


def a_listing_ends_well_without_memory():
    def once(environment):
        got = listed(INCREMENT, environment=environment)
        expect(got in ((INCREMENT_LISTING, b"", 0), (b"", b"rvdap: no memory\n", 1)), True, "a listing, or no memory: %r" % (got,))

    expect(len(each_refusal(once)) > 20, True, "some allocations were refused")


def checks():
    """Each check with its name."""
    return [(check.__name__.replace("_", " "), check) for check in (
        the_example_is_listed,
        the_guide_shows_that_listing,
        a_text_on_six_lines_has_the_same_listing,
        a_listing_is_assembled_to_the_same_words,
        data_is_left_out,
        an_error_is_reported_at_its_line,
        a_file_of_the_greatest_length_is_listed,
        a_file_that_is_too_long_is_not_read,
        a_file_that_is_not_there_is_not_read,
        a_listing_that_is_not_taken_is_a_fault,
        words_that_are_not_taken,
        help_of_asm,
        help_of_asm_has_an_example,
        help_of_asm_has_a_line_for_each_error_under_its_pass,
        an_earlier_pass_is_reported_first,
        a_listing_ends_well_without_memory,
    )]
