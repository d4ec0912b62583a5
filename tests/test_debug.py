"""`rvdap debug` over pipes, by a script and in a terminal: prompts and transcripts, pauses, ends, what cannot be read, streams that fail, and colours.
Of what it answers to a line nothing is looked at here but whether the line was refused."""
import os
import pty
import re
import select
import subprocess
import tempfile
import termios
import time

from support.allocations import ends_well_without_memory
from support.files import file_of
from support.program import PROGRAM, SECONDS, TOP, expect
from support.streams import FAULT, Limited

SORT, UNDEFINED = (os.path.join(TOP, "examples", name) for name in ("sort.s", "undefined-label.s"))
PROMPT = b"(rvdap) "
# The transcript of a line.
PLAYED = PROMPT + b"%s\n"
# Runs for ever.
ENDLESS = b"e: j e\n"
LONGEST = 65536
TOO_LONG = b"a line has at most 65536 bytes\n"
RED, PLAIN = b"\x1b[31m", b"\x1b[0m"
# No line in which something goes wrong.
COMMENT = b"# a comment"


def debug(typed, *words, environment=None, stdout=subprocess.PIPE):
    """What is on standard output and standard error, and the status, where this comes on standard input."""
    ran = subprocess.run([PROGRAM, "debug", *words], input=typed, stdout=stdout, stderr=subprocess.PIPE, env=environment, timeout=SECONDS)
    return ran.stdout, ran.stderr, ran.returncode


def without(name, **others):
    """The environment without this name, and with others."""
    return {**{key: value for key, value in os.environ.items() if key != name}, **others}


class Terminal(Limited):
    """The program in a terminal, that shows neither what is typed nor a carriage return where a line ends, and gives one line at a time, or all that
    was typed. What does not lead to it is given."""

    def __init__(self, *words, environment=None, by_lines=True, **streams):
        self.ours, its = pty.openpty()
        attributes = termios.tcgetattr(its)
        attributes[1] &= ~termios.OPOST
        attributes[3] &= ~(termios.ECHO if by_lines else termios.ECHO | termios.ICANON)
        termios.tcsetattr(its, termios.TCSANOW, attributes)
        super().__init__(["debug", *words], environment, **{"stdin": its, "stdout": its, "stderr": subprocess.PIPE, **streams})
        os.close(its)
        self.seen = b""

    def __exit__(self, *_):
        super().__exit__()
        os.close(self.ours)

    def type(self, data):
        os.write(self.ours, data)

    def more(self, seconds):
        """What comes within the time, at most; nothing where it ended."""
        if not select.select([self.ours], [], [], seconds)[0]:
            return b""
        try:
            return os.read(self.ours, 1 << 16)
        except OSError:
            return b""

    def sees(self, form):
        """Waits until what is seen has this form, and gives what was seen since the last time."""
        end = time.monotonic() + SECONDS
        while not re.search(form, self.seen):
            more = self.more(max(0, end - time.monotonic()))
            if not more:
                raise AssertionError("%r is not seen in %r" % (form, self.seen))
            self.seen += more
        seen, self.seen = self.seen, b""
        return seen

    def is_asked(self):
        """Waits until a prompt stands at the end of what is seen, and gives what was seen since the last time."""
        return self.sees(re.escape(PROMPT) + rb"\Z")

    def end(self):
        """All that is still seen, and the status."""
        said = self.seen
        while more := self.more(SECONDS):
            said += more
        return said, self.status()[0]


# ---- what is read first

def a_file_that_cannot_be_read_says_so():
    with tempfile.TemporaryDirectory() as folder:
        long = os.path.join(folder, "long.s")
        with open(long, "wb") as file:
            file.write(b"#" * 1048577)
        for path in (os.path.join(folder, "absent.s"), folder, long, ""):
            expect(debug(b"quit\n", path), (b"", b"rvdap: %s: cannot read\n" % path.encode(), 1), "a FILE that cannot be read")


def a_script_that_cannot_be_read_says_so_first():
    with tempfile.TemporaryDirectory() as folder:
        for path in (os.path.join(folder, "absent"), folder, "/dev/null"):
            for file in (SORT, UNDEFINED, "/no such file"):
                said = b"rvdap: %s: cannot read\n" % path.encode()
                expect(debug(b"quit\n", "-x", path, file), (b"", said, 1), "a SCRIPT that cannot be read")


def errors_are_told_as_by_check():
    for text in (b"call f\n", b"bogus\nadd a0\n", b"nop\n# \xff\n", b".space 1048576\nnop\n"):
        with file_of(text) as path:
            checked = subprocess.run([PROGRAM, "check", path], stdin=subprocess.DEVNULL, stdout=subprocess.PIPE, timeout=SECONDS).stdout
            expect(len(checked) > 0, True, "check tells something")
            expect(debug(b"quit\n", path), (checked, b"", 1), "a program that does not assemble")
            with open("/dev/full", "wb") as full:
                expect(debug(b"quit\n", path, stdout=full)[1:], (FAULT, 1), "a full device")


def the_memory_is_that_of_the_program():
    with file_of(b"nop\n.space 4096\n") as path:
        out, err, status = debug(b"quit\n", "--memory", "4", path)
        expect((err, status), (b"", 1), "a program for more memory")
        expect(re.fullmatch(rb"%s:2:\d+: error: TooLarge: [^\n]+\n\.space 4096\n" % re.escape(path.encode()), out) is not None, True, "it is told: %r" % out)
        expect(debug(b"quit\n", "--memory", "8", path)[1:], (b"", 0), "enough memory")
    with file_of(b"nop\n.space 2000000\n") as path:
        expect(debug(b"quit\n", path)[2], 1, "a program for more than 1 MiB")
        expect(debug(b"quit\n", "--memory", "2048", path)[1:], (b"", 0), "more than 1 MiB")


# ---- lines that nobody types

def lines_are_repeated_after_their_prompts():
    for typed, lines in ((b"quit\n", [b"quit"]), (b"quit", [b"quit"]), (b"quit\r\n", [b"quit"]), (b"quit\nquit\n", [b"quit"]),
                         (COMMENT + b"\n#\r\nquit\n", [COMMENT, b"#", b"quit"])):
        out, err, status = debug(typed, SORT)
        expect((err, status), (b"", 0), "the end of %r" % typed)
        expect(re.findall(rb"^\(rvdap\) .*\n", out, re.M), [PLAYED % line for line in lines], "the lines of %r" % out)


def the_end_of_the_input_ends_it():
    for typed, count in ((b"", 0), (COMMENT, 1), (COMMENT + b"\n", 1)):
        out, err, status = debug(typed, SORT)
        expect((out.count(PROMPT), err, status), (count, b"", 0), "the end of %r" % typed)


def a_line_that_is_too_long_is_refused_and_passed_over():
    for line in (b"#" * LONGEST, COMMENT.ljust(LONGEST)):
        for end in (b"\n", b"\r\n"):
            out, err, status = debug(line + end + b"quit\n", SORT)
            expect((PLAYED % line in out, PLAYED % b"quit" in out, err, status), (True, True, b"", 0), "the longest line")
        out, err, status = debug(line, SORT)
        expect((PLAYED % line in out, err, status), (True, b"", 0), "the longest line at the end")
    for line in (b"#" * (LONGEST + 1), b"#" * LONGEST + b"\r\r", b"#" * (LONGEST + 2), b"#" * (LONGEST + 3), b"#" * 1000000):
        refused = PLAYED % b"" + TOO_LONG
        out, err, status = debug(line + b"\n" + COMMENT + b"\nquit\n", SORT)
        expect((refused + PLAYED % COMMENT in out, PLAYED % b"quit" in out, err, status), (True, True, b"", 1), "a line of %d bytes" % len(line))
        out, err, status = debug(line, SORT)
        expect((out.endswith(refused), err, status), (True, b"", 1), "a line of %d bytes at the end" % len(line))


def a_line_that_is_refused_gives_the_status():
    for typed, wanted in ((b"no such word\nquit\n", 1), (b"no such word\n" + COMMENT + b"\nquit\n", 1), (COMMENT + b"\nquit\n", 0)):
        expect(debug(typed, SORT)[1:], (b"", wanted), "the status of %r" % typed)
    with file_of(b"no such word\n") as script:
        expect(debug(b"quit\n", "-x", script, SORT)[1:], (b"", 1), "the status of a script")


def a_script_comes_before_standard_input():
    with file_of(b"# one\n# two") as script:
        out, err, status = debug(b"# three\nquit\n", "-x", script, SORT)
        lines = [PLAYED % line for line in (b"# one", b"# two", b"# three", b"quit")]
        expect((re.findall(rb"^\(rvdap\) .*\n", out, re.M), err, status), (lines, b"", 0), "a script, and then the input")
    with file_of(b"quit\n# two\n") as script:
        out, err, status = debug(b"# three\n", "-x", script, SORT)
        expect((re.findall(rb"^\(rvdap\) .*\n", out, re.M), err, status), ([PLAYED % b"quit"], b"", 0), "a script that ends it")
    with file_of(b"") as script:
        expect(debug(b"quit\n", "-x", script, SORT), debug(b"quit\n", SORT), "an empty script")


def output_that_fails_ends_it():
    for typed in (b"", b"quit\n", COMMENT + b"\nquit\n"):
        with open("/dev/full", "wb") as full:
            expect(debug(typed, SORT, stdout=full)[1:], (FAULT, 1), "a full device")
        reading, writing = os.pipe()
        os.close(reading)
        expect(debug(typed, SORT, stdout=writing)[1:], (FAULT, 1), "a pipe that nobody reads")
        os.close(writing)
    ran = subprocess.run(["sh", "-c", 'exec "$0" debug "$1" >&-', PROGRAM, SORT], stdin=subprocess.DEVNULL, stderr=subprocess.PIPE, timeout=SECONDS)
    expect((ran.stderr, ran.returncode), (FAULT, 1), "no standard output")


def input_that_fails_ends_it():
    for how in ("<&-", "< /"):
        ran = subprocess.run(["sh", "-c", 'exec "$0" debug "$1" %s' % how, PROGRAM, SORT], stdout=subprocess.PIPE, stderr=subprocess.PIPE, timeout=SECONDS)
        expect((ran.stderr, ran.returncode), (FAULT, 1), "no input to read, " + how)


def without_memory_it_ends_with_a_line():
    typed = b"break 12 if a0 == 0\ncontinue\nprint [sp]\nback-to-change sp\nbacktrace\nquit\n"
    told, *ends = debug(typed, SORT)
    expect(ends, [b"", 0], "the end where there is memory")
    ends_well_without_memory(lambda environment: debug(typed, SORT, environment=environment), told)


def what_help_says_fits_a_window_of_80_columns():
    with open(os.path.join(TOP, "crates", "console", "src", "help.rt"), encoding="utf-8") as file:
        words = re.findall(r'"([a-z-]+)"', "".join(re.findall(r"words: &\[(.*)\]", file.read())))
    expect(len(words) > 40, True, "the words are known")
    out = debug("".join("help %s\n" % word for word in ["", *words]).encode(), SORT)[0]
    expect([line for line in out.splitlines() if len(line) > 80], [], "the lines that are too wide")


# ---- in a terminal

def a_terminal_has_a_prompt_and_ends_by_the_end_of_its_input():
    with Terminal(SORT) as terminal:
        terminal.is_asked()
        terminal.type(COMMENT + b"\n")
        expect(COMMENT in terminal.is_asked(), False, "a line that is typed is repeated")
        terminal.type(b"\x04")
        said, status = terminal.end()
        expect((said[:1], PROMPT in said, status), (b"\n", False, 0), "the end")
    with Terminal(SORT) as terminal:
        terminal.is_asked()
        terminal.type(b"no such word\n")
        terminal.is_asked()
        terminal.type(b"quit\n")
        said, status = terminal.end()
        expect((PROMPT in said, status), (False, 0), "what somebody types gives no status")


def enter_pauses_a_program_that_runs():
    with file_of(ENDLESS) as path:
        for typed in (b"\n", b"quit\n"):
            with Terminal(path) as terminal:
                terminal.is_asked()
                terminal.type(b"continue\n")
                time.sleep(0.3)
                expect(PROMPT in terminal.more(0), False, "a prompt while it runs")
                terminal.type(typed)
                terminal.is_asked()
                terminal.type(b"print 7\n")
                expect(terminal.is_asked(), b"0x00000007  7\n" + PROMPT, "the next line, after %r" % typed)
                terminal.type(b"\x04")
                expect(terminal.end()[1], 0, "the status")
        with Terminal(path) as terminal:
            terminal.is_asked()
            terminal.type(b"stepi 1000000\n")
            time.sleep(0.3)
            terminal.type(b"\n")
            expect(b"paused" in terminal.is_asked(), True, "the rest of a count is not made")
            terminal.type(b"quit\n")
            expect(terminal.end()[1], 0, "the status")
        with Terminal(path) as terminal:
            terminal.is_asked()
            terminal.type(b"continue\n")
            time.sleep(0.3)
            terminal.type(b"\x04")
            expect(terminal.end()[1], 0, "the status where the input ends while it runs")
        with Terminal(path, by_lines=False) as terminal:
            terminal.is_asked()
            terminal.type(b"continue\n\nquit\n")
            expect(terminal.end()[1], 0, "the status where all lines come at once")


def a_script_leaves_the_terminal_to_who_sits_there():
    with file_of(b"# one\n") as script, Terminal("-x", script, SORT) as terminal:
        seen = terminal.is_asked()
        expect((PLAYED % b"# one" in seen, seen.count(PROMPT)), (True, 2), "the script, and a prompt: %r" % seen)
        terminal.type(b"quit\n")
        expect(terminal.end()[1], 0, "the status")
    with file_of(b"continue\n") as script, file_of(ENDLESS) as path, Terminal("-x", script, path) as terminal:
        terminal.sees(re.escape(PLAYED % b"continue"))
        time.sleep(0.3)
        terminal.type(b"\n")
        terminal.is_asked()
        terminal.type(b"quit\n")
        expect(terminal.end()[1], 0, "the status of a program that a script lets run")


def a_prompt_stands_where_it_is_typed():
    with Terminal(SORT, stdout=subprocess.PIPE) as terminal:
        terminal.type(COMMENT + b"\nquit\n")
        expect((PROMPT in terminal.process.stdout.read(), terminal.status()[0]), (False, 0), "an output that is no terminal has no prompt")
    with Terminal(SORT, stdin=subprocess.DEVNULL) as terminal:
        said, status = terminal.end()
        expect((PROMPT in said, status), (False, 0), "no line, and no prompt")


def a_file_is_launched_anew_or_as_it_was():
    with file_of(b"nop\n") as path, Terminal(path) as terminal:
        terminal.is_asked()
        for text, told in ((b"call f\n", b":1:6: error: Undefined: "), (None, b": cannot read\n"), (b"nop\nret\n", b"")):
            if text is None:
                os.remove(path)
            else:
                with open(path, "wb") as file:
                    file.write(text)
            terminal.type(b"run\n")
            said = terminal.is_asked()
            expect((path.encode() + told in said if told else True, b"the program is launched as it was\n" in said), (True, bool(told)), "a launch: %r" % said)
            expect(b"  ret\n" in said, not told, "the program that is launched: %r" % said)
        terminal.type(b"quit\n")
        expect(terminal.end()[1], 0, "the status")
    with file_of(b"nop\n") as path, Limited(["debug", path], None, stdin=subprocess.PIPE, stdout=subprocess.PIPE) as played:
        played.process.stdout.readline()
        os.remove(path)
        played.process.stdin.write(b"run\nquit\n")
        played.process.stdin.close()
        said = played.process.stdout.read()
        expect((b": cannot read\n" in said, played.status()[0]), (True, 1), "a script whose program is gone: %r" % said)


def there_are_colours_in_a_terminal_unless_they_are_refused():
    with file_of(b"#" * (LONGEST + 1) + b"\nquit\n") as script:
        for environment, are_there in ((without("NO_COLOR"), True), (without("NO_COLOR", NO_COLOR=""), True), (without("NO_COLOR", NO_COLOR="0"), False)):
            with Terminal("-x", script, SORT, environment=environment) as terminal:
                said, status = terminal.end()
                expect((RED + TOO_LONG + PLAIN in said, b"\x1b" in said, TOO_LONG in said, status), (are_there, are_there, True, 1), "colours: %r" % said)
            expect(b"\x1b" in debug(b"", "-x", script, SORT, environment=environment)[0], False, "colours where there is no terminal")


def checks():
    """Each check with its name."""
    return [(check.__name__.replace("_", " "), check) for check in (
        a_file_that_cannot_be_read_says_so,
        a_script_that_cannot_be_read_says_so_first,
        errors_are_told_as_by_check,
        the_memory_is_that_of_the_program,
        lines_are_repeated_after_their_prompts,
        the_end_of_the_input_ends_it,
        a_line_that_is_too_long_is_refused_and_passed_over,
        a_line_that_is_refused_gives_the_status,
        a_script_comes_before_standard_input,
        output_that_fails_ends_it,
        input_that_fails_ends_it,
        without_memory_it_ends_with_a_line,
        what_help_says_fits_a_window_of_80_columns,
        a_terminal_has_a_prompt_and_ends_by_the_end_of_its_input,
        enter_pauses_a_program_that_runs,
        a_script_leaves_the_terminal_to_who_sits_there,
        a_prompt_stands_where_it_is_typed,
        a_file_is_launched_anew_or_as_it_was,
        there_are_colours_in_a_terminal_unless_they_are_refused,
    )]
