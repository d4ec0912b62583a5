"""What the program says of itself: help and the version on standard output, and its lines on standard error. They are waited for as all
writes are, and help that cannot be written is a fault."""
import contextlib
import os
import subprocess
import tempfile
import time
from types import SimpleNamespace

from support.allocations import each_refusal
from support.files import file_of
from support.interruptions import is_told_whatever_is_interrupted
from support.listening import Editor, free_port
from support.preloading import preload
from support.program import PROGRAM, SECONDS, expect, frame, run
from support.streams import FAULT, Limited
from support.texts import FIRST, FIRST_ANSWER

ABSENT = "/no such file"
UNREAD = b"rvdap: %s: cannot read\n" % ABSENT.encode()
# Each of the ways to ask for what is printed on standard output.
ASKED = [("--help",), ("-h",), ("--version",), ("-V",), *((command, "--help") for command in ("asm", "run", "debug", "check", "labels", "watch"))]


# ---- help and the version

def help_that_cannot_be_written_is_a_fault():
    for words in ASKED:
        with open("/dev/full", "wb") as full:
            ran = subprocess.run([PROGRAM, *words], stdout=full, stderr=subprocess.PIPE, timeout=SECONDS)
        expect((ran.stderr, ran.returncode), (FAULT, 1), "a full device, %s" % (words,))
        ran = subprocess.run(["sh", "-c", 'exec "$0" "$@" >&-', PROGRAM, *words], stderr=subprocess.PIPE, timeout=SECONDS)
        expect((ran.stderr, ran.returncode), (FAULT, 1), "no standard output, %s" % (words,))
        with a_pipe_that_nobody_reads() as its_output:
            ran = subprocess.run([PROGRAM, *words], stdout=its_output, stderr=subprocess.PIPE, timeout=SECONDS)
        expect((ran.stderr, ran.returncode), (FAULT, 1), "a pipe that nobody reads, %s" % (words,))


@contextlib.contextmanager
def a_pipe_that_nobody_reads():
    from_it, its_output = os.pipe()
    os.close(from_it)
    try:
        yield its_output
    finally:
        os.close(its_output)


def help_ends_well_without_memory():
    for words in (("--help",), ("--version",)):
        whole = run(b"", words=words)
        expect(whole[1:], (b"", 0), "%s with memory" % (words,))

        def once(environment):
            got = run(b"", words=words, environment=environment)
            expect(got in (whole, (b"", b"rvdap: no memory\n", 1)), True, "%s, or no memory: %r" % (words, got))

        expect(len(each_refusal(once)) > 20, True, "some allocations were refused")


# ---- outputs that are full at first

class Full(Limited):
    """The program over one output that is full at first, and does not block: of standard output and error the one of this name."""

    def __init__(self, name, words, environment=None):
        self.from_it, its = os.pipe()
        os.set_blocking(its, False)
        self.filled = 0
        with contextlib.suppress(BlockingIOError):
            while True:
                self.filled += os.write(its, b"x" * 4096)
        super().__init__(words, environment, **{"stdin": subprocess.PIPE, "stdout": subprocess.PIPE, "stderr": subprocess.PIPE, name: its})
        os.close(its)

    def __exit__(self, *_):
        super().__exit__()
        os.close(self.from_it)

    def waits(self):
        """It waits, and takes no processor time."""
        time.sleep(0.3)
        expect(self.process.poll(), None, "a status before anything was read")

    def read(self, count=None):
        """What was written, up to its end or so many bytes of it."""
        said = b""
        while count is None or len(said) < self.filled + count:
            more = os.read(self.from_it, 4096)
            if not more:
                break
            said += more
        expect(said[:self.filled], b"x" * self.filled, "what was there before")
        return said[self.filled:]


def help_waits_for_an_output_that_does_not_block():
    for words in ASKED:
        whole = run(b"", words=words)[0]
        with Full("stdout", words) as full:
            full.waits()
            expect(full.read(), whole, "what is written, %s" % (words,))
            status, seconds = full.status()
            expect((status, full.process.stderr.read()), (0, b""), "the end, %s" % (words,))
            expect(seconds < 0.3, True, "%.2f seconds of processor time is a wait" % seconds)


def each_line_waits_for_a_standard_error_that_does_not_block():
    with file_of(b"li a0, 1\nebreak\n") as stops, file_of(b"nop\nbogus\n") as wrong:
        usage = run(b"", words=("--fly",))[1]
        error = subprocess.run([PROGRAM, "run", wrong], stdin=subprocess.DEVNULL, capture_output=True, timeout=SECONDS).stderr
        for words, data, line, status in (
                ((), frame("{}"), b"rvdap: bad message\n", 1), (("--fly",), b"", usage, 2), ((b"\xff",), b"", b"rvdap: invalid data\n", 2),
                (("asm", ABSENT), b"", UNREAD, 1), (("check", ABSENT), b"", UNREAD, 1), (("watch", ABSENT), b"", UNREAD, 1),
                (("run", "--count", stops), b"", b"rvdap: retired instructions: 2\n%s:2: ebreak at 0x00010004\nebreak\n" % stops.encode(), 122),
                (("run", wrong), b"", error, 125), (("--listen", "bogus"), b"", FAULT, 1)):
            with Full("stderr", words) as full:
                full.process.stdin.write(data)
                full.process.stdin.close()
                full.waits()
                expect(full.read(), line, "the line, %s" % (words,))
                expect(full.status()[0], status, "the status, %s" % (words,))


def an_address_is_said_before_an_editor_is_served():
    server = SimpleNamespace(host="127.0.0.1", port=free_port())
    address = "%s:%d" % (server.host, server.port)
    with Full("stderr", ("--listen", address)) as full:
        full.waits()
        line = b"listening on %s\n" % address.encode()
        expect(full.read(len(line)), line, "the line")
        with Editor(server) as editor:
            expect(editor.sends(FIRST).reads(len(FIRST_ANSWER)), FIRST_ANSWER, "an answer")


def a_wait_that_fails_is_a_fault():
    """Where `poll` fails and no signal is why, a full output is not waited for."""
    with tempfile.TemporaryDirectory() as folder:
        environment = dict(os.environ, LD_PRELOAD=preload(folder, "abort"), ABORT_POLLS="1000000")
        with Full("stdout", ("--help",), environment) as full:
            expect((full.process.stderr.read(), full.status()[0]), (FAULT, 1), "the end")


# ---- signals

def a_signal_at_any_call_leaves_what_is_said():
    for words in (("--help",), ("--version",), ("--fly",), ("asm", ABSENT)):
        whole = run(b"", words=words)
        is_told_whatever_is_interrupted(lambda environment: run(b"", words=words, environment=environment), whole, 1)


def checks():
    """Each check with its name."""
    return [("what is said: " + check.__name__.replace("_", " "), check) for check in (
        help_that_cannot_be_written_is_a_fault,
        help_ends_well_without_memory,
        help_waits_for_an_output_that_does_not_block,
        each_line_waits_for_a_standard_error_that_does_not_block,
        an_address_is_said_before_an_editor_is_served,
        a_wait_that_fails_is_a_fault,
        a_signal_at_any_call_leaves_what_is_said,
    )]
