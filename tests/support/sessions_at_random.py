"""Sessions at random, played into the built program over pipes: each ends in time, without a signal, in little memory, with whole messages and a response
for each request that came before a fault."""
import os
import re
import subprocess
import tempfile
import threading

from support.mutations import HERE, session_of
from support.program import PROGRAM
from support.reading import messages, read

SECONDS = 20
MOST_MEMORY = 64 * 1024
# The program of one session of so many is listed too.
LISTED = 5
ERROR = rb"rvdap: \./pp\.s: line [0-9]+: [A-Z][A-Za-z0-9]+\n"
ENDINGS = {(0, b""), (1, b"rvdap: bad message\n")}


class Wrong(Exception):
    """What went wrong in a session."""


def play(pieces, folder):
    """What the program wrote, its standard error, its status, and the most memory that it held, in KiB."""
    program = subprocess.Popen([os.path.abspath(PROGRAM)], stdin=subprocess.PIPE, stdout=subprocess.PIPE, stderr=subprocess.PIPE, bufsize=0, cwd=folder)
    limit = threading.Timer(SECONDS, program.kill)
    limit.start()

    def write():
        try:
            for piece in pieces:
                program.stdin.write(piece)
        except BrokenPipeError:
            pass
        program.stdin.close()

    writer = threading.Thread(target=write)
    writer.start()
    out, err = program.stdout.read(), program.stderr.read()
    _, status, used = os.wait4(program.pid, 0)
    limit.cancel()
    writer.join()
    for stream in (program.stdout, program.stderr):
        stream.close()
    program.returncode = os.waitstatus_to_exitcode(status)
    return out, err, program.returncode, used.ru_maxrss


def expect(holds, what):
    if not holds:
        raise Wrong(what)


def is_disconnected(told):
    return any(message.get("command") == "disconnect" and message["success"] for message in told)


def expect_right(data, out, err, status, memory):
    expect(status >= 0, "it ended by signal %d" % -status if status != -9 else "it did not end in %d seconds" % SECONDS)
    expect((status, err) in ENDINGS, "status %d, and %r on standard error" % (status, err))
    expect(memory <= MOST_MEMORY, "it held %d KiB" % memory)
    told = messages(out)
    answered = [message["request_seq"] for message in told if message["type"] == "response"]
    requests, fault = read(data)
    asked = [request["seq"] for request in requests]
    # What comes in a piece after a disconnect is not read.
    if is_disconnected(told):
        expect(answered == asked[:len(answered)], "the responses to %s were %s" % (asked, answered))
        return
    expect(answered == asked, "the responses to %s were %s" % (asked, answered))
    expect((fault != "none") == (status == 1), "status %d, where the fault is %s" % (status, fault))


def expect_listed(folder):
    """The listing of the program, or the line of its first error."""
    ran = subprocess.run([os.path.abspath(PROGRAM), "asm", HERE], stdin=subprocess.DEVNULL, capture_output=True, cwd=folder, timeout=SECONDS)
    if ran.returncode == 0:
        expect(ran.stderr == b"" and re.fullmatch(rb"([0-9a-f]{8} [0-9a-f]{8} [^\n]+\n)*", ran.stdout), "the listing: %r" % ran.stdout[-200:])
    else:
        expect((ran.returncode, ran.stdout) == (1, b""), "status %d of the listing, after %r" % (ran.returncode, ran.stdout[-200:]))
        expect(re.fullmatch(ERROR, ran.stderr), "%r of the listing" % ran.stderr)


def plays(seed, first, count):
    """Plays so many sessions of a seed from this number on, and answers how many ended well and how many for a bad message. Where one goes wrong,
    its input and its program are left in build/soak, and the exception says where."""
    ended = {0: 0, 1: 0}
    with tempfile.TemporaryDirectory() as folder:
        for number in range(first, first + count):
            pieces, program = session_of(seed, number)
            with open(os.path.join(folder, HERE), "wb") as file:
                file.write(program)
            try:
                played = play(pieces, folder)
                expect_right(b"".join(pieces), *played)
                if number % LISTED == 0:
                    expect_listed(folder)
            except (Wrong, AssertionError, ValueError, TypeError, subprocess.TimeoutExpired) as wrong:
                raise Wrong("seed %s, session %d: %s; kept in %s" % (seed, number, wrong, kept(seed, number, pieces, program))) from wrong
            ended[played[2]] += 1
    return ended[0], ended[1]


def kept(seed, number, pieces, program):
    """Keeps a session that went wrong."""
    folder = os.path.join(os.path.dirname(PROGRAM), "soak", "%s-%d" % (seed, number))
    os.makedirs(folder, exist_ok=True)
    for name, data in (("input", b"".join(pieces)), (os.path.basename(HERE), program)):
        with open(os.path.join(folder, name), "wb") as file:
            file.write(data)
    return folder
