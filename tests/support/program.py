"""The built program, and how it is talked to."""
import json
import os
import select
import subprocess
import time

TOP = os.path.dirname(os.path.dirname(os.path.dirname(os.path.abspath(__file__))))
PROGRAM = os.path.join(TOP, "build", "rvdap")
SECONDS = 20


def frame(body):
    """The smallest frame of a body: text, bytes, or a value that is written as JSON."""
    if isinstance(body, dict):
        body = json.dumps(body, separators=(",", ":"))
    if isinstance(body, str):
        body = body.encode()
    return b"Content-Length: %d\r\n\r\n" % len(body) + body


def run(data, words=(), pieces=None, environment=None):
    """Gives the program its whole input, and answers its output, its standard error and its status."""
    program = subprocess.Popen([PROGRAM, *words], stdin=subprocess.PIPE, stdout=subprocess.PIPE, stderr=subprocess.PIPE,
                               env=environment)
    if pieces:
        for piece in pieces:
            try:
                program.stdin.write(piece)
                program.stdin.flush()
            except BrokenPipeError:
                break
        data = None
    try:
        out, err = program.communicate(data, timeout=SECONDS)
    except subprocess.TimeoutExpired:
        program.kill()
        raise
    return out, err, program.returncode


class Talk:
    """One running program, written to and read from as the test likes."""

    def __init__(self, words=(), environment=None):
        self.process = subprocess.Popen([PROGRAM, *words], stdin=subprocess.PIPE, stdout=subprocess.PIPE, stderr=subprocess.PIPE,
                                        bufsize=0, env=environment)
        self.read_so_far = b""

    def __enter__(self):
        return self

    def __exit__(self, *_):
        for stream in (self.process.stdin, self.process.stdout, self.process.stderr):
            stream.close()
        self.process.kill()
        self.process.wait()

    def write(self, data):
        self.process.stdin.write(data)

    def write_all(self, data):
        """Writes all of the data, by as many calls as the pipe takes."""
        while data:
            data = data[os.write(self.process.stdin.fileno(), data):]

    def answers(self, data, wanted):
        """Writes the data, and reads as many bytes as are wanted."""
        self.write(data)
        return self.read(len(wanted))

    def has_more(self, seconds):
        """Whether output comes within the time."""
        return bool(select.select([self.process.stdout], [], [], seconds)[0])

    def read(self, count):
        """So many bytes of output."""
        end = time.monotonic() + SECONDS
        while len(self.read_so_far) < count:
            if not self.has_more(max(0, end - time.monotonic())):
                raise AssertionError("no output came in time, after %r" % self.read_so_far)
            piece = os.read(self.process.stdout.fileno(), 1 << 16)
            if not piece:
                raise AssertionError("the output ended after %r" % self.read_so_far)
            self.read_so_far += piece
        answer, self.read_so_far = self.read_so_far[:count], self.read_so_far[count:]
        return answer

    def read_up_to(self, count):
        """So many bytes of output, or those before its end."""
        said = b""
        while len(said) < count and self.has_more(SECONDS):
            piece = os.read(self.process.stdout.fileno(), 1 << 16)
            if not piece:
                break
            said += piece
        return said

    def end(self):
        """Closes the input, and answers the status and what is on standard error."""
        self.process.stdin.close()
        status = self.process.wait(SECONDS)
        return status, self.process.stderr.read()


def answered(data, wanted, words=(), pieces=None, environment=None):
    """Gives the program its input, and ends that once as many bytes came as are wanted, or no more come: all output, what is on standard error,
    and the status. So a program that runs is not left by its editor."""
    with Talk(words, environment) as talk:
        try:
            for piece in pieces or [data]:
                talk.write_all(piece)
        except BrokenPipeError:
            pass
        out = talk.read_up_to(len(wanted))
        status, err = talk.end()
        return out + talk.process.stdout.read(), err, status


def expect(got, wanted, what):
    if got != wanted:
        raise AssertionError("%s: %r, and not %r" % (what, got, wanted))
