"""The built program over standard streams of a kind, whose descriptors do not block."""
import os
import pty
import socket
import subprocess
import threading
import tty

from support.program import PROGRAM, SECONDS

FAULT = b"rvdap: read or write fault\n"


def pipes():
    """An input and an output for the program, and the descriptors by which the test writes the one and reads the other."""
    (its_input, to_it), (from_it, its_output) = os.pipe(), os.pipe()
    return its_input, its_output, to_it, from_it


def one_socket():
    its, ours = socket.socketpair()
    its = its.detach()
    ours = ours.detach()
    return its, os.dup(its), ours, os.dup(ours)


def one_terminal():
    ours, its = pty.openpty()
    tty.setraw(its)
    return its, os.dup(its), ours, os.dup(ours)


KINDS = (pipes, one_socket, one_terminal)


class Limited:
    """The program, which is killed after a while: where it waits for what never comes, its test ends with it."""

    def __init__(self, words, environment, **streams):
        self.process = subprocess.Popen([PROGRAM, *words], env=environment, **streams)
        self.limit = threading.Timer(SECONDS, self.process.kill)
        self.limit.start()

    def __enter__(self):
        return self

    def __exit__(self, *_):
        self.limit.cancel()
        self.process.kill()
        self.process.wait()
        for stream in (self.process.stdin, self.process.stdout, self.process.stderr):
            if stream is not None:
                stream.close()

    def status(self):
        """The status, and how many seconds of processor time the program took."""
        _, status, used = os.wait4(self.process.pid, 0)
        self.process.returncode = os.waitstatus_to_exitcode(status)
        return self.process.returncode, used.ru_utime + used.ru_stime


class Streams(Limited):
    """The program over an input and an output that do not block, which a kind gives."""

    def __init__(self, kind, words=(), environment=None):
        its_input, its_output, self.to_it, self.from_it = kind()
        for descriptor in (its_input, its_output):
            os.set_blocking(descriptor, False)
        super().__init__(words, environment, stdin=its_input, stdout=its_output, stderr=subprocess.PIPE)
        for descriptor in (its_input, its_output):
            os.close(descriptor)

    def __exit__(self, *_):
        super().__exit__()
        for descriptor in (self.to_it, self.from_it):
            if descriptor is not None:
                os.close(descriptor)

    def write(self, data):
        while data:
            data = data[os.write(self.to_it, data):]

    def read(self, count, piece=1 << 16):
        """So many bytes of output, in pieces of at most so many."""
        said = b""
        while len(said) < count:
            more = os.read(self.from_it, min(piece, count - len(said)))
            if not more:
                break
            said += more
        return said

    def close_input(self):
        os.close(self.to_it)
        self.to_it = None

    def close_output(self):
        os.close(self.from_it)
        self.from_it = None

    def end(self):
        """The status, what is on standard error, and how many seconds of processor time the program took."""
        err = self.process.stderr.read()
        status, seconds = self.status()
        return status, err, seconds
