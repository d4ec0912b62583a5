"""The built program that listens on TCP, and editors that connect to it."""
import os
import re
import select
import socket
import subprocess

from support.program import PROGRAM, SECONDS, expect
from support.texts import FIRST, request


def free_port(host="127.0.0.1"):
    """A port on which nothing listens."""
    with socket.socket(socket.AF_INET6 if ":" in host else socket.AF_INET) as probe:
        probe.bind((host, 0))
        return probe.getsockname()[1]


class Server:
    """The program that listens."""

    def __init__(self, *words, host="127.0.0.1", environment=None):
        self.host, self.port = host, free_port(host)
        shown = "[%s]" % host if ":" in host else host
        self.address = "%s:%d" % (shown, self.port)
        self.process = subprocess.Popen([PROGRAM, "--listen", self.address, *words], stdin=subprocess.DEVNULL, stdout=subprocess.PIPE, stderr=subprocess.PIPE,
                                        bufsize=0, env=environment)
        said = self.process.stderr.readline()
        expect(said, b"listening on %s\n" % self.address.encode(), "the first line on standard error")

    def __enter__(self):
        return self

    def __exit__(self, *_):
        self.process.kill()
        self.process.wait()
        for stream in (self.process.stdout, self.process.stderr):
            stream.close()

    def editor(self):
        return Editor(self)

    def is_up(self):
        return self.process.poll() is None

    def end(self):
        """The status, and what else came on standard output and error."""
        status = self.process.wait(SECONDS)
        return status, self.process.stdout.read(), self.process.stderr.read()

    def memory(self):
        """How much memory it holds, in KiB."""
        with open("/proc/%d/status" % self.process.pid, encoding="ascii") as file:
            return int(re.search(r"VmRSS:\s+(\d+)", file.read())[1])

    def processor_seconds(self):
        with open("/proc/%d/stat" % self.process.pid, encoding="ascii") as file:
            fields = file.read().rsplit(")", 1)[1].split()
        return (int(fields[11]) + int(fields[12])) / os.sysconf("SC_CLK_TCK")


class Editor:
    """One connection to the program."""

    def __init__(self, server):
        self.socket = socket.create_connection((server.host, server.port), timeout=SECONDS)
        self.socket.setsockopt(socket.IPPROTO_TCP, socket.TCP_NODELAY, 1)
        self.so_far = b""

    def __enter__(self):
        return self

    def __exit__(self, *_):
        self.socket.close()

    def sends(self, data):
        self.socket.sendall(data)
        return self

    def reads(self, count):
        while len(self.so_far) < count:
            piece = self.socket.recv(1 << 16)
            if not piece:
                raise AssertionError("the connection ended after %r" % self.so_far[-200:])
            self.so_far += piece
        answer, self.so_far = self.so_far[:count], self.so_far[count:]
        return answer

    def message(self):
        """The text of the next message."""
        header = b""
        while not header.endswith(b"\r\n\r\n"):
            header += self.reads(1)
        return self.reads(int(re.match(rb"Content-Length: (\d+)\r\n\r\n$", header)[1])).decode()

    def expects(self, *parts):
        """The next messages, each of which has this part."""
        for part in parts:
            message = self.message()
            expect(part in message, True, "%s in %s" % (part, message))
        return self

    def reads_to(self, part):
        """Reads on, up to the first such bytes."""
        while part not in self.so_far:
            piece = self.socket.recv(1 << 16)
            if not piece:
                raise AssertionError("the connection ended before %r" % part)
            self.so_far = self.so_far[-len(part):] + piece
        self.so_far = self.so_far[self.so_far.index(part) + len(part):]
        return self

    def is_silent(self, seconds):
        return not self.so_far and not select.select([self.socket], [], [], seconds)[0]

    def is_ended(self):
        """Whether nothing more comes."""
        return not self.so_far and self.socket.recv(1) == b""


def launches(path, stops=False):
    return FIRST + request(2, "launch", program=path, stopOnEntry=stops) + request(3, "configurationDone")


def attaches():
    return FIRST + request(2, "attach") + request(3, "configurationDone")


STARTED = ('"initialize"', '"launch"', '"initialized"', '"configurationDone"')
JOINED = ('"initialize"', '"attach"', '"initialized"', '"configurationDone"')


def leaves(editor, seq):
    editor.sends(request(seq, "disconnect")).expects('"disconnect"')
