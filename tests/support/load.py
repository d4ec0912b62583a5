"""Much of the same for the built program: what the first and the last of it took, and whether memory and descriptors grew."""
import os
import threading
import time
from dataclasses import dataclass, field

from support.files import file_of
from support.listening import Server
from support.program import SECONDS, Talk, expect
from support.texts import ANSWERS, FIRST, FIRST_ANSWER, SESSION, THREADS, request

# As many parts are timed.
PARTS = 1000
# Requests that are written and answers that are compared at once.
AT_ONCE = 1000
# The greatest text, of as many instructions as it holds, for the greatest memory.
GREATEST = b"nop\n" * (1048576 // 4)


@dataclass
class Load:
    """What was measured: what it is, how many there were, the seconds that each part took, and what the program held at first and in the end, KiB and
    descriptors."""
    name: str
    count: int
    seconds: list = field(default_factory=list)
    held: list = field(default_factory=list)

    def row(self):
        first, last = self.seconds[0], self.seconds[-1]
        ordered = sorted(self.seconds)
        low, high = ordered[len(ordered) // 10], ordered[-1 - len(ordered) // 10]
        (memory, descriptors), (memory_then, descriptors_then) = self.held
        return "| %s | %d | %.1f | %.3f | %.3f | %.2f | %.3f to %.3f | %d to %d | %d to %d |" % (
            self.name, self.count, sum(self.seconds), 1000 * first, 1000 * last, last / first, 1000 * low, 1000 * high, memory, memory_then,
            descriptors, descriptors_then)


HEAD = """\
| what | how many | s | first thousandth, ms | last, ms | last over first | eight of ten thousandths, ms | memory, KiB | descriptors |
|---|---|---|---|---|---|---|---|---|"""


def held(process):
    """The memory of a process, in KiB, and how many descriptors it has."""
    with open("/proc/%d/status" % process.pid, encoding="ascii") as status:
        memory = int(status.read().split("VmRSS:")[1].split()[0])
    return memory, len(os.listdir("/proc/%d/fd" % process.pid))


def repeated(load, process, act):
    """Acts as often as the load says, in parts; what is held is looked at after the first part and after the last.

    A connection is closed a moment after its editor has left, so the last look is made again where there is one more.
    """
    each = max(1, load.count // PARTS)
    for part in range(load.count // each):
        begun = time.monotonic()
        for _ in range(each):
            act()
        load.seconds.append(time.monotonic() - begun)
        if part == 0:
            load.held.append(held(process))
    until = time.monotonic() + SECONDS
    while held(process)[1] > load.held[0][1] and time.monotonic() < until:
        time.sleep(0.01)
    load.held.append(held(process))
    return load


def connections(count):
    """Editors that connect one after the other, each with a session of three requests."""
    with Server() as server:
        def serve():
            with server.editor() as editor:
                expect(editor.sends(SESSION).reads(len(ANSWERS)), ANSWERS, "the answers")
                expect(editor.is_ended(), True, "the end")
        for _ in range(20):
            serve()
        return repeated(Load("connections over TCP", count), server.process, serve)


def launches(count):
    """Launches of the greatest program, each by an editor of its own."""
    with file_of(GREATEST) as path, Server("--memory", "16384") as server:
        asked = FIRST + request(2, "launch", program=path) + request(3, "disconnect")

        def launch():
            with server.editor() as editor:
                editor.sends(asked).expects('"initialize"', '"launch","request_seq":2,"seq":2,"success":true', '"initialized"', '"disconnect"')
                expect(editor.is_ended(), True, "the end")
        # A program is there until the next one is made, and the memory of both is kept for others.
        for _ in range(4):
            launch()
        return repeated(Load("launches of 262,144 instructions", count), server.process, launch)


def frames_of(text, numbers):
    """The frames of a text for each number, which stands in it once or more."""
    more, places = len(text.replace("%d", "")), text.count("%d")
    form = b"Content-Length: %d\r\n\r\n" + text.encode()
    return b"".join([form % (more + places * len(str(number)), *[number] * places) for number in numbers])


def in_chunks(count):
    """The numbers of so many requests, from 2 on, so many at once."""
    for first in range(2, count + 2, AT_ONCE):
        yield range(first, min(first + AT_ONCE, count + 2))


def write_requests(stream, count):
    for numbers in in_chunks(count):
        data = frames_of('{"seq":%d,"type":"request","command":"threads"}', numbers)
        while data:
            data = data[os.write(stream.fileno(), data):]


def requests(count):
    """Requests on one connection, written as fast as they are taken; each answer is compared."""
    load, each = Load("requests on one connection", count), max(1, count // PARTS)
    with Talk() as talk:
        expect(talk.answers(FIRST, FIRST_ANSWER), FIRST_ANSWER, "the first answer")
        writer = threading.Thread(target=write_requests, args=(talk.process.stdin, count))
        writer.start()
        begun, answered = time.monotonic(), 0
        for numbers in in_chunks(count):
            wanted = frames_of(THREADS, numbers)
            expect(exactly(talk.process.stdout, len(wanted)) == wanted, True, "the answers from %d on" % numbers[0])
            answered += len(numbers)
            if answered >= each * (len(load.seconds) + 1):
                now = time.monotonic()
                load.seconds.append(now - begun)
                begun = now
                if len(load.held) == 0:
                    load.held.append(held(talk.process))
        load.held.append(held(talk.process))
        writer.join()
        expect(talk.end(), (0, b""), "the end")
    return load


def exactly(stream, count):
    """So many bytes of a stream, or those before its end."""
    said = bytearray()
    while len(said) < count:
        piece = os.read(stream.fileno(), count - len(said))
        if not piece:
            break
        said += piece
    return bytes(said)


def is_constant(load):
    """Whether as much is held in the end as at first, but for 1 MiB, and no more descriptors."""
    (memory, descriptors), (memory_then, descriptors_then) = load.held
    return memory_then - memory <= 1024 and descriptors_then <= descriptors
