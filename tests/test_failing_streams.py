"""The built program where its streams fail: devices that are full, descriptors that are closed or too few, limits of the system, and peers
that go or stop reading."""
import contextlib
import os
import resource
import signal
import socket
import struct
import subprocess
import tempfile
import time
from dataclasses import dataclass

from support.debugging import INITIALIZED, UNREADABLE, event_text, success_text
from support.files import file_of
from support.listening import JOINED, STARTED, Editor, Server, attaches, free_port, launches, leaves
from support.program import PROGRAM, SECONDS, Talk, expect, frame
from support.programs import CIRCLES
from support.texts import ANSWERS, FIRST, FIRST_ANSWER, SESSION, refused, request

FAULT = b"rvdap: read or write fault\n"
BAD = frame("{}")
# Prints 7 for ever.
PRINTS_ON = b"li a0, 7\nli a7, 1\ne: ecall\nj e\n"
PRINTED = '{"body":{"category":"stdout","output":"7\\n"},"event":"output","seq":%d,"type":"event"}'
PAUSE = request(4, "pause", threadId=1)


def shell(line, data=b"", *words):
    """The program, started by a shell whose line names it as "$0" and the words as "$1", "$2", .."""
    ran = subprocess.run(["/bin/sh", "-c", line, PROGRAM, *words], input=data, capture_output=True, timeout=SECONDS)
    return ran.stdout, ran.stderr, ran.returncode


# ---- standard streams

def an_output_on_a_full_device_is_a_fault():
    for data in (SESSION, FIRST):
        expect(shell('"$0" > /dev/full', data), (b"", FAULT, 1), "the end")
    expect(shell('"$0" > /dev/full'), (b"", b"", 0), "the end where there is nothing to answer")


def a_standard_error_that_is_closed_or_full_changes_nothing_else():
    for error in ("2>&-", "2> /dev/full"):
        expect(shell('"$0" ' + error, SESSION), (ANSWERS, b"", 0), "a session, " + error)
        expect(shell('"$0" ' + error, FIRST + BAD), (FIRST_ANSWER, b"", 1), "a bad message, " + error)
        expect(shell('"$0" > /dev/full ' + error, FIRST), (b"", b"", 1), "an output that fails as well, " + error)
        expect(shell('"$0" asm "$1" ' + error, b"", "/no such file"), (b"", b"", 1), "a file that is not there, " + error)
        expect(shell('"$0" --fly ' + error), (b"", b"", 2), "a word that is none, " + error)


@dataclass
class Unannounced:
    """A program that begins to listen without a word."""
    port: int
    host: str = "127.0.0.1"


def editor_at(server):
    """A connection to it, once it listens."""
    end = time.monotonic() + SECONDS
    while True:
        try:
            return Editor(server)
        except ConnectionRefusedError:
            if time.monotonic() > end:
                raise
            time.sleep(0.02)


def a_server_whose_standard_streams_are_closed_serves():
    """Also where the first descriptors of its own are those of the streams that it has not."""
    for streams in ("2>&-", "2> /dev/full", ">&- 2>&-", "<&- >&- 2>&-"):
        server = Unannounced(free_port())
        line = 'exec "$0" --listen %s:%d --once %s' % (server.host, server.port, streams)
        process = subprocess.Popen(["/bin/sh", "-c", line, PROGRAM], stdin=subprocess.DEVNULL)
        try:
            with editor_at(server) as editor:
                expect(editor.sends(SESSION).reads(len(ANSWERS)), ANSWERS, "the answers, " + streams)
            expect(process.wait(SECONDS), 0, "the status, " + streams)
        finally:
            process.kill()
            process.wait()


def an_output_that_nobody_reads_is_a_fault_and_no_signal():
    with file_of(b"nop\n" * 100) as path:
        for words, data in ((("asm", path), b""), ((), SESSION)):
            from_it, its_output = os.pipe()
            os.close(from_it)
            try:
                ran = subprocess.run([PROGRAM, *words], input=data, stdout=its_output, stderr=subprocess.PIPE, timeout=SECONDS)
            finally:
                os.close(its_output)
            expect((ran.stderr, ran.returncode), (FAULT, 1), "the end of %s" % (words,))


# ---- limits of the system

def a_limit_of_file_size_ends_it_by_a_signal():
    """As the system has it, unless the signal is ignored: then the write fails."""
    def limit():
        resource.setrlimit(resource.RLIMIT_FSIZE, (0, 0))

    with file_of(b"nop\n" * 100) as path:
        for words in (("asm", path), ("--help",), ()):
            for restored, wanted in ((True, (b"", -signal.SIGXFSZ)), (False, (FAULT, 1))):
                with tempfile.TemporaryFile() as output:
                    # Python ignores the signal, and hands that on unless it is told to restore it.
                    ran = subprocess.run([PROGRAM, *words], input=SESSION, stdout=output, stderr=subprocess.PIPE, preexec_fn=limit,
                                         restore_signals=restored, timeout=SECONDS)
                expect((ran.stderr, ran.returncode), wanted, "the end of %s, the signal restored: %s" % (words, restored))


def a_stack_of_256_kib_is_enough():
    """Also for JSON and for an expression as deep as they may be."""
    deep = frame('{"seq":3,"type":"request","command":"threads","x":%s}' % ("[" * 126 + "]" * 126))
    with file_of(CIRCLES) as path:
        breakpoint = {"line": 1, "condition": "(" * 64 + "1" + ")" * 64}
        sets = request(4, "setBreakpoints", source={"path": path}, breakpoints=[breakpoint])
        data = FIRST + request(2, "launch", program=path) + deep + sets + request(5, "disconnect")
        whole = shell('exec "$0"', data)
        expect((b'"verified":true' in whole[0], *whole[1:]), (True, b"", 0), "the session with the stack that there is")
        expect(shell('ulimit -s 256; exec "$0"', data), whole, "the session with a stack of 256 KiB")


# ---- descriptors

def allows(process, count):
    """From now on a process has so many descriptors at most."""
    resource.prlimit(process.pid, resource.RLIMIT_NOFILE, (count, 256))


def a_file_for_which_there_is_no_descriptor_cannot_be_read():
    """It can be read once there is one."""
    with file_of(CIRCLES) as path, Talk() as talk:
        expect(talk.answers(FIRST, FIRST_ANSWER), FIRST_ANSWER, "the first answer")
        allows(talk.process, 3)
        told = refused(*UNREADABLE, "launch", 2, 2)
        expect(talk.answers(request(2, "launch", program=path), told), told, "a launch")
        allows(talk.process, 4)
        told = frame(success_text("launch", 3, 3)) + frame(event_text(INITIALIZED, 4))
        expect(talk.answers(request(3, "launch", program=path), told), told, "the next")
        expect(talk.end(), (0, b""), "the end")


def an_editor_for_whom_there_is_no_descriptor_is_a_fault():
    """A connection has two: one that is read from, and one that is written to."""
    for count in (4, 5):
        with Server() as server:
            allows(server.process, count)
            # The connection may be reset before it is made.
            with contextlib.suppress(ConnectionResetError), server.editor():
                server.process.wait(SECONDS)
            expect(server.end(), (1, b"", FAULT), "the end")


def with_descriptors_for_one_editor_each_is_served():
    """And none for a file: the launch is refused, and the next editor is served as well."""
    with file_of(CIRCLES) as path, Server() as server:
        allows(server.process, 6)
        for _ in range(3):
            with server.editor() as editor:
                editor.sends(FIRST + request(2, "launch", program=path)).expects('"initialize"', '"fileUnreadable"')
                leaves(editor, 3)
        expect(server.is_up(), True, "the server is up")


# ---- peers

def waits(server):
    """Whether a server comes to take no processor time, and holds no more memory then."""
    end = time.monotonic() + SECONDS
    while time.monotonic() < end:
        used, memory = server.processor_seconds(), server.memory()
        time.sleep(0.5)
        if server.processor_seconds() - used <= 0.02 and server.memory() - memory < 256:
            return True
    return False


def a_peer_that_stops_reading_while_the_program_prints_holds_it():
    """What may wait is bounded, and so is memory: the program waits, and goes on where it was once more is read."""
    with file_of(PRINTS_ON) as path, Server() as server, server.editor() as editor:
        editor.sends(launches(path)).expects(*STARTED)
        expect(waits(server), True, "the program waits in the memory that it has")
        wanted = b"".join(frame(PRINTED % seq) for seq in range(5, 60005))
        expect(editor.reads(len(wanted)) == wanted, True, "what is printed comes in order")
        expect(waits(server), True, "and waits again")
        editor.sends(PAUSE).reads_to(b'"command":"pause"').reads_to(b'"reason":"pause"')
        expect(server.memory() < 16384, True, "the memory of all that, %d KiB" % server.memory())


def pipes_that_are_not_read_hold_the_program_too():
    with file_of(PRINTS_ON) as path, Talk() as talk:
        talk.write_all(launches(path))
        time.sleep(0.5)
        with open("/proc/%d/status" % talk.process.pid, encoding="ascii") as status:
            memory = int(status.read().split("VmRSS:")[1].split()[0])
        expect(memory < 16384, True, "the memory is %d KiB" % memory)
        wanted = b"".join(frame(PRINTED % seq) for seq in range(5, 3000))
        told = talk.read(2000 + len(wanted))
        expect(wanted[:100000] in told, True, "what is printed comes in order")


def resets(editor):
    """The connection ends as if the peer's machine was gone."""
    editor.socket.setsockopt(socket.SOL_SOCKET, socket.SO_LINGER, struct.pack("ii", 1, 0))
    editor.socket.close()


def a_peer_that_resets_while_the_program_prints_leaves_it_to_the_next():
    with file_of(PRINTS_ON) as path, Server() as server:
        for read in (0, 100000):
            with server.editor() as editor:
                editor.sends(launches(path)).expects(*STARTED)
                editor.reads(read)
                time.sleep(0.1)
                resets(editor)
            with server.editor() as editor:
                editor.sends(attaches()).expects(*JOINED, '"continued"', '"output"')
                editor.sends(request(4, "disconnect", terminateDebuggee=True)).reads_to(b'"command":"disconnect"')


def a_peer_that_resets_while_its_answers_wait_ends_alone():
    with Server() as server:
        for _ in range(5):
            with server.editor() as editor:
                editor.socket.setblocking(False)
                data, sent = FIRST + b"".join(request(n, "threads") for n in range(2, 30000)), 0
                try:
                    while sent < len(data):
                        sent += editor.socket.send(data[sent:sent + (1 << 16)])
                except BlockingIOError:
                    pass
                resets(editor)
            with server.editor() as editor:
                expect(editor.sends(SESSION).reads(len(ANSWERS)), ANSWERS, "the next one's answers")


def a_peer_that_closes_its_side_leaves_the_program_running():
    with file_of(CIRCLES) as path, Server() as server:
        with server.editor() as editor:
            editor.sends(launches(path)).expects(*STARTED)
            editor.socket.shutdown(socket.SHUT_WR)
            expect(editor.is_ended(), True, "the end of the connection")
        with server.editor() as editor:
            editor.sends(attaches()).expects(*JOINED, '"continued"')


def a_peer_that_closes_what_it_reads_is_a_fault_of_its_own():
    with Server() as server:
        with server.editor() as editor:
            editor.sends(FIRST).reads(len(FIRST_ANSWER))
            editor.socket.shutdown(socket.SHUT_RD)
            editor.sends(request(2, "disconnect"))
        with server.editor() as editor:
            expect(editor.sends(SESSION).reads(len(ANSWERS)), ANSWERS, "the next one's answers")


def checks():
    """Each check with its name."""
    return [("failing streams: " + check.__name__.replace("_", " "), check) for check in (
        an_output_on_a_full_device_is_a_fault,
        a_standard_error_that_is_closed_or_full_changes_nothing_else,
        a_server_whose_standard_streams_are_closed_serves,
        an_output_that_nobody_reads_is_a_fault_and_no_signal,
        a_limit_of_file_size_ends_it_by_a_signal,
        a_stack_of_256_kib_is_enough,
        a_file_for_which_there_is_no_descriptor_cannot_be_read,
        an_editor_for_whom_there_is_no_descriptor_is_a_fault,
        with_descriptors_for_one_editor_each_is_served,
        a_peer_that_stops_reading_while_the_program_prints_holds_it,
        pipes_that_are_not_read_hold_the_program_too,
        a_peer_that_resets_while_the_program_prints_leaves_it_to_the_next,
        a_peer_that_resets_while_its_answers_wait_ends_alone,
        a_peer_that_closes_its_side_leaves_the_program_running,
        a_peer_that_closes_what_it_reads_is_a_fault_of_its_own,
    )]
