"""The built program over TCP: `--listen`, editors one after the other, and peers that behave badly."""
import contextlib
import errno
import os
import signal
import socket
import struct
import subprocess
import tempfile
import threading
import time

from support.files import file_of
from support.interruptions import is_told_whatever_is_interrupted
from support.launches import EXITED, TERMINATED, frames, started
from support.listening import JOINED, STARTED, Server, attaches, free_port, launches, leaves
from support.preloading import preload
from support.program import PROGRAM, SECONDS, expect, frame
from support.programs import CALLS, CIRCLES, COUNTS, LONG
from support.texts import ANSWERS, DISCONNECTED, FIRST, FIRST_ANSWER, SESSION, THREADS, request

FAULT = b"rvdap: read or write fault\n"
BAD = b"rvdap: bad message\n"
THREAD = {"threadId": 1}


# ---- one editor, and others after it

def the_first_session_over_tcp():
    with Server() as server, server.editor() as editor:
        expect(editor.sends(SESSION).reads(len(ANSWERS)), ANSWERS, "the answers")
        expect(editor.is_ended(), True, "the end of the connection")


def two_editors_one_after_the_other():
    with file_of(CIRCLES) as path:
        with Server() as server:
            with server.editor() as first:
                first.sends(launches(path)).expects(*STARTED)
                first.sends(request(4, "disconnect", terminateDebuggee=False)).expects('"disconnect"')
                expect(first.is_ended(), True, "the first one's end")
            with server.editor() as second:
                second.sends(attaches()).expects(*JOINED, '"continued"')
                second.sends(request(4, "pause", **THREAD)).expects('"pause"', '"stopped"')
                second.sends(request(5, "stackTrace", **THREAD)).expects('"totalFrames"')
            expect(server.is_up(), True, "the server outlives its editors")


def a_third_waits_while_one_is_served():
    with Server() as server, server.editor() as first:
        expect(first.sends(FIRST).reads(len(FIRST_ANSWER)), FIRST_ANSWER, "the first one's answer")
        with server.editor() as second, server.editor() as third:
            second.sends(FIRST)
            third.sends(FIRST)
            expect((second.is_silent(0.2), third.is_silent(0.2)), (True, True), "nobody else is answered")
            leaves(first, 2)
            expect(second.reads(len(FIRST_ANSWER)), FIRST_ANSWER, "the second one's answer")
            expect(third.is_silent(0.2), True, "the third one waits")
            leaves(second, 2)
            expect(third.reads(len(FIRST_ANSWER)), FIRST_ANSWER, "the third one's answer")


def once_serves_once():
    with Server("--once") as server:
        with server.editor() as editor:
            expect(editor.sends(SESSION).reads(len(ANSWERS)), ANSWERS, "the answers")
        expect(server.end(), (0, b"", b""), "the end")


def once_says_what_a_bad_message_is():
    with Server("--once") as server:
        with server.editor() as editor:
            editor.sends(frame("{}"))
            expect(editor.is_ended(), True, "the end of the connection")
        expect(server.end(), (1, b"", BAD), "the end")


def a_bad_message_ends_its_connection_alone():
    with Server() as server:
        for data in (frame("{}"), b"bogus\r\n\r\n", b"a" * 4096):
            with server.editor() as editor:
                expect(editor.sends(FIRST + data).reads(len(FIRST_ANSWER)), FIRST_ANSWER, "what came before it is answered")
                expect(editor.is_ended(), True, "the end of the connection")
        with server.editor() as editor:
            expect(editor.sends(FIRST).reads(len(FIRST_ANSWER)), FIRST_ANSWER, "the next one is served")


# ---- a program that is given

def a_given_program_is_joined():
    with file_of(CALLS) as path:
        with Server("--program", path, "--memory", "8") as server, server.editor() as editor:
            editor.sends(attaches()).expects(*JOINED, '"reason":"entry"')
            editor.sends(request(4, "readMemory", memoryReference="0x00011fff", count=2)).expects('"unreadableBytes":1')
            editor.sends(request(5, "continue", **THREAD)).expects('"continue"', '"exitCode":6', '"terminated"')


def without_a_program_there_is_none_to_join():
    with Server() as server, server.editor() as editor:
        editor.sends(FIRST + request(2, "attach")).expects('"initialize"', '"noMachine"')


def a_given_program_that_is_not_right_is_said():
    with file_of(b"nop\nj x\n") as path:
        for words, status, err in ((["--program", path], 1, b"rvdap: %s: line 2: Undefined\n" % path.encode()),
                                   (["--program", path + "x"], 1, b"rvdap: %sx: cannot read\n" % path.encode())):
            ran = subprocess.run([PROGRAM, "--listen", "127.0.0.1:0", *words], capture_output=True, timeout=SECONDS)
            expect((ran.stdout, ran.stderr, ran.returncode), (b"", err, status), " ".join(words))


# ---- peers that behave badly

def a_peer_that_vanishes_leaves_the_program_running():
    """It is gone in the middle of a frame; the next one finds the program where it is."""
    with file_of(COUNTS) as path:
        for reset in (False, True):
            with Server() as server:
                with server.editor() as editor:
                    editor.sends(launches(path)).expects(*STARTED)
                    editor.sends(request(4, "threads")[:10])
                    time.sleep(0.1)
                    if reset:
                        editor.socket.setsockopt(socket.SOL_SOCKET, socket.SO_LINGER, struct.pack("ii", 1, 0))
                before = server.processor_seconds()
                time.sleep(0.3)
                expect(server.processor_seconds() > before, True, "the program runs on")
                with server.editor() as editor:
                    editor.sends(attaches()).expects(*JOINED, '"continued"')
                    editor.sends(request(4, "pause", **THREAD)).expects('"pause"', '"stopped"')


def resets(editor):
    """The peer is gone at once, and what was sent with it (RFC 9293, section 3.5.3: a reset)."""
    editor.socket.setsockopt(socket.SOL_SOCKET, socket.SO_LINGER, struct.pack("ii", 1, 0))
    editor.socket.close()


def peers_that_reset_before_they_are_accepted_are_passed_over():
    with Server() as server, server.editor() as first:
        first.sends(FIRST).reads(len(FIRST_ANSWER))
        for said in (b"", FIRST, FIRST[:10]):
            resets(server.editor().sends(said))
        with server.editor() as last:
            last.sends(FIRST)
            leaves(first, 2)
            expect(last.reads(len(FIRST_ANSWER)), FIRST_ANSWER, "the answer of one that came after them")
            expect(last.is_silent(0.1), True, "nothing else")


def connections_that_break_before_they_are_accepted_are_passed_over():
    """The system says that they were aborted, or that they cannot be set to send at once."""
    with tempfile.TemporaryDirectory() as folder:
        library = preload(folder, "abort")
        for aborted, unset in ((1, 0), (3, 0), (0, 1), (0, 3), (2, 2)):
            with Server(environment=dict(os.environ, LD_PRELOAD=library, ABORT_ACCEPTS=str(aborted), ABORT_SETS=str(unset))) as server:
                for _ in range(unset):
                    with server.editor() as editor:
                        expect(editor.is_ended(), True, "one that cannot be set is closed")
                with server.editor() as editor:
                    expect(editor.sends(FIRST).reads(len(FIRST_ANSWER)), FIRST_ANSWER, "the next one's answer")


def errors_of_the_network_before_an_accept_are_passed_over():
    """Linux hands them on from the connection; the want of a descriptor ends the door."""
    with tempfile.TemporaryDirectory() as folder:
        environment = dict(os.environ, LD_PRELOAD=preload(folder, "abort"), ABORT_ACCEPTS="2")
        for passed in (errno.ENONET, errno.EPROTO, errno.ENOPROTOOPT, errno.EOPNOTSUPP, errno.ENETDOWN, errno.ENETUNREACH, errno.EHOSTDOWN, errno.EHOSTUNREACH):
            with Server(environment=dict(environment, ABORT_ERROR=str(passed))) as server, server.editor() as editor:
                expect(editor.sends(FIRST).reads(len(FIRST_ANSWER)), FIRST_ANSWER, "an answer after " + errno.errorcode[passed])
        for fault in (errno.EMFILE, errno.ENFILE, errno.ENOSYS):
            with Server(environment=dict(environment, ABORT_ERROR=str(fault))) as server:
                # It may have ended before the editor comes.
                with contextlib.suppress(ConnectionError), server.editor():
                    server.process.wait(SECONDS)
                expect(server.end(), (1, b"", FAULT), "the end after " + errno.errorcode[fault])


def polls_that_find_no_memory_are_made_again():
    """One after the other, twice in a row: the program is heard and serves."""
    with file_of(CIRCLES) as path, tempfile.TemporaryDirectory() as folder:
        library = preload(folder, "abort")
        for failed in (1, 2):
            with Server(environment=dict(os.environ, LD_PRELOAD=library, ABORT_POLLS=str(failed))) as server, server.editor() as editor:
                editor.sends(launches(path)).expects(*STARTED)
                editor.sends(request(4, "pause", **THREAD)).expects('"pause"', '"stopped"')


def polls_that_fail_on_are_a_fault():
    """At the door that of the program; at a look while a program runs that of the connection. For an editor a door polls three times at most."""
    with file_of(CIRCLES) as path, tempfile.TemporaryDirectory() as folder:
        environment = dict(os.environ, LD_PRELOAD=preload(folder, "abort"), ABORT_POLLS="1000000")
        with Server(environment=environment) as server:
            expect(server.end(), (1, b"", FAULT), "the end of a wait for an editor")
        with Server(environment=dict(environment, ABORT_POLLED="3", ABORT_POLLS="3")) as server:
            with server.editor() as editor:
                editor.sends(launches(path)).expects(*STARTED)
                expect(editor.is_ended(), True, "the connection is ended")
            with server.editor() as editor:
                editor.sends(attaches()).expects(*JOINED, '"continued"')


def each_message_is_sent_at_once():
    """None waits until the editor has acknowledged the one before: TCP_NODELAY is set where the program sends."""
    with tempfile.TemporaryDirectory() as folder:
        report = os.path.join(folder, "report")
        with Server(environment=dict(os.environ, LD_PRELOAD=preload(folder, "nodelay"), NODELAY_REPORT=report)) as server:
            for _ in range(2):
                with server.editor() as editor:
                    expect(editor.sends(SESSION).reads(len(ANSWERS)), ANSWERS, "the answers")
        with open(report, encoding="ascii") as file:
            expect(set(file.read().split()), {"1"}, "whether each send was of a socket that is set so")


def two_at_once_are_served_in_the_order_in_which_they_came():
    with Server() as server:
        server.process.send_signal(signal.SIGSTOP)
        with server.editor() as first, server.editor() as second:
            second.sends(FIRST)
            server.process.send_signal(signal.SIGCONT)
            expect(second.is_silent(0.2), True, "the second one waits")
            expect(first.sends(FIRST).reads(len(FIRST_ANSWER)), FIRST_ANSWER, "the first one's answer")
            leaves(first, 2)
            expect(second.reads(len(FIRST_ANSWER)), FIRST_ANSWER, "the second one's answer")


def a_peer_that_closes_its_side_is_answered_first():
    with Server() as server, server.editor() as editor:
        editor.sends(FIRST + request(2, "threads"))
        editor.socket.shutdown(socket.SHUT_WR)
        editor.expects('"initialize"', '"threads"')
        expect(editor.is_ended(), True, "the end")


def one_byte_at_a_time():
    with Server() as server, server.editor() as editor:
        for i in range(0, len(FIRST), 1):
            editor.sends(FIRST[i:i + 1])
            time.sleep(0.002)
        expect(editor.reads(len(FIRST_ANSWER)), FIRST_ANSWER, "the answer")


def a_peer_that_never_reads_costs_nothing():
    """Its answers fill what the system holds; the program waits, and serves the next one when it is gone."""
    with Server() as server:
        with server.editor() as editor:
            editor.socket.setblocking(False)
            data = FIRST + b"".join(request(n, "threads") for n in range(2, 200000))
            sent, end = 0, time.monotonic() + 1
            while sent < len(data) and time.monotonic() < end:
                try:
                    sent += editor.socket.send(data[sent:sent + (1 << 16)])
                except BlockingIOError:
                    time.sleep(0.02)
            before = server.processor_seconds()
            time.sleep(0.5)
            expect(server.processor_seconds() - before < 0.1, True, "it waits")
        with server.editor() as editor:
            expect(editor.sends(FIRST).reads(len(FIRST_ANSWER)), FIRST_ANSWER, "the next one's answer")


def many_connections_at_constant_memory():
    with Server() as server:
        def serve(count):
            for _ in range(count):
                with server.editor() as editor:
                    expect(editor.sends(SESSION).reads(len(ANSWERS)), ANSWERS, "the answers")
                    expect(editor.is_ended(), True, "the end")

        serve(100)
        before = server.memory()
        serve(900)
        expect(server.memory() - before < 512, True, "the memory after 1,000 connections: %d KiB, and %d before" % (server.memory(), before))
        expect(len(os.listdir("/proc/%d/fd" % server.process.pid)) < 10, True, "the descriptors")


# ---- the end of a connection

def what_was_told_is_not_lost_where_more_was_sent():
    """An editor that sends on after its `disconnect`, or after a bad message, and reads late, gets each answer and then the end."""
    numbers = range(2, 61)
    asked = FIRST + b"".join(request(n, "threads") for n in numbers)
    told = FIRST_ANSWER + b"".join(frame(THREADS % (n, n)) for n in numbers)
    ends = ((request(61, "disconnect"), frame(DISCONNECTED % (61, 61))), (frame("{}"), b""), (b"bogus\r\n\r\n", b""))
    with Server() as server:
        for small in (False, True):
            for last, answer in ends:
                for size in (0, 100, 70_000, 1_000_000):
                    with server.editor() as editor:
                        if small:
                            editor.socket.setsockopt(socket.SOL_SOCKET, socket.SO_RCVBUF, 4096)
                        editor.sends(asked + last + b"x" * size)
                        time.sleep(0.2)
                        what = "what is told, %d bytes after %r" % (size, last[-20:])
                        expect(editor.reads(len(told + answer)), told + answer, what)
                        expect(editor.is_ended(), True, "the end of the connection")


def a_peer_that_sends_on_after_its_end_does_not_hold_the_door():
    def sends_on(connection, is_over):
        with contextlib.suppress(OSError):
            while not is_over.is_set():
                connection.sendall(b"x" * 4096)

    with Server() as server, server.editor() as first:
        first.sends(FIRST).expects('"initialize"')
        leaves(first, 2)
        is_over = threading.Event()
        sender = threading.Thread(target=sends_on, args=(first.socket, is_over))
        sender.start()
        try:
            with server.editor() as second:
                begun = time.monotonic()
                expect(second.sends(FIRST).reads(len(FIRST_ANSWER)), FIRST_ANSWER, "the next one's answer")
                expect(time.monotonic() - begun < 5, True, "the door was not held")
        finally:
            is_over.set()
            sender.join()


def a_peer_that_stays_after_its_end_does_not_hold_the_door():
    with Server() as server, server.editor() as first:
        first.sends(FIRST).expects('"initialize"')
        leaves(first, 2)
        expect(first.is_ended(), True, "the end is told at once")
        with server.editor() as second:
            begun = time.monotonic()
            expect(second.sends(FIRST).reads(len(FIRST_ANSWER)), FIRST_ANSWER, "the next one's answer")
            expect(time.monotonic() - begun < 5, True, "the door was not held")


# ---- time

def a_pause_of_an_endless_program_is_answered_at_once():
    with file_of(CIRCLES) as path:
        with Server() as server, server.editor() as editor:
            editor.sends(launches(path)).expects(*STARTED)
            time.sleep(0.3)
            expect(editor.is_silent(0), True, "it does not stop by itself")
            begun = time.monotonic()
            editor.sends(request(4, "pause", **THREAD)).expects('"pause"', '"reason":"pause"')
            expect(time.monotonic() - begun < 0.5, True, "the time of a pause")


def nothing_spins_while_nothing_runs():
    with Server() as server:
        before = server.processor_seconds()
        time.sleep(0.4)
        with server.editor() as editor:
            editor.sends(FIRST).reads(len(FIRST_ANSWER))
            time.sleep(0.4)
        expect(server.processor_seconds() - before < 0.2, True, "the time of the processor")


# ---- addresses

def other_addresses():
    with Server(host="::1") as server, server.editor() as editor:
        expect(editor.sends(FIRST).reads(len(FIRST_ANSWER)), FIRST_ANSWER, "over IPv6")
    port = free_port()
    process = subprocess.Popen([PROGRAM, "--listen", "localhost:%d" % port, "--once"], stdin=subprocess.DEVNULL, stderr=subprocess.PIPE)
    try:
        expect(process.stderr.readline(), b"listening on localhost:%d\n" % port, "the line of a name")
        with socket.create_connection(("localhost", port), timeout=SECONDS) as connection:
            connection.sendall(SESSION)
            said = b""
            while len(said) < len(ANSWERS):
                said += connection.recv(1 << 16)
        expect((said, process.wait(SECONDS)), (ANSWERS, 0), "the answers over a name, and the status")
    finally:
        process.kill()
        process.wait()
        process.stderr.close()


def a_port_of_0_is_printed_as_given():
    process = subprocess.Popen([PROGRAM, "--listen", "127.0.0.1:0"], stdin=subprocess.DEVNULL, stderr=subprocess.PIPE)
    try:
        expect(process.stderr.readline(), b"listening on 127.0.0.1:0\n", "the line")
    finally:
        process.kill()
        process.wait()
        process.stderr.close()


def an_address_that_cannot_be_listened_on_is_said():
    with socket.socket() as taken:
        taken.bind(("127.0.0.1", 0))
        taken.listen()
        for address in ("127.0.0.1:%d" % taken.getsockname()[1], "bogus", "127.0.0.1", "127.0.0.1:99999", "203.0.113.1:1", ""):
            ran = subprocess.run([PROGRAM, "--listen", address], capture_output=True, timeout=SECONDS)
            expect((ran.stdout, ran.stderr, ran.returncode), (b"", FAULT, 1), address)


def other_words_are_a_fault_of_usage():
    for words in (["--once"], ["--program", "p.s"], ["--listen"], ["--listen", "a", "--listen", "b"], ["--listen", "127.0.0.1:0", "--memory", "5"],
                  ["--listen", "127.0.0.1:0", "asm", "p.s"], ["--listen", "127.0.0.1:0", "x"]):
        ran = subprocess.run([PROGRAM, *words], capture_output=True, timeout=SECONDS)
        expect((ran.stdout, ran.returncode, ran.stderr.startswith(b"error: ")), (b"", 2, True), " ".join(words))


# ---- signals

def a_signal_ends_it_as_the_system_does():
    for which in (signal.SIGTERM, signal.SIGINT):
        with Server() as server, server.editor() as editor:
            editor.sends(FIRST).reads(len(FIRST_ANSWER))
            server.process.send_signal(which)
            expect(server.end(), (-which, b"", b""), which.name)


def a_signal_at_any_call_leaves_a_session_as_it_is():
    """A program runs meanwhile, so that there are looks for input as well as waits."""
    with file_of(LONG) as path:
        sent, told = started(path)
        told += frames(EXITED % (0, 5), TERMINATED % 6)

        def play(environment):
            with Server("--once", environment=environment) as server, server.editor() as editor:
                said = editor.sends(sent).reads(len(told))
                editor.socket.shutdown(socket.SHUT_WR)
                return (said, editor.is_ended(), *server.end())

        is_told_whatever_is_interrupted(play, (told, True, 0, b"", b""), 6)


def checks():
    found = (the_first_session_over_tcp, two_editors_one_after_the_other, a_third_waits_while_one_is_served, once_serves_once, once_says_what_a_bad_message_is,
             a_bad_message_ends_its_connection_alone, a_given_program_is_joined, without_a_program_there_is_none_to_join,
             a_given_program_that_is_not_right_is_said, a_peer_that_vanishes_leaves_the_program_running,
             peers_that_reset_before_they_are_accepted_are_passed_over, connections_that_break_before_they_are_accepted_are_passed_over,
             errors_of_the_network_before_an_accept_are_passed_over, polls_that_find_no_memory_are_made_again,
             polls_that_fail_on_are_a_fault, each_message_is_sent_at_once,
             two_at_once_are_served_in_the_order_in_which_they_came, a_peer_that_closes_its_side_is_answered_first,
             one_byte_at_a_time, a_peer_that_never_reads_costs_nothing, many_connections_at_constant_memory,
             what_was_told_is_not_lost_where_more_was_sent, a_peer_that_sends_on_after_its_end_does_not_hold_the_door,
             a_peer_that_stays_after_its_end_does_not_hold_the_door,
             a_pause_of_an_endless_program_is_answered_at_once, nothing_spins_while_nothing_runs, other_addresses, a_port_of_0_is_printed_as_given,
             an_address_that_cannot_be_listened_on_is_said, other_words_are_a_fault_of_usage, a_signal_ends_it_as_the_system_does,
             a_signal_at_any_call_leaves_a_session_as_it_is)
    return [("over TCP: " + check.__name__.replace("_", " "), check) for check in found]
