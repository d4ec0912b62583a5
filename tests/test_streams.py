"""The built program over standard streams of other kinds: descriptors that do not block, files, devices, and none."""
import os
import signal
import subprocess
import tempfile
import threading
import time

from support.files import file_of
from support.interruptions import is_told_whatever_is_interrupted
from support.launches import DONE, EXITED, STOPPED, TERMINATED, frames, started
from support.preloading import preload
from support.program import PROGRAM, SECONDS, Talk, answered, expect, frame, run
from support.programs import CIRCLES, INCREMENT, INCREMENT_LISTING, LONG
from support.streams import FAULT, KINDS, Streams, pipes
from support.texts import ANSWERS, DISCONNECTED, FIRST, FIRST_ANSWER, SESSION, THREADS, request

# More than a pipe, a socket or a terminal holds.
COUNT = 3000
MANY = FIRST + b"".join(request(n, "threads") for n in range(2, COUNT + 2))
MANY_ANSWERS = FIRST_ANSWER + b"".join(frame(THREADS % (n, n)) for n in range(2, COUNT + 2))
LAST = request(COUNT + 2, "disconnect")
LAST_ANSWER = frame(DISCONNECTED % (COUNT + 2, COUNT + 2))


def an_empty_input_that_does_not_block_is_waited_for():
    for kind in KINDS:
        with Streams(kind) as streams:
            time.sleep(0.2)
            expect(streams.process.poll(), None, "a status before anything was sent")
            for i in range(0, len(SESSION), 20):
                streams.write(SESSION[i:i + 20])
                time.sleep(0.03)
            expect(streams.read(len(ANSWERS)), ANSWERS, "the answers over " + kind.__name__)
            status, err, seconds = streams.end()
            expect((status, err), (0, b""), "the end over " + kind.__name__)
            expect(seconds < 0.5, True, "%.2f seconds of processor time is a wait" % seconds)


def each_answer_comes_before_more_is_waited_for():
    with Streams(pipes) as streams:
        streams.write(FIRST)
        expect(streams.read(len(FIRST_ANSWER)), FIRST_ANSWER, "the first answer")
        time.sleep(0.1)
        streams.write(request(2, "threads"))
        expect(streams.read(len(frame(THREADS % (2, 2)))), frame(THREADS % (2, 2)), "the second answer")
        streams.close_input()
        expect(streams.end()[:2], (0, b""), "the end")


def a_slow_reader_of_an_output_that_does_not_block_gets_each_answer():
    for kind in KINDS:
        with Streams(kind) as streams:
            writer = threading.Thread(target=streams.write, args=(MANY + LAST,))
            writer.start()
            time.sleep(0.3)
            expect(streams.read(len(MANY_ANSWERS + LAST_ANSWER), 5000), MANY_ANSWERS + LAST_ANSWER, "the answers over " + kind.__name__)
            writer.join()
            expect(streams.end()[:2], (0, b""), "the end over " + kind.__name__)


def a_full_output_costs_no_processor_time():
    with Streams(pipes) as streams:
        writer = threading.Thread(target=streams.write, args=(MANY,))
        writer.start()
        time.sleep(0.3)
        before = time_used(streams.process.pid)
        time.sleep(1)
        expect(time_used(streams.process.pid) - before < 0.5, True, "it waits")
        expect(streams.read(len(MANY_ANSWERS)), MANY_ANSWERS, "the answers")
        writer.join()


def a_poll_that_finds_no_memory_leaves_a_pause_heard():
    """An endless program runs on, and is not stopped by itself, as where nobody could be heard."""
    with file_of(CIRCLES) as path, tempfile.TemporaryDirectory() as folder:
        library = preload(folder, "abort")
        for failed in (1, 2):
            with Talk(environment=dict(os.environ, LD_PRELOAD=library, ABORT_POLLS=str(failed))) as talk:
                sent, told = started(path)
                expect(talk.answers(sent, told), told, "the start")
                expect(talk.has_more(1), False, "a stop that nobody asked for")
                told = frames(DONE % ("pause", 4, 5), STOPPED % ("pause", 6))
                expect(talk.answers(request(4, "pause", threadId=1), told), told, "a pause")


def a_poll_that_fails_on_is_a_fault():
    """Where it fails at a wait, and where it fails at a look while a program runs: nobody could be heard."""
    with file_of(CIRCLES) as path, tempfile.TemporaryDirectory() as folder:
        environment = dict(os.environ, LD_PRELOAD=preload(folder, "abort"), ABORT_POLLS="1000000")
        for kind in KINDS:
            with Streams(kind, environment=environment) as streams:
                expect(streams.end()[:2], (1, FAULT), "the end of a wait over " + kind.__name__)
        # The first is made with the wire, the next by the first look.
        with Talk(environment=dict(environment, ABORT_POLLED="1")) as talk:
            sent, told = started(path)
            expect(talk.answers(sent, told), told, "the start")
            expect((talk.process.wait(SECONDS), talk.process.stderr.read()), (1, FAULT), "the end of a look")


def time_used(process):
    """The processor time of a process that runs, in seconds."""
    with open("/proc/%d/stat" % process) as file:
        fields = file.read().rsplit(")", 1)[1].split()
    return (int(fields[11]) + int(fields[12])) / os.sysconf("SC_CLK_TCK")


def a_process_that_was_stopped_while_it_waited_goes_on():
    with Streams(pipes) as streams:
        for n in range(5):
            time.sleep(0.02)
            streams.process.send_signal(signal.SIGSTOP)
            time.sleep(0.02)
            streams.process.send_signal(signal.SIGCONT)
        streams.write(SESSION)
        expect(streams.read(len(ANSWERS)), ANSWERS, "the answers")
        expect(streams.end()[:2], (0, b""), "the end")


def the_end_of_an_input_that_does_not_block_is_its_end():
    for sent, answers in ((b"", b""), (FIRST, FIRST_ANSWER), (FIRST + SESSION[len(FIRST):][:20], FIRST_ANSWER)):
        with Streams(pipes) as streams:
            streams.write(sent)
            expect(streams.read(len(answers)), answers, "the answers")
            time.sleep(0.05)
            streams.close_input()
            expect(streams.end()[:2], (0, b""), "the end after %r" % sent)


def an_editor_that_stops_listening_while_the_program_waits_is_a_fault():
    with Streams(pipes) as streams:
        def write():
            try:
                streams.write(MANY)
            except BrokenPipeError:
                pass
        writer = threading.Thread(target=write)
        writer.start()
        time.sleep(0.3)
        streams.close_output()
        expect(streams.end()[:2], (1, FAULT), "the end")
        writer.join()


def a_file_as_input_and_output_is_served():
    with tempfile.TemporaryFile() as its_input, tempfile.TemporaryFile() as its_output:
        its_input.write(MANY)
        its_input.seek(0)
        for file in (its_input, its_output):
            os.set_blocking(file.fileno(), False)
        ran = subprocess.run([PROGRAM], stdin=its_input, stdout=its_output, stderr=subprocess.PIPE, timeout=SECONDS)
        its_output.seek(0)
        expect((its_output.read(), ran.stderr, ran.returncode), (MANY_ANSWERS, b"", 0), "files that do not block")


def the_null_device_is_an_input_that_has_ended_and_takes_all():
    ran = subprocess.run([PROGRAM], stdin=subprocess.DEVNULL, capture_output=True, timeout=SECONDS)
    expect((ran.stdout, ran.stderr, ran.returncode), (b"", b"", 0), "the null device as input")
    ran = subprocess.run([PROGRAM], input=MANY, stdout=subprocess.DEVNULL, stderr=subprocess.PIPE, timeout=SECONDS)
    expect((ran.stderr, ran.returncode), (b"", 0), "the null device as output")


def run_by_shell(line, data=b""):
    """The program, started by a shell whose line names it as "$0"."""
    ran = subprocess.run(["/bin/sh", "-c", line, PROGRAM], input=data, capture_output=True, timeout=SECONDS)
    return ran.stdout, ran.stderr, ran.returncode


def a_stream_that_is_closed_is_a_fault_where_it_is_used():
    expect(run_by_shell('"$0" <&-'), (b"", FAULT, 1), "no input")
    expect(run_by_shell('"$0" >&-', FIRST), (b"", FAULT, 1), "no output")
    expect(run_by_shell('"$0" >&-'), (b"", b"", 0), "no output, and nothing to answer")


def a_listing_is_whole_where_an_output_that_does_not_block_is_read_slowly():
    count = 5000
    with tempfile.NamedTemporaryFile(suffix=".s") as text:
        text.write(b"nop\n" * count)
        text.flush()
        with Streams(pipes, ("asm", text.name)) as streams:
            time.sleep(0.5)
            wanted = b"".join(b"%08x 00000013 addi zero, zero, 0\n" % (0x10000 + 4 * i) for i in range(count))
            expect(streams.read(len(wanted), 5000), wanted, "the listing")
            expect(streams.end()[:2], (0, b""), "the end")


# ---- signals

def a_signal_at_any_call_leaves_a_session_over_pipes_as_it_is():
    """A program runs meanwhile, so that there are looks for input as well as waits."""
    with file_of(LONG) as path:
        sent, told = started(path)
        told += frames(EXITED % (0, 5), TERMINATED % 6)
        is_told_whatever_is_interrupted(lambda environment: answered(sent, told, environment=environment), (told, b"", 0), 6)


def a_signal_at_any_call_leaves_a_session_over_streams_that_do_not_block_as_it_is():
    def play(kind, environment):
        with Streams(kind, environment=environment) as streams:
            streams.write(FIRST)
            told = streams.read(len(FIRST_ANSWER))
            streams.write(SESSION[len(FIRST):])
            return told + streams.read(len(ANSWERS) - len(told)), *streams.end()[:2]

    for kind in KINDS:
        is_told_whatever_is_interrupted(lambda environment: play(kind, environment), (ANSWERS, 0, b""), 6)


def a_signal_at_any_call_leaves_a_listing_as_it_is():
    is_told_whatever_is_interrupted(lambda environment: run(None, ("asm", INCREMENT), environment=environment), (INCREMENT_LISTING, b"", 0), 2)


def checks():
    """Each check with its name."""
    return [(check.__name__.replace("_", " "), check) for check in (
        an_empty_input_that_does_not_block_is_waited_for,
        each_answer_comes_before_more_is_waited_for,
        a_slow_reader_of_an_output_that_does_not_block_gets_each_answer,
        a_full_output_costs_no_processor_time,
        a_poll_that_finds_no_memory_leaves_a_pause_heard,
        a_poll_that_fails_on_is_a_fault,
        a_process_that_was_stopped_while_it_waited_goes_on,
        the_end_of_an_input_that_does_not_block_is_its_end,
        an_editor_that_stops_listening_while_the_program_waits_is_a_fault,
        a_file_as_input_and_output_is_served,
        the_null_device_is_an_input_that_has_ended_and_takes_all,
        a_stream_that_is_closed_is_a_fault_where_it_is_used,
        a_listing_is_whole_where_an_output_that_does_not_block_is_read_slowly,
        a_signal_at_any_call_leaves_a_session_over_pipes_as_it_is,
        a_signal_at_any_call_leaves_a_session_over_streams_that_do_not_block_as_it_is,
        a_signal_at_any_call_leaves_a_listing_as_it_is,
    )]
