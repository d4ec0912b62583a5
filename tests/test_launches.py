"""The built program, as an editor meets it that launches a program: what it answers, and what it tells of the program."""
import os
import re
import time

from support.allocations import each_refusal
from support.files import file_of
from support.launches import (CONTINUED, DONE, EXITED, FAILED, INITIALIZED, PRINTED, STOPPED, TERMINATED, TRAPPED, expect_all, frames,
                              is_told, is_told_however_cut, started)
from support.preloading import preload
from support.program import SECONDS, Talk, answered, expect, frame, run
from support.programs import CIRCLES
from support.streams import FAULT, Streams, pipes
from support.texts import CAPABILITIES, DISCONNECTED, FIRST, FIRST_ANSWER, THREADS, refused, request

# Prints -7, and ends with the code 3: six lines of one instruction each.
PRINTS = """_start: li a0, -7
        li a7, 1
        ecall
        li a0, 3
        li a7, 93
        ecall
"""

# Prints 0, 1, 2 and so on, for ever.
PRINTS_FOR_EVER = """        li a7, 1
more:   ecall
        addi a0, a0, 1
        j more
"""

# Prints 0, 1, 2 and so on, so many numbers, and ends with the code -1.
COUNT = 3000
PRINTS_MUCH = """        li a7, 1
        li s0, %d
more:   ecall
        addi a0, a0, 1
        blt a0, s0, more
        li a0, -1
        li a7, 93
        ecall
""" % COUNT

# Memory begins at this address.
BASE = 65536

# Stores an address in the word before it, prints what is there and where the stack begins, and stores at the address.
STORES_BEFORE = """        li t0, %d
        li a7, 1
        sw t0, -4(t0)
        lw a0, -4(t0)
        ecall
        mv a0, sp
        ecall
        sw t0, 0(t0)
"""

# Stores at the start of memory and at its end, and stops.
STORES_AT_BOTH_ENDS = """_start: auipc t0, 0
        sw t0, 0(t0)
        sw t0, -4(sp)
        ebreak
"""

# What is said of a KIB that is not taken.
NO_KIB = "error: invalid value '%s' for '--memory <KIB>': not a multiple of 4 from 4 to 16384"


def stepped(path):
    """A session that steps through PRINTS: what the editor sends, each time with all that it then waits for."""
    one = {"threadId": 1}
    return [
        (FIRST, FIRST_ANSWER),
        (request(2, "launch", program=path, stopOnEntry=True), frames(DONE % ("launch", 2, 2), INITIALIZED % 3)),
        (request(3, "configurationDone"), frames(DONE % ("configurationDone", 3, 4), STOPPED % ("entry", 5))),
        (request(4, "next", **one), frames(DONE % ("next", 4, 6), STOPPED % ("step", 7))),
        (request(5, "next", **one), frames(DONE % ("next", 5, 8), STOPPED % ("step", 9))),
        (request(6, "next", **one), frames(DONE % ("next", 6, 10), PRINTED % (-7, 11), STOPPED % ("step", 12))),
        (request(7, "next", **one), frames(DONE % ("next", 7, 13), STOPPED % ("step", 14))),
        (request(8, "next", **one), frames(DONE % ("next", 8, 15), STOPPED % ("step", 16))),
        (request(9, "next", **one), frames(DONE % ("next", 9, 17), EXITED % (3, 18), TERMINATED % 19)),
        (request(10, "next", **one), refused("ended", 18, "next", 10, 20)),
        (request(11, "threads"), frame(THREADS % (11, 21))),
        (request(12, "disconnect"), frame(DISCONNECTED % (12, 22))),
    ]


def a_program_is_stepped_from_its_entry_to_its_end():
    is_told(PRINTS, stepped)


def steps_are_the_same_however_their_requests_are_cut():
    is_told_however_cut(PRINTS, stepped)


def a_session_that_ends_with_the_start_of_its_program_is_the_same_however_it_is_cut():
    with file_of(PRINTS) as path:
        data = (FIRST + request(2, "launch", program=path + ".no") + request(3, "configurationDone") + request(4, "launch", program=path)
                + request(5, "threads") + request(6, "setExceptionBreakpoints", filters=[]) + request(7, "next", threadId=1)
                + request(8, "launch", program=path) + request(9, "configurationDone"))
        told = FIRST_ANSWER + refused("fileUnreadable", 21, "launch", 2, 2) + refused("wrongPhase", 3, "configurationDone", 3, 3) + frames(
            DONE % ("launch", 4, 4), INITIALIZED % 5, THREADS % (5, 6), DONE % ("setExceptionBreakpoints", 6, 7)) + refused(
            "wrongPhase", 3, "next", 7, 8) + refused("wrongPhase", 3, "launch", 8, 9) + frames(
            DONE % ("configurationDone", 9, 10), PRINTED % (-7, 11), EXITED % (3, 12), TERMINATED % 13)
        expect(answered(data, told), (told, b"", 0), "the session in one write")
        expect(answered(None, told, pieces=[data[i:i + 1] for i in range(len(data))]), (told, b"", 0), "the session byte by byte")
        for cut in list(range(0, len(data), 17)) + list(range(len(data) - 20, len(data) + 1)):
            expect(answered(None, told, pieces=[data[:cut], data[cut:]]), (told, b"", 0), "the session, cut at %d" % cut)


def requests_that_wait_are_answered_before_the_program_moves():
    # One write of so few bytes into a pipe is one read.
    with file_of(PRINTS) as path, Talk() as talk:
        sent, told = started(path)
        sent += request(4, "next", threadId=1) + request(5, "pause", threadId=2) + request(6, "pause", threadId=1)
        told += refused("notStopped", 4, "next", 4, 5) + refused("noThread", 7, "pause", 5, 6) + frames(
            DONE % ("pause", 6, 7), STOPPED % ("pause", 8))
        expect(talk.answers(sent, told), told, "what is told of a pause in the piece of the start")
        told = frames(CONTINUED % (7, 9), PRINTED % (-7, 10), EXITED % (3, 11), TERMINATED % 12)
        expect(talk.answers(request(7, "continue", threadId=1), told), told, "what is told of a program that goes on")
        expect_all(talk, b"", "the rest")


def a_file_that_cannot_be_read_is_refused_and_the_session_goes_on():
    longest = PRINTS.encode() + b"#" * (1048576 - len(PRINTS))
    with file_of(longest) as path, file_of(longest + b"#") as too_long:
        folder = os.path.dirname(path)
        fifo = os.path.join(folder, "fifo")
        os.mkfifo(fifo)
        expect((os.path.getsize(path), os.path.getsize(too_long)), (1048576, 1048577), "the lengths of the files")
        bad = (path + ".no", os.path.join(path, "p.s"), folder, too_long, fifo, "", path + "\0")
        sent, told, seq = FIRST, FIRST_ANSWER, 1
        for seq, name in enumerate(bad, 2):
            sent += request(seq, "launch", program=name)
            told += refused("fileUnreadable", 21, "launch", seq, seq)
        sent += request(seq + 1, "launch", program=path) + request(seq + 2, "configurationDone")
        told += frames(DONE % ("launch", seq + 1, seq + 1), INITIALIZED % (seq + 2), DONE % ("configurationDone", seq + 2, seq + 3),
                       PRINTED % (-7, seq + 4), EXITED % (3, seq + 5), TERMINATED % (seq + 6))
        with Talk() as talk:
            talk.write(sent)
            expect_all(talk, told, "the answers")


def a_file_that_was_replaced_since_it_was_looked_at_is_refused():
    """It is a FIFO then, which the test holds open: it could be opened, and a read of it would never end."""
    with file_of(PRINTS) as path:
        folder = os.path.dirname(path)
        fifo = os.path.join(folder, "fifo")
        os.mkfifo(fifo)
        held = os.open(fifo, os.O_RDWR)
        environment = dict(os.environ, LD_PRELOAD=preload(folder, "replace"), REPLACE_FILE=path, REPLACE_BY=fifo)
        told = FIRST_ANSWER + refused("fileUnreadable", 21, "launch", 2, 2)
        expect(run(FIRST + request(2, "launch", program=path), environment=environment), (told, b"", 0), "a launch")
        os.close(held)


def a_text_with_an_error_is_refused_with_its_line():
    rows = (
        ("nop\n\n        j end\nEnd:    nop\n", "line 3: Undefined"),
        ("nop\r\n  adi a0, a0, 1\r\n", "line 2: UnknownInstruction"),
        (b"nop # \xff\n", "line 1: NotUtf8"),
        (".space 1048576\nnop", "line 2: TooLarge"),
    )
    for text, error in rows:
        for lines, first in ((True, FIRST), (False, request(1, "initialize", linesStartAt1=False))):
            with file_of(text) as path, file_of(PRINTS) as right:
                sent = first + request(2, "launch", program=path) + request(3, "launch", program=right) + request(4, "configurationDone")
                told = frames(CAPABILITIES % (1, 1), FAILED % (error, 2, 2), DONE % ("launch", 3, 3), INITIALIZED % 4,
                              DONE % ("configurationDone", 4, 5), PRINTED % (-7, 6), EXITED % (3, 7), TERMINATED % 8)
                expect(answered(sent, told), (told, b"", 0), "a text with %s, and lines from 1: %s" % (error, lines))


def a_program_without_an_end_runs_until_the_end_of_the_input_is_met():
    with file_of(CIRCLES) as path:
        sent, told = started(path)
        expect(run(sent), (told, b"", 0), "a program that runs for ever, and no more input")
        expect(run(sent + FIRST[:30]), (told, b"", 0), "the same, and an unfinished frame")


def the_end_of_the_input_is_met_while_a_program_runs():
    """A program does not move once the input has ended: what it would have told is not told."""
    with file_of(PRINTS) as path:
        sent, told = started(path)
        expect(run(sent), (told, b"", 0), "a program whose editor has left")


def a_program_without_an_end_is_paused_at_once_and_goes_on():
    with file_of(CIRCLES) as path, Talk() as talk:
        sent, told = started(path)
        expect(talk.answers(sent, told), told, "what is told of the start")
        expect(talk.has_more(0.4), False, "something is told of a program that runs")
        rows = [
            (request(4, "pause", threadId=1), frames(DONE % ("pause", 4, 5), STOPPED % ("pause", 6))),
            (request(5, "continue", threadId=1), frame(CONTINUED % (5, 7))),
            (request(6, "pause", threadId=1), frames(DONE % ("pause", 6, 8), STOPPED % ("pause", 9))),
            (request(7, "stepOut", threadId=1), frame(DONE % ("stepOut", 7, 10))),
            (request(8, "disconnect"), frame(DISCONNECTED % (8, 11))),
        ]
        for sent, told in rows:
            begun = time.monotonic()
            expect(talk.answers(sent, told), told, "what is told after %r" % sent)
            expect(time.monotonic() - begun < 1, True, "the time of an answer")
        # The program ends of itself, before its input does.
        expect(talk.process.wait(SECONDS), 0, "the status")
        expect_all(talk, b"", "the rest")


def an_editor_that_vanishes_while_the_program_prints_is_a_fault():
    with file_of(PRINTS_FOR_EVER) as path, Talk() as talk:
        sent, told = started(path)
        told += frames(*(PRINTED % (n, 5 + n) for n in range(10)))
        expect(talk.answers(sent, told), told, "what is told before")
        talk.process.stdout.close()
        expect(talk.process.wait(SECONDS), 1, "the status")
        expect(talk.process.stderr.read(), FAULT, "standard error")


def an_editor_that_vanishes_while_the_program_runs_is_a_fault():
    with file_of(CIRCLES) as path, Talk() as talk:
        sent, told = started(path)
        expect(talk.answers(sent, told), told, "what is told before")
        talk.process.stdout.close()
        try:
            talk.write(request(4, "threads"))
        except BrokenPipeError:
            pass
        expect(talk.process.wait(SECONDS), 1, "the status")
        expect(talk.process.stderr.read(), FAULT, "standard error")


def a_program_that_prints_more_than_may_wait_loses_nothing_to_a_slow_editor():
    with file_of(PRINTS_MUCH) as path:
        sent, told = started(path)
        told += frames(*(PRINTED % (n, 5 + n) for n in range(COUNT)), EXITED % (-1, 5 + COUNT), TERMINATED % (6 + COUNT))
        sent_last, told_last = request(4, "disconnect"), frame(DISCONNECTED % (4, 7 + COUNT))
        expect(len(told) > 4 * 65536, True, "more than may wait, and than a pipe holds")
        # The pipe is full before it is read.
        with Streams(pipes) as streams:
            streams.write(sent)
            time.sleep(0.3)
            expect(streams.read(len(told), 3000), told, "what is told over pipes that do not block")
            streams.write(sent_last)
            expect(streams.read(len(told_last)), told_last, "the last answer")
            expect(streams.end()[:2], (0, b""), "the end")
        with Talk() as talk:
            talk.write(sent)
            time.sleep(0.3)
            expect(talk.read(len(told)), told, "what is told over pipes that block")
            expect(talk.answers(sent_last, told_last), told_last, "the last answer")
            expect_all(talk, b"", "the rest")


def memory_ends_where_the_command_line_says():
    for words, kib in (((), 1024), (("--memory", "1024"), 1024), (("--memory", "4"), 4), (("--memory=8",), 8), (("--memory", "000012"), 12),
                       (("--memory", "0" * 40 + "16"), 16), (("--memory", "16380"), 16380), (("--memory", "16384", "--"), 16384)):
        end = BASE + 1024 * kib
        with file_of(STORES_BEFORE % end) as path:
            sent, told = started(path)
            told += frames(PRINTED % (end, 5), PRINTED % (end, 6), TRAPPED % ("store access fault", 7))
            expect(answered(sent, told, words), (told, b"", 0), "a program at the end of its memory, by %r" % (words,))


def resident_kib(talk):
    """How many KiB of the running program lie in memory."""
    with open("/proc/%d/status" % talk.process.pid, encoding="ascii") as file:
        return int(re.search(r"VmRSS:\s+(\d+) kB", file.read())[1])


def page_faults(talk):
    """How many pages were given to the running program so far."""
    with open("/proc/%d/stat" % talk.process.pid, encoding="ascii") as file:
        return int(file.read().rpartition(")")[2].split()[7])


def memory_takes_room_where_it_is_written():
    with file_of(STORES_AT_BOTH_ENDS) as path, Talk(("--memory", "16384")) as talk:
        expect(talk.answers(FIRST, FIRST_ANSWER), FIRST_ANSWER, "the first answer")
        before = resident_kib(talk)
        sent, told = (it.removeprefix(first) for it, first in zip(started(path), (FIRST, FIRST_ANSWER)))
        told += frame(STOPPED % ("breakpoint", 5))
        expect(talk.answers(sent, told), told, "what is told of a program that stores at both ends of its memory")
        expect(resident_kib(talk) - before < 3 * 1024, True, "16 MiB of memory, two pages of which are written, take less than 3 MiB")


def a_launch_takes_few_pages():
    for kib in (4, 1024, 16384):
        with file_of("li a0, 1\nli a7, 93\necall\n") as path, Talk(("--memory", str(kib))) as talk:
            expect(talk.answers(FIRST, FIRST_ANSWER), FIRST_ANSWER, "the first answer")
            before, told = page_faults(talk), frames(DONE % ("launch", 2, 2), INITIALIZED % 3)
            expect(talk.answers(request(2, "launch", program=path), told), told, "what is told of a launch")
            faults = page_faults(talk) - before
            expect(faults <= 100, True, "a launch in %d KiB of memory has few page faults, and not %d" % (kib, faults))


def a_text_fits_exactly_the_memory_that_was_asked_for():
    for words, kib in (((), 1024), (("--memory", "4"), 4), (("--memory", "16384"), 16384)):
        with file_of(".space %d\nnop\n" % (1024 * kib)) as too_large, file_of(".space %d\nnop\n" % (1024 * kib - 4)) as fitting:
            sent = FIRST + request(2, "launch", program=too_large) + request(3, "launch", program=fitting)
            told = FIRST_ANSWER + frames(FAILED % ("line 2: TooLarge", 2, 2), DONE % ("launch", 3, 3), INITIALIZED % 4)
            expect(run(sent, words=words), (told, b"", 0), "texts of the size of memory, and of a word more, by %r" % (words,))


def expect_usage(words, first_line):
    """These words are a fault of usage, and nothing is served: the message begins so, and names help."""
    out, err, status = run(FIRST, words=words)
    lines = err.decode().splitlines()
    expect((out, lines[0], lines[-1], status), (b"", first_line, "For more information, try '--help'.", 2), "words %r" % (words,))


def memory_that_is_not_offered_is_a_fault_of_usage():
    for kib in ("0", "1", "2", "3", "5", "6", "7", "4095", "1023", "1025", "16381", "16385", "16388", "65536", "4294967296", "4294967300",
                "18446744073709551620", "", "+4", " 4", "4 ", "4.0", "4e0", "0x10", "4K", "4KiB", "1,024", "1_024", "four", "\u0664", "\uff14"):
        for words in (("--memory", kib), ("--memory=" + kib,)):
            expect_usage(words, NO_KIB % kib)
    expect_usage(("--memory=-4",), NO_KIB % "-4")


def an_option_out_of_place_is_a_fault_of_usage():
    used_by_asm = "error: no option stands beside a command"
    for words, first_line in (
        (("--memory",), "error: a value is required for '--memory <KIB>' but none was supplied"),
        (("--memory", "4", "--memory", "4"), "error: the argument '--memory <KIB>' cannot be used multiple times"),
        (("--memory", "-4"), "error: unexpected argument '-4' found"),
        (("--memory", "4", "8"), "error: unrecognized subcommand '8'"),
        (("--mem", "4"), "error: unexpected argument '--mem' found"),
        (("-m", "4"), "error: unexpected argument '-m' found"),
        (("memory", "4"), "error: unrecognized subcommand 'memory'"),
        (("--memory", "4", "asm", "examples/increment.s"), used_by_asm),
        (("--memory", "5", "asm", "examples/increment.s"), used_by_asm),
        (("asm", "--memory", "4", "examples/increment.s"), "error: unexpected argument '--memory' found"),
        (("asm", "examples/increment.s", "--memory", "4"), "error: unexpected argument '--memory' found"),
        # What KIB is, is looked at last.
        (("--memory", "5", "--bad"), "error: unexpected argument '--bad' found"),
    ):
        expect_usage(words, first_line)


def help_says_how_much_memory_there_is():
    out, err, status = run(b"", words=("--memory", "5", "--help"))
    expect((err, status), (b"", 0), "help after a KIB that is not taken")
    for words in ("--memory <KIB>", "a multiple of 4 from 4 to 16384", "1024 if it is not given"):
        expect(words in " ".join(out.decode().split()), True, "help has %r" % words)


def a_fault_of_usage_ends_well_without_memory():
    whole = run(b"", words=("--memory", "5"))
    expect(whole[2], 2, "the status with memory")

    def once(environment):
        got = run(b"", words=("--memory", "5"), environment=environment)
        expect(got in (whole, (b"", b"rvdap: no memory\n", 1)), True, "the fault, or no memory: %r" % (got,))

    expect(len(each_refusal(once)) > 20, True, "some allocations were refused")


def checks():
    """Each check with its name."""
    return [(check.__name__.replace("_", " "), check) for check in (
        a_program_is_stepped_from_its_entry_to_its_end,
        steps_are_the_same_however_their_requests_are_cut,
        a_session_that_ends_with_the_start_of_its_program_is_the_same_however_it_is_cut,
        requests_that_wait_are_answered_before_the_program_moves,
        a_file_that_cannot_be_read_is_refused_and_the_session_goes_on,
        a_file_that_was_replaced_since_it_was_looked_at_is_refused,
        a_text_with_an_error_is_refused_with_its_line,
        a_program_without_an_end_runs_until_the_end_of_the_input_is_met, the_end_of_the_input_is_met_while_a_program_runs,
        a_program_without_an_end_is_paused_at_once_and_goes_on,
        an_editor_that_vanishes_while_the_program_prints_is_a_fault,
        an_editor_that_vanishes_while_the_program_runs_is_a_fault,
        a_program_that_prints_more_than_may_wait_loses_nothing_to_a_slow_editor,
        memory_ends_where_the_command_line_says,
        memory_takes_room_where_it_is_written,
        a_launch_takes_few_pages,
        a_text_fits_exactly_the_memory_that_was_asked_for,
        memory_that_is_not_offered_is_a_fault_of_usage,
        an_option_out_of_place_is_a_fault_of_usage,
        help_says_how_much_memory_there_is,
        a_fault_of_usage_ends_well_without_memory,
    )]
