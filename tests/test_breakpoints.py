"""The built program, as an editor meets it that sets breakpoints: what it says of them, and where they stop a program."""
from support.allocations import ends_well_without_memory
from support.breaks import ADDRESS, CONDITION, FUNCTION, LONGEST_LOG, NO_CODE, UNKNOWN, at, body_of, is_not, is_set, named, on
from support.files import file_of
from support.launches import (CONTINUED, DONE, EXITED, INITIALIZED, PRINTED, STOPPED, TERMINATED, expect_all, frames, is_told,
                              is_told_however_cut)
from support.program import Talk, answered, expect, frame, run
from support.programs import CIRCLES
from support.texts import CAPABILITIES, DISCONNECTED, FIRST, FIRST_ANSWER, refused, request

# Texts of docs/PROTOCOL.md, sections 4 and 5.
SET = '{"body":%s,"command":"%s","request_seq":%d,"seq":%d,"success":true,"type":"response"}'
LOGGED = '{"body":{"category":"console","output":"%s\\n"},"event":"output","seq":%d,"type":"event"}'
HIT = '{"body":{"allThreadsStopped":true,"hitBreakpointIds":[%s],"reason":"%s","threadId":1},"event":"stopped","seq":%d,"type":"event"}'

# Prints 1, 2 and 3, and ends with the code 3. The function stands on the lines 9 to 12.
COUNTS = """# Counts to 3.
_start: li s0, 3
again:  call count
        blt a0, s0, again
        li a7, 93
        ecall

# Prints one more than the last time.
count:  addi a0, a0, 1
        li a7, 1
        ecall
        ret
"""
CALL, BRANCH, COUNT, PRINT, RETURN = 0x10004, 0x1000c, 0x10018, 0x10020, 0x10024

ONE = {"threadId": 1}


def lines(seq, path, *asked):
    return request(seq, "setBreakpoints", source={"path": path}, breakpoints=asked)


def addresses(seq, *asked):
    return request(seq, "setInstructionBreakpoints", breakpoints=asked)


def functions(seq, *asked):
    return request(seq, "setFunctionBreakpoints", breakpoints=asked)


def said(command, request_seq, seq, *entries):
    return frame(SET % (body_of(entries), command, request_seq, seq))


def said_of_lines(request_seq, seq, *entries):
    return said("setBreakpoints", request_seq, seq, *entries)


def hit(seq, *ids, reason="breakpoint"):
    return frame(HIT % (",".join(map(str, ids)), reason, seq))


def launched(path):
    """What an editor sends up to a launch, and what it then reads."""
    return FIRST + request(2, "launch", program=path), FIRST_ANSWER + frames(DONE % ("launch", 2, 2), INITIALIZED % 3)


def debugged(path):
    """A session with breakpoints in COUNTS: what the editor sends, each time with all that it then waits for."""
    return [
        launched(path),
        (lines(3, path, at(9), at(13)), said_of_lines(3, 4, is_set(1, COUNT, 9), is_not(NO_CODE, 13))),
        (request(4, "setExceptionBreakpoints", filters=[]), frame(DONE % ("setExceptionBreakpoints", 4, 5))),
        (request(5, "configurationDone"), frame(DONE % ("configurationDone", 5, 6)) + hit(7, 1)),
        (request(6, "next", **ONE), frames(DONE % ("next", 6, 8), STOPPED % ("step", 9))),
        (lines(7, path, at(8, "a0 == 2"), at(12, None, "2")), said_of_lines(7, 10, is_set(2, COUNT, 9), is_set(3, RETURN, 12))),
        (request(8, "continue", **ONE), frames(CONTINUED % (8, 11), PRINTED % (1, 12), PRINTED % (2, 13)) + hit(14, 3)),
        (request(9, "stepOut", **ONE), frames(DONE % ("stepOut", 9, 15), STOPPED % ("step", 16))),
        (addresses(10, on("0x00010018", 8), on("0x00010019")), said("setInstructionBreakpoints", 10, 17, is_set(4, PRINT), is_not(ADDRESS))),
        (request(11, "continue", **ONE), frame(CONTINUED % (11, 18)) + hit(19, 2)),
        (lines(12, path), said_of_lines(12, 20)),
        (request(13, "continue", **ONE), frame(CONTINUED % (13, 21)) + hit(22, 4, reason="instruction breakpoint")),
        (request(14, "continue", **ONE), frames(CONTINUED % (14, 23), PRINTED % (3, 24), EXITED % (3, 25), TERMINATED % 26)),
        (lines(15, path, at(1)), said_of_lines(15, 27, is_set(5, 0x10000, 2))),
        (request(16, "disconnect"), frame(DISCONNECTED % (16, 28))),
    ]


def logged(path):
    """A session with a function breakpoint from its second call on, and a logpoint after what is printed."""
    second = dict(reason="function breakpoint")
    return [
        launched(path),
        (functions(3, named(" count ", None, "2"), named("printed")), said("setFunctionBreakpoints", 3, 4, is_set(1, COUNT), is_not(FUNCTION))),
        (lines(4, path, at(12, log="printed {a0}")), said_of_lines(4, 5, is_set(2, RETURN, 12))),
        (request(5, "configurationDone"), frames(DONE % ("configurationDone", 5, 6), PRINTED % (1, 7), LOGGED % ("printed {a0}", 8)) + hit(9, 1, **second)),
        (request(6, "continue", **ONE), frames(CONTINUED % (6, 10), PRINTED % (2, 11), LOGGED % ("printed {a0}", 12)) + hit(13, 1, **second)),
        (functions(7) + lines(8, path, at(12, log="x" * (LONGEST_LOG + 1))),
         said("setFunctionBreakpoints", 7, 14) + refused("tooMuch", 15, "setBreakpoints", 8, 15)),
        (request(9, "continue", **ONE), frames(CONTINUED % (9, 16), PRINTED % (3, 17), LOGGED % ("printed {a0}", 18), EXITED % (3, 19), TERMINATED % 20)),
        (request(10, "disconnect"), frame(DISCONNECTED % (10, 21))),
    ]


def function_breakpoints_stop_and_logpoints_speak():
    is_told(COUNTS, logged)


def logpoints_are_the_same_however_their_requests_are_cut():
    is_told_however_cut(COUNTS, logged)


def breakpoints_are_set_met_and_replaced():
    is_told(COUNTS, debugged)


def breakpoints_are_the_same_however_their_requests_are_cut():
    is_told_however_cut(COUNTS, debugged)


def what_is_sent_ahead_of_the_start_is_set_before_the_first_instruction():
    with file_of(COUNTS) as path:
        sent, told = launched(path)
        sent += request(3, "configurationDone") + lines(4, path, at(2, "pc == 0x10000 && sp == 0x110000")) + addresses(5, on("65536"))
        told += frame(DONE % ("configurationDone", 3, 4)) + said_of_lines(4, 5, is_set(1, 0x10000, 2)) + said(
            "setInstructionBreakpoints", 5, 6, is_set(2, 0x10000)) + hit(7, 1, 2)
        with Talk() as talk:
            expect(talk.answers(sent, told), told, "what is told of one piece")
            expect_all(talk, b"", "the rest")


def a_restart_keeps_breakpoints_and_counts_anew():
    with file_of(COUNTS) as path, Talk() as talk:
        sent, told = launched(path)
        rows = [
            (sent, told),
            (lines(3, path, at(4, None, "2")), said_of_lines(3, 4, is_set(1, BRANCH, 4))),
            (request(4, "configurationDone"), frames(DONE % ("configurationDone", 4, 5), PRINTED % (1, 6), PRINTED % (2, 7)) + hit(8, 1)),
            (request(5, "restart"), frames(DONE % ("restart", 5, 9), PRINTED % (1, 10), PRINTED % (2, 11)) + hit(12, 1)),
            (request(6, "continue", **ONE), frames(CONTINUED % (6, 13), PRINTED % (3, 14)) + hit(15, 1)),
        ]
        for sent, told in rows:
            expect(talk.answers(sent, told), told, "what is told after %r" % sent)
        expect_all(talk, b"", "the rest")


def a_source_is_named_as_the_launch_named_it():
    """The path is compared as it stands; breakpoints of another source leave those that are set."""
    with file_of(COUNTS) as path:
        folder, _, name = path.rpartition("/")
        sent, told = launched(path)
        sent += lines(3, path, at(3))
        told += said_of_lines(3, 4, is_set(1, CALL, 3))
        for seq, other in enumerate((name, folder + "/./" + name, path + " ", ""), 4):
            sent += lines(seq, other, at(3), at(99))
            told += said_of_lines(seq, seq + 1, is_not(UNKNOWN, 3), is_not(UNKNOWN, 99))
        sent += request(8, "configurationDone") + request(9, "disconnect")
        told += frame(DONE % ("configurationDone", 8, 9)) + frame(DISCONNECTED % (9, 10))
        expect(run(sent), (told, b"", 0), "breakpoints of other sources")
        with Talk() as talk:
            sent, told = sent[:-len(request(9, "disconnect"))], told[:-len(frame(DISCONNECTED % (9, 10)))] + hit(10, 1)
            expect(talk.answers(sent, told), told, "the stop after them")
            expect_all(talk, b"", "the rest")


def lines_are_counted_as_the_editor_counts_them():
    with file_of(COUNTS) as path, Talk() as talk:
        sent = request(1, "initialize", linesStartAt1=False) + request(2, "launch", program=path) + lines(3, path, at(7), at(11), at(12))
        told = frames(CAPABILITIES % (1, 1), DONE % ("launch", 2, 2), INITIALIZED % 3) + said_of_lines(
            3, 4, is_set(1, COUNT, 8), is_set(2, RETURN, 11), is_not(NO_CODE, 12))
        expect(talk.answers(sent, told), told, "what is said of lines from 0")
        expect_all(talk, b"", "the rest")


def breakpoints_that_are_refused_change_nothing():
    with file_of(COUNTS) as path, Talk() as talk:
        first = FIRST + lines(2, path, at(3)) + request(3, "launch", program=path)
        told = FIRST_ANSWER + refused("wrongPhase", 3, "setBreakpoints", 2, 2) + frames(DONE % ("launch", 3, 3), INITIALIZED % 4)
        expect(talk.answers(first, told), told, "what is told before the launch, and of it")
        rows = [
            (lines(4, path, at(3, "a0 =="), at(3, "a0 == 1")), said_of_lines(4, 5, is_not(CONDITION, 3), is_set(1, CALL, 3))),
            (lines(5, path, *(1025 * [at(9)])), refused("tooMuch", 15, "setBreakpoints", 5, 6)),
            (lines(6, path, {"line": "9"}), refused("badArguments", 2, "setBreakpoints", 6, 7)),
            (lines(6, path), refused("repeatedSequence", 6, "setBreakpoints", 6, 8)),
            (addresses(7, {}), refused("badArguments", 2, "setInstructionBreakpoints", 7, 9)),
            (request(8, "configurationDone"), frames(DONE % ("configurationDone", 8, 10), PRINTED % (1, 11)) + hit(12, 1)),
        ]
        for sent, told in rows:
            expect(talk.answers(sent, told), told, "what is told after %r" % sent[:200])
        expect_all(talk, b"", "the rest")


def a_breakpoint_stops_a_long_run_at_its_hit():
    """Two million rounds of one instruction; the program is not held before."""
    with file_of(CIRCLES) as path, Talk() as talk:
        sent, told = launched(path)
        sent += lines(3, path, at(1, "pc == 65536", "2000001")) + request(4, "configurationDone")
        told += said_of_lines(3, 4, is_set(1, 0x10000, 1)) + frame(DONE % ("configurationDone", 4, 5)) + hit(6, 1)
        expect(talk.answers(sent, told), told, "the stop at the hit")
        sent, told = request(5, "next", **ONE), frame(DONE % ("next", 5, 7)) + hit(8, 1)
        expect(talk.answers(sent, told), told, "the stop at the next hit")
        expect_all(talk, b"", "the rest")


def a_session_with_breakpoints_ends_well_without_memory():
    with file_of(COUNTS) as path:
        sent, told = launched(path)
        sent += lines(3, path, at(9, "a0 == 1", "1"), at(13)) + addresses(4, on("0x00010018")) + request(5, "configurationDone")
        told += said_of_lines(3, 4, is_set(1, COUNT, 9), is_not(NO_CODE, 13)) + said("setInstructionBreakpoints", 4, 5, is_set(2, COUNT))
        told += frame(DONE % ("configurationDone", 5, 6)) + hit(7, 2, reason="instruction breakpoint")
        ends_well_without_memory(lambda environment: answered(sent, told, environment=environment), told)


def a_session_with_logpoints_ends_well_without_memory():
    with file_of(COUNTS) as path:
        sent, told = launched(path)
        sent += functions(3, named("count", "a0 == 1", "1"), named("f")) + lines(4, path, at(12, log="here")) + request(5, "configurationDone")
        told += said("setFunctionBreakpoints", 3, 4, is_set(1, COUNT), is_not(FUNCTION)) + said_of_lines(4, 5, is_set(2, RETURN, 12))
        told += frames(DONE % ("configurationDone", 5, 6), PRINTED % (1, 7), LOGGED % ("here", 8)) + hit(9, 1, reason="function breakpoint")
        ends_well_without_memory(lambda environment: answered(sent, told, environment=environment), told)


def checks():
    """Each check with its name."""
    return [(check.__name__.replace("_", " "), check) for check in (
        breakpoints_are_set_met_and_replaced,
        breakpoints_are_the_same_however_their_requests_are_cut,
        what_is_sent_ahead_of_the_start_is_set_before_the_first_instruction,
        a_restart_keeps_breakpoints_and_counts_anew,
        a_source_is_named_as_the_launch_named_it,
        lines_are_counted_as_the_editor_counts_them,
        breakpoints_that_are_refused_change_nothing,
        function_breakpoints_stop_and_logpoints_speak,
        logpoints_are_the_same_however_their_requests_are_cut,
        a_breakpoint_stops_a_long_run_at_its_hit,
        a_session_with_breakpoints_ends_well_without_memory,
        a_session_with_logpoints_ends_well_without_memory,
    )]
