"""The built program, as an editor meets it over pipes."""
import json
import os
import random
import subprocess
import tempfile
import threading
import time

from support import schema
from support.program import PROGRAM, TOP, Talk, expect, frame, run
from support.texts import (ANSWERS, CANCELLED, CAPABILITIES, DISCONNECTED, FIRST, FIRST_ANSWER, INITIALIZE, REFUSED, SESSION, THREADS,
                           refused, request)

# The body of a success of `continue`, as a member.
CONTINUED = '"body":{"allThreadsContinued":true},'


def expect_run(data, out, err=b"", status=0, **how):
    got = run(data, **how)
    expect(got[0], out, "output")
    expect(got[1], err, "standard error")
    expect(got[2], status, "status")


def the_texts_have_the_lengths_of_the_protocol_profile():
    expect(len(INITIALIZE), 83, "initialize")
    expect(len(CAPABILITIES % (1, 1)), 680, "its answer")
    expect(len(THREADS % (2, 2)), 124, "the answer of threads")
    expect(len(DISCONNECTED % (3, 3)), 81, "the answer of disconnect")


def the_first_session_whole():
    expect_run(SESSION, ANSWERS)


def the_first_session_cut_after_every_byte():
    for cut in range(len(SESSION) + 1):
        expect_run(None, ANSWERS, pieces=[SESSION[:cut], SESSION[cut:]])


def the_first_session_byte_by_byte():
    expect_run(None, ANSWERS, pieces=[SESSION[i:i + 1] for i in range(len(SESSION))])


def each_answer_comes_before_more_is_read():
    with Talk() as talk:
        for sent, answer in ((FIRST, FIRST_ANSWER), (request(2, "threads"), frame(THREADS % (2, 2))), (request(3, "disconnect"), frame(DISCONNECTED % (3, 3)))):
            for i in range(len(sent) - 1):
                talk.write(sent[i:i + 1])
            expect(talk.has_more(0.05), False, "an answer before its request is whole")
            talk.write(sent[-1:])
            expect(talk.read(len(answer)), answer, "the answer")
        expect(talk.end(), (0, b""), "the end")


def the_example_session_is_the_first_session():
    lines = open(os.path.join(TOP, "examples", "first.session"), "rb").read().splitlines()
    expect(b"".join(frame(line) for line in lines), SESSION, "examples/first.session")
    played = subprocess.run([os.path.join(TOP, "examples", "play"), os.path.join(TOP, "examples", "first.session"), PROGRAM],
                            capture_output=True, timeout=20)
    answers = [CAPABILITIES % (1, 1), THREADS % (2, 2), DISCONNECTED % (3, 3)]
    wanted = b"".join(line + b"\n" + answer.encode() + b"\n" for line, answer in zip(lines, answers))
    expect((played.stdout, played.stderr, played.returncode), (wanted, b"", 0), "what examples/play prints")


def the_example_of_a_late_cancel_is_answered_that_the_request_is_gone():
    path = os.path.join(TOP, "examples", "late-cancel.session")
    played = subprocess.run([os.path.join(TOP, "examples", "play"), path, PROGRAM], capture_output=True, timeout=20)
    answers = [CAPABILITIES % (1, 1), THREADS % (2, 2), REFUSED % ("requestGone", 20, "cancel", "requestGone", 3, 3), CANCELLED % (4, 4), DISCONNECTED % (5, 5)]
    lines = open(path, "rb").read().splitlines()
    wanted = b"".join(line + b"\n" + answer.encode() + b"\n" for line, answer in zip(lines, answers, strict=True))
    expect((played.stdout, played.stderr, played.returncode), (wanted, b"", 0), "what examples/play prints")


def the_example_of_steps_debugs_a_program():
    def done(command, request_seq, seq, body=""):
        return '{%s"command":"%s","request_seq":%d,"seq":%d,"success":true,"type":"response"}' % (body, command, request_seq, seq)

    def stopped(reason, seq, hit=""):
        return '{"body":{"allThreadsStopped":true,%s"reason":"%s","threadId":1},"event":"stopped","seq":%d,"type":"event"}' % (hit, reason, seq)

    answers = [
        [CAPABILITIES % (1, 1)],
        [done("launch", 2, 2), '{"event":"initialized","seq":3,"type":"event"}'],
        [done("setBreakpoints", 3, 4, '"body":{"breakpoints":[{"id":1,"instructionReference":"0x00010014","line":8,"verified":true}]},')],
        [done("configurationDone", 4, 5), stopped("entry", 6)],
        [done("next", 5, 7), stopped("step", 8)],
        [done("continue", 6, 9, CONTINUED), stopped("breakpoint", 10, '"hitBreakpointIds":[1],')],
        [done("stepOut", 7, 11), stopped("step", 12)],
        [done("continue", 8, 13, CONTINUED), '{"body":{"exitCode":6},"event":"exited","seq":14,"type":"event"}',
         '{"event":"terminated","seq":15,"type":"event"}'],
        [done("disconnect", 9, 16)],
    ]
    path = os.path.join(TOP, "examples", "steps.session")
    played = subprocess.run([os.path.join(TOP, "examples", "play"), path, PROGRAM], capture_output=True, timeout=20, cwd=TOP)
    lines = open(path, "rb").read().decode().splitlines()
    wanted = "".join("\n".join([line] + told) + "\n" for line, told in zip(lines, answers, strict=True))
    expect((played.stdout.decode(), played.stderr, played.returncode), (wanted, b"", 0), "what examples/play prints")


def the_examples_are_valid_by_the_published_schema():
    for name in ("first.session", "late-cancel.session", "steps.session", "sorting.session"):
        played = subprocess.run([os.path.join(TOP, "examples", "play"), os.path.join(TOP, "examples", name), PROGRAM],
                                capture_output=True, check=True, timeout=20, cwd=TOP)
        messages = map(json.loads, played.stdout.decode().splitlines())
        conversation = [("editor" if message["type"] == "request" else "adapter", message) for message in messages]
        expect(list(schema.faults_in(conversation)), [], "what is wrong by the schema in %s" % name)


def an_empty_input_is_answered_with_nothing():
    expect_run(b"", b"")


def an_unfinished_frame_is_dropped():
    for cut in (1, 15, len(FIRST) - 1):
        expect_run(FIRST[:cut], b"")
        expect_run(FIRST + SESSION[len(FIRST):len(FIRST) + cut // 2], FIRST_ANSWER)


def requests_out_of_phase_are_refused():
    expect_run(request(1, "threads"), refused("wrongPhase", 3, "threads", 1, 1))
    expect_run(FIRST + request(2, "initialize", adapterID="again"), FIRST_ANSWER + refused("wrongPhase", 3, "initialize", 2, 2))
    expect_run(request(4, "disconnect") + request(5, "threads") + request(6, "initialize"),
               frame(DISCONNECTED % (4, 1)) + refused("wrongPhase", 3, "threads", 5, 2) + refused("wrongPhase", 3, "initialize", 6, 3))


def unknown_requests_and_bad_arguments_are_refused():
    expect_run(request(7, "fly"), refused("unknownCommand", 1, "fly", 7, 1))
    expect_run(FIRST + request(2, "source", sourceReference=1), FIRST_ANSWER + refused("unknownCommand", 1, "source", 2, 2))
    expect_run(FIRST + request(2, "continue", threadId=1), FIRST_ANSWER + refused("wrongPhase", 3, "continue", 2, 2))
    expect_run(request(1, "initialize", linesStartAt1=1), refused("badArguments", 2, "initialize", 1, 1))
    bad = frame('{"seq":9,"type":"request","command":"disconnect","arguments":[]}')
    expect_run(bad + request(10, "disconnect"), refused("badArguments", 2, "disconnect", 9, 1) + frame(DISCONNECTED % (10, 2)))
    expect_run(request(1, "cancel", requestId="2"), refused("badArguments", 2, "cancel", 1, 1))


def responses_and_events_are_passed_over():
    ignored = frame('{"type":"event","event":"x"}') + frame('{"seq":"no number","type":"response"}')
    expect_run(ignored + FIRST + ignored + request(2, "threads") + ignored, FIRST_ANSWER + frame(THREADS % (2, 2)))


def numbers_that_do_not_rise_are_refused():
    repeat = FIRST + request(5, "threads") + request(5, "threads") + request(4, "cancel", requestId=5) + request(6, "threads")
    answers = (FIRST_ANSWER + frame(THREADS % (5, 2)) + refused("repeatedSequence", 6, "threads", 5, 3)
               + refused("repeatedSequence", 6, "cancel", 4, 4) + frame(THREADS % (6, 5)))
    expect_run(repeat, answers)
    expect_run(None, answers, pieces=[repeat[i:i + 1] for i in range(len(repeat))])
    expect_run(SESSION[:len(FIRST)] * 2, FIRST_ANSWER + refused("repeatedSequence", 6, "initialize", 1, 2))
    expect_run(request(7, "fly") * 2, refused("unknownCommand", 1, "fly", 7, 1) + refused("repeatedSequence", 6, "fly", 7, 2))


def a_cancel_in_the_same_piece_cancels_a_request():
    piece = request(8, "threads") + request(9, "cancel", requestId=8)
    answers = refused("cancelled", 5, "threads", 8, 2) + frame(CANCELLED % (9, 3))
    expect_run(FIRST + piece, FIRST_ANSWER + answers)
    with Talk() as talk:
        expect(talk.answers(FIRST, FIRST_ANSWER), FIRST_ANSWER, "the answer of initialize")
        expect(talk.answers(piece, answers), answers, "the answers of a piece")
        expect(talk.end(), (0, b""), "the end")


def a_cancel_of_an_answered_request_comes_too_late():
    with Talk() as talk:
        for sent, answer in ((FIRST, FIRST_ANSWER), (request(5, "threads"), frame(THREADS % (5, 2))),
                             (request(9, "cancel", requestId=5), refused("requestGone", 20, "cancel", 9, 3)),
                             (request(10, "cancel", requestId=10), refused("requestGone", 20, "cancel", 10, 4)),
                             (request(11, "cancel"), frame(CANCELLED % (11, 5)))):
            expect(talk.answers(sent, answer), answer, "the answer")
        expect(talk.end(), (0, b""), "the end")


def a_cancelled_disconnect_does_not_end_the_session():
    piece = FIRST + request(2, "disconnect") + request(3, "cancel", requestId=2) + request(4, "threads")
    expect_run(piece, FIRST_ANSWER + refused("cancelled", 5, "disconnect", 2, 2) + frame(CANCELLED % (3, 3)) + frame(THREADS % (4, 4)))


def requests_in_the_piece_of_a_disconnect_are_refused_after_it():
    more = request(4, "threads") + request(5, "cancel") + request(6, "disconnect")
    answers = ANSWERS + b"".join(refused("wrongPhase", 3, name, n, n) for n, name in ((4, "threads"), (5, "cancel"), (6, "disconnect")))
    expect_run(SESSION + more, answers)


def what_is_no_message_in_the_piece_of_a_disconnect_ends_with_one_line():
    for more in (b"no frame at all\r\n\r\n", frame("no JSON"), b"\0" * 5000):
        expect_run(None, ANSWERS, b"rvdap: bad message\n", 1, pieces=[SESSION + more])
    expect_run(SESSION + b"an unfinished frame", ANSWERS)


def what_comes_after_a_disconnect_was_answered_is_not_read():
    for more in (b"no frame at all\r\n\r\n", frame("no JSON"), request(4, "threads"), b"\0" * 100000):
        with Talk() as talk:
            expect(talk.answers(SESSION, ANSWERS), ANSWERS, "the answers")
            try:
                talk.write(more)
            except BrokenPipeError:
                pass
            expect(talk.end(), (0, b""), "the end, with %r after it" % more[:20])


def the_headers_of_a_frame_may_vary():
    body = INITIALIZE.encode()
    for header in (b"content-length:%d", b"CONTENT-LENGTH: \t%d \t", b"X-A: b\r\nContent-Length: %d", b"Content-Length: %d\r\nContent-Type: x", b"Content-Length: 00000000%d"):
        expect_run(header % len(body) + b"\r\n\r\n" + body, FIRST_ANSWER)


BAD_FRAMES = {
    "a line with no colon": b"Content-Length 2\r\n\r\n{}",
    "an empty line": b"\r\nContent-Length: 2\r\n\r\n{}",
    "no header field": b"\r\n\r\n",
    "a control character": b"X: \x01\r\nContent-Length: 2\r\n\r\n{}",
    "a blank before the colon": b"Content-Length : 2\r\n\r\n{}",
    "no length": b"X: 1\r\n\r\n",
    "two lengths": b"Content-Length: 2\r\ncontent-length: 2\r\n\r\n{}",
    "a negative length": b"Content-Length: -1\r\n\r\n",
    "a length with a sign": b"Content-Length: +2\r\n\r\n{}",
    "a length of eleven digits": b"Content-Length: 00000000002\r\n\r\n{}",
    "a length above the limit": b"Content-Length: 1048577\r\n\r\n",
    "a header part without an end": b"a" * 4096,
    "line feeds alone": b"Content-Length: 2\n\n{}" + b" " * 4096,
}

BAD_MESSAGES = {
    "no JSON": b"{",
    "an empty body": b"",
    "bytes that are no text": b'"\xff"',
    "200 arrays in one another": b"[" * 200 + b"]" * 200,
    "a lone surrogate": b'"\\ud800"',
    "an object that says nothing": b"{}",
    "an array": b"[]",
    "a request without a name": b'{"seq":1,"type":"request"}',
    "another type": b'{"seq":1,"type":"Request","command":"threads"}',
    "a request without a number": b'{"type":"request","command":"threads"}',
    "a negative number": b'{"seq":-1,"type":"request","command":"threads"}',
    "a number that is not whole": b'{"seq":1.0,"type":"request","command":"threads"}',
    "a number that is too large": b'{"seq":2147483648,"type":"request","command":"threads"}',
}


def what_is_no_message_ends_with_one_line_and_loses_no_answer():
    for name, bad in list(BAD_FRAMES.items()) + [(name, frame(body)) for name, body in BAD_MESSAGES.items()]:
        for before, answers in ((b"", b""), (FIRST + request(2, "threads"), FIRST_ANSWER + frame(THREADS % (2, 2)))):
            got = run(before + bad)
            expect(got, (answers, b"rvdap: bad message\n", 1), name)
            got = run(None, pieces=[before, bad])
            expect(got, (answers, b"rvdap: bad message\n", 1), name + ", in a piece of its own")


def a_body_of_the_greatest_length_is_taken():
    pad = 1048576 - len('{"seq":1,"type":"request","command":"threads","x":""}')
    body = '{"seq":1,"type":"request","command":"threads","x":"%s"}' % ("y" * pad)
    expect(len(body), 1048576, "the body")
    expect_run(frame(body), refused("wrongPhase", 3, "threads", 1, 1))


def ten_thousand_requests_in_one_input():
    count = 10000
    data = FIRST + b"".join(request(n, "threads") for n in range(2, count + 2))
    expect_run(data, FIRST_ANSWER + b"".join(frame(THREADS % (n, n)) for n in range(2, count + 2)))


def many_requests_in_few_pieces_are_answered_in_order():
    count = 1200
    data = FIRST + b"".join(request(n, "threads") for n in range(2, count + 2))
    answers = FIRST_ANSWER + b"".join(frame(THREADS % (n, n)) for n in range(2, count + 2))
    expect(count > 4 * 256 and len(answers) > 2 * 65536 and len(data) > 65536, True, "more than may wait")
    for size in (65536, 20000, 4099):
        expect_run(None, answers, pieces=[data[i:i + size] for i in range(0, len(data), size)])


def more_requests_than_may_wait_come_before_an_answer_is_taken():
    count = 3000
    data = FIRST + b"".join(request(n, "threads") for n in range(2, count + 2))
    answers = FIRST_ANSWER + b"".join(frame(THREADS % (n, n)) for n in range(2, count + 2))
    with Talk() as talk:
        writer = threading.Thread(target=talk.write_all, args=(data,))
        writer.start()
        time.sleep(0.3)
        expect(talk.read(len(answers)), answers, "the answers")
        writer.join()
        expect(talk.end(), (0, b""), "the end")


def a_conversation_is_the_same_however_it_is_cut():
    # No cancel here names a request that waits, so that nothing depends on what was answered already.
    data = (request(1, "threads") + request(2, "initialize") + frame('{"type":"event","event":"x"}') + request(4, "threads") + request(4, "threads")
            + request(5, "fly") + request(6, "cancel", requestId=7) + request(9, "cancel") + request(10, "disconnect"))
    answers = (refused("wrongPhase", 3, "threads", 1, 1) + frame(CAPABILITIES % (2, 2)) + frame(THREADS % (4, 3))
               + refused("repeatedSequence", 6, "threads", 4, 4) + refused("unknownCommand", 1, "fly", 5, 5)
               + refused("requestGone", 20, "cancel", 6, 6) + frame(CANCELLED % (9, 7)) + frame(DISCONNECTED % (10, 8)))
    for size in (1, 2, 7, 83, 1000, len(data)):
        expect_run(None, answers, pieces=[data[i:i + size] for i in range(0, len(data), size)])
    chance = random.Random(8086)
    for _ in range(50):
        cuts = sorted(chance.randrange(len(data)) for _ in range(6))
        expect_run(None, answers, pieces=[data[a:b] for a, b in zip([0] + cuts, cuts + [len(data)])])


def a_file_as_input_is_answered_whole():
    # A file gives as much as is asked for, unlike a pipe.
    count = 3000
    data = FIRST + b"".join(request(n, "threads") for n in range(2, count + 2))
    answers = FIRST_ANSWER + b"".join(frame(THREADS % (n, n)) for n in range(2, count + 2))
    expect(len(data) > 200000, True, "more than a piece")
    with tempfile.TemporaryFile() as file:
        file.write(data)
        file.seek(0)
        ran = subprocess.run([PROGRAM], stdin=file, capture_output=True, timeout=60)
    expect((ran.stdout, ran.stderr, ran.returncode), (answers, b"", 0), "a file as standard input")


def an_editor_that_closes_its_end_early_ends_the_session_well():
    for sent, answers in ((b"", b""), (FIRST, FIRST_ANSWER), (FIRST + request(2, "threads")[:30], FIRST_ANSWER)):
        with Talk() as talk:
            expect(talk.answers(sent, answers), answers, "the answers")
            expect(talk.end(), (0, b""), "the end after %r" % sent)


def any_bytes_end_with_a_status_and_at_most_one_line():
    chance = random.Random(20191213)
    for turn in range(300):
        data = bytearray(SESSION)
        for _ in range(chance.randrange(1, 6)):
            at = chance.randrange(len(data))
            if chance.randrange(2):
                data[at] = chance.randrange(256)
            else:
                del data[at:at + chance.randrange(1, 9)]
        out, err, status = run(bytes(data))
        expect((status, err) in ((0, b""), (1, b"rvdap: bad message\n")), True, "%r: %r" % (bytes(data), (err, status)))


def an_editor_that_stops_listening_is_a_fault():
    with Talk() as talk:
        talk.process.stdout.close()
        try:
            for n in range(200):
                talk.write(FIRST + request(2, "threads") * 10)
        except BrokenPipeError:
            pass
        expect(talk.process.wait(20), 1, "status")
        expect(talk.process.stderr.read(), b"rvdap: read or write fault\n", "standard error")


def an_input_that_cannot_be_read_is_a_fault():
    program = subprocess.run([PROGRAM], stdin=os.open(TOP, os.O_RDONLY), capture_output=True, timeout=20)
    expect((program.stdout, program.stderr, program.returncode), (b"", b"rvdap: read or write fault\n", 1), "a folder as input")


def help_and_version_are_printed():
    for words, start in ((["--help"], b"A debug adapter"), (["-h"], b"A debug adapter"), (["--version"], b"rvdap "), (["-V"], b"rvdap ")):
        out, err, status = run(b"", words=words)
        expect((out[:len(start)], err, status), (start, b"", 0), " ".join(words))


def help_says_what_to_do_without_a_command():
    out = run(b"", words=["--help"])[0]
    for words in (b"Usage: rvdap [--memory <KIB>]", b"rvdap --listen <ADDR> [--program <FILE>] [--once]", b"rvdap asm <FILE>", b"rvdap watch <SCRIPT> [<C> [<N>]]",
                  b"rvdap replay [--from <N>] [--to <N>] [--facts] <SCRIPT>",
                  b"rvdap run [--memory <KIB>] [--limit <N>] [--output-limit <BYTES>]", b"[--count] [--registers] [--trace <N>] <FILE>..", b"rvdap check [--json] <FILE>..", b"rvdap labels [--json] <FILE>",
                  b"rvdap debug [--memory <KIB>] [-x <SCRIPT>] <FILE>",
                  b"  --memory <KIB>     Memory of a program", b"  --listen <ADDR> ", b"  --program <FILE> ", b"  --once ", b"  asm      Assembles FILE", b"  watch    Plays SCRIPT",
                  b"  run      Runs the program", b"  debug    Debugs the program", b"  check    Tells the errors", b"  labels   Tells the labels", b"  convert  Writes the program",
                  b"Without a command", b"Debug Adapter Protocol (DAP)", b"docs/PROTOCOL.md", b"Status: 0", b"--version"):
        expect(words in out, True, "help has %r" % words)
    expect(b"standard input and output" in b" ".join(out.split()), True, "help says where it speaks")
    expect(run(b"", words=["-h"]), (out, b"", 0), "help by its short name")
    expect(max(map(len, out.splitlines())) <= 80, True, "the lines of help fit a terminal")


def any_other_word_is_a_fault_of_usage():
    for words in (["x"], ["--x"], ["help"], [""], ["-x"], ["--help=1"]):
        out, err, status = run(b"", words=words)
        expect((out, status), (b"", 2), "words %r" % words)
        expect(bool(err.strip()), True, "a message on standard error for %r" % words)


def checks():
    """Each check with its name."""
    return [(check.__name__.replace("_", " "), check) for check in (
        the_examples_are_valid_by_the_published_schema,
        the_texts_have_the_lengths_of_the_protocol_profile,
        the_first_session_whole,
        the_first_session_cut_after_every_byte,
        the_first_session_byte_by_byte,
        each_answer_comes_before_more_is_read,
        the_example_session_is_the_first_session,
        the_example_of_a_late_cancel_is_answered_that_the_request_is_gone,
        the_example_of_steps_debugs_a_program,
        an_empty_input_is_answered_with_nothing,
        an_unfinished_frame_is_dropped,
        requests_out_of_phase_are_refused,
        unknown_requests_and_bad_arguments_are_refused,
        responses_and_events_are_passed_over,
        numbers_that_do_not_rise_are_refused,
        a_cancel_in_the_same_piece_cancels_a_request,
        a_cancel_of_an_answered_request_comes_too_late,
        a_cancelled_disconnect_does_not_end_the_session,
        requests_in_the_piece_of_a_disconnect_are_refused_after_it,
        what_is_no_message_in_the_piece_of_a_disconnect_ends_with_one_line,
        what_comes_after_a_disconnect_was_answered_is_not_read,
        the_headers_of_a_frame_may_vary,
        what_is_no_message_ends_with_one_line_and_loses_no_answer,
        a_body_of_the_greatest_length_is_taken,
        ten_thousand_requests_in_one_input,
        many_requests_in_few_pieces_are_answered_in_order,
        more_requests_than_may_wait_come_before_an_answer_is_taken,
        a_conversation_is_the_same_however_it_is_cut,
        a_file_as_input_is_answered_whole,
        an_editor_that_closes_its_end_early_ends_the_session_well,
        any_bytes_end_with_a_status_and_at_most_one_line,
        an_editor_that_stops_listening_is_a_fault,
        an_input_that_cannot_be_read_is_a_fault,
        help_and_version_are_printed,
        help_says_what_to_do_without_a_command,
        any_other_word_is_a_fault_of_usage,
    )]
