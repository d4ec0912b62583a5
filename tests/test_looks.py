"""The built program, as an editor meets it that looks into a program: frames, variables, memory, and what it changes there."""
import json
import os
import subprocess
import threading

from support import schema
from support.allocations import ends_well_without_memory
from support.breaks import at, is_set
from support.debugging import ENDED, INITIALIZED, NOT_STOPPED, exits, stopped
from support.files import file_of
from support.launches import is_told, is_told_however_cut
from support.looks import (BAD_EXPRESSION, BASE, END, NO_MACHINE, NOT_WRITABLE, OUTSIDE_MEMORY, STALE, UNKNOWN_REFERENCE, Looking, frame_at,
                           instruction, no_instruction, registers, stack)
from support.program import PROGRAM, SECONDS, TOP, Talk, expect
from support.programs import CIRCLES, COUNTS, RECURS

ENTRY, STEP, PAUSE = stopped("entry"), stopped("step"), stopped("pause")
DEEPENS = b"t: call t\n"


def hit(number):
    return stopped("breakpoint", ids=[number])


class Piped(Looking):
    """A session over pipes. Its parts are what the editor sends, each with all that it then waits for."""

    def __init__(self, path, **initialize):
        super().__init__()
        self.path, self.parts = path, []
        self.connects().asks("initialize", **initialize)

    def asks(self, command, *rest, **named):
        sent, taken = len(self.sent), len(self.taken)
        super().asks(command, *rest, **named)
        self.parts.append((self.sent[sent:], self.taken[taken:]))
        return self

    def then(self, *events):
        """The program tells this before the editor asks for anything more."""
        taken = len(self.taken)
        self.tells(*events).takes()
        sent, told = self.parts.pop()
        self.parts.append((sent, told + self.taken[taken:]))
        return self

    def starts(self, *events, breakpoints=(), **arguments):
        """The program is launched, with breakpoints of these lines, and begins: it tells this."""
        self.asks("launch", events=[INITIALIZED], program=self.path, **arguments)
        if breakpoints:
            self.sets([asked for asked, _ in breakpoints], [entry for _, entry in breakpoints], path=self.path)
        return self.asks("configurationDone").then(*events)

    def at(self, number, address, name, line, **more):
        return frame_at(number, address, name, line, path=self.path, **more)


def recursion(path):
    """A program that calls itself, in its inner call, after a step, and in the outer call; to its end."""
    talk = Piped(path).starts(hit(1), breakpoints=[(at(9, "a0 == 0"), is_set(1, 0x10024, 9))])
    talk.trace([talk.at(1, 0x10024, "g+16", 9), talk.at(2, 0x10028, "g+20", 9), talk.at(3, 0x10008, "_start+8", 2)])
    talk.scopes(1, 4, 5).lists(4, registers(0x10024, END - 8, ra=0x1002c)).lists(5, stack(0x1002c, 0x1000c)).scopes(2)
    talk.evaluates("[sp + 4] - [sp]", 0xffffffe0, frameId=3, context="watch").evaluates("a0 +", BAD_EXPRESSION)
    talk.reads("0x0010fff8", 16, 0x10fff8, bytes.fromhex("2c0001000c000100"), 8).sets_variable(4, "zero", "1", NOT_WRITABLE)
    talk.disassembles("0x00010000", 2, [no_instruction(0xfffc), instruction(BASE, 0x00200513, "addi a0, zero, 2")], instructionOffset=-1)
    talk.sets_variable(4, "t0", "-2", 0xfffffffe).asks("next").then(STEP).asks("variables", STALE, variablesReference=4)
    talk.trace([talk.at(6, 0x1002c, "g+24", 10)], 3, levels=1).scopes(6, 7, 8).lists(7, registers(0x1002c, END - 8, ra=0x1002c, t0=0xfffffffe))
    talk.asks("scopes", UNKNOWN_REFERENCE, frameId=7).asks("stepOut").then(STEP)
    talk.trace([talk.at(9, 0x1002c, "g+24", 10), talk.at(10, 0x10008, "_start+8", 2)])
    talk.scopes(9, 11, 12).lists(12, stack(0x1000c)).writes("0x0010fffe", b"\1\0\0", OUTSIDE_MEMORY).writes("0x0010fffc", b"\x0c", 1)
    talk.asks("continue").then(*exits(0)).asks("stackTrace", ENDED, threadId=1).evaluates("a0", ENDED, frameId=9)
    return talk.asks("disconnect").parts


def frames_and_variables_are_shown_over_steps():
    is_told(RECURS, recursion)


def looks_are_the_same_however_their_requests_are_cut():
    is_told_however_cut(RECURS, recursion)


def counted_from_0(path):
    talk = Piped(path, linesStartAt1=False, columnsStartAt1=False).starts(hit(1), breakpoints=[(at(8), is_set(1, 0x10024, 8))])
    return talk.trace([talk.at(1, 0x10024, "g+16", 8, column=0), talk.at(2, 0x10008, "_start+8", 1, column=0)]).asks("disconnect").parts


def lines_and_columns_are_counted_as_the_editor_counts_them():
    is_told(RECURS, counted_from_0)


def written_over(path):
    """The function of the program is changed while it stands, and adds 2 from then on."""
    talk = Piped(path).starts(hit(1), breakpoints=[(at(2, "a0 == 1000 || a0 > 2000"), is_set(1, 0x10008, 2))]).evaluates("a0", 1000)
    talk.writes("0x0001000c", b"\x13\x05\x25\0", 4).asks("continue").then(hit(1)).evaluates("a0", 2002)
    talk.disassembles("0x0001000c", 1, [instruction(0x1000c, 0x00250513, "addi a0, a0, 2")])
    return talk.asks("restart").then(hit(1)).evaluates("a0", 1000).reads("0x0001000c", 4, 0x1000c, b"\x13\x05\x15\0").asks("disconnect").parts


def code_that_is_written_over_is_executed_as_it_is():
    is_told(COUNTS, written_over)


def deepened(path):
    """A program that has called itself some 50,000 times in a slice, paused: the newest 256 calls are kept. Answers are longer than a pipe takes."""
    talk = Piped(path).starts(hit(1), breakpoints=[(at(1, "[0x20000] == 0 && pc == 0x10000", "50001"), is_set(1, BASE, 1))])
    talk.trace([talk.at(1, BASE, "t", 1), *(talk.at(k, BASE + 4, "t+4", 1) for k in range(2, 258))])
    talk.disassembles("0x00020000", 4096, (instruction(0x20000 + 4 * k, 0, ".word 0x00000000") for k in range(4096)))
    talk.writes("0x00020000", b"\1", 1).reads("0x00020000", 65536, 0x20000, b"\1" + bytes(65535))
    return talk.evaluates("ra", 0x10008, frameId=257).asks("disconnect").parts


def long_answers_are_whole():
    is_told(DEEPENS, deepened)


def a_refresh_in_one_piece_is_answered_in_order():
    """An editor that knows the numbers to come asks for all at once; what follows a step in its piece is refused, as the program goes on then."""
    with file_of(RECURS) as path, Talk() as talk:
        session = Piped(path).starts(ENTRY, stopOnEntry=True)
        first = len(session.parts)
        session.trace([session.at(1, BASE, "_start", 1)]).scopes(1, 2, 3).lists(2, registers(BASE)).lists(3, []).evaluates("pc", BASE, frameId=1)
        session.asks("stepIn").asks("variables", NOT_STOPPED, variablesReference=2).asks("stackTrace", NOT_STOPPED, threadId=1).then(STEP)
        for parts in (session.parts[:first], session.parts[first:]):
            sent, told = (b"".join(each) for each in zip(*parts))
            expect(talk.answers(sent, told), told, "what is told of a piece")
        expect(talk.end(), (0, b""), "the end")


def a_program_has_the_memory_that_was_asked_for():
    with file_of(CIRCLES) as path:
        session = Piped(path).starts(ENTRY, stopOnEntry=True).trace([frame_at(1, BASE, "e", 1, path=path)]).scopes(1, 2, 3)
        session.lists(2, registers(BASE, BASE + 4096)).reads("0x00010ffc", 8, 0x10ffc, bytes(4), 4).evaluates("[0x11000]", BAD_EXPRESSION)
        session.writes("0x00010fff", b"\7\7", 1, allowPartial=True).evaluates("[0x10ffc]", 0x07000000).asks("disconnect")
        with Talk(["--memory", "4"]) as talk:
            for sent, told in session.parts:
                expect(talk.answers(sent, told), told, "what is told after %r" % sent)


def no_program_is_there_to_join():
    with file_of(CIRCLES) as path, Talk() as talk:
        session = Piped(path).asks("attach", NO_MACHINE).starts(ENTRY, stopOnEntry=True).asks("disconnect")
        for sent, told in session.parts:
            expect(talk.answers(sent, told), told, "what is told after %r" % sent)


def told_in(parts, environment):
    """What the program tells, part by part, until it has ended; its line on standard error, and its status."""
    program = subprocess.Popen([PROGRAM], stdin=subprocess.PIPE, stdout=subprocess.PIPE, stderr=subprocess.PIPE, env=environment)
    late = threading.Timer(SECONDS, program.kill)
    late.start()
    out = b""
    for sent, told in parts:
        try:
            program.stdin.write(sent)
            program.stdin.flush()
        except BrokenPipeError:
            break
        now = program.stdout.read(len(told))
        out += now
        if len(now) < len(told):
            break
    try:
        program.stdin.close()
    except BrokenPipeError:
        pass
    out, err = out + program.stdout.read(), program.stderr.read()
    status = program.wait()
    late.cancel()
    program.stdout.close()
    program.stderr.close()
    return out, err, status


def a_session_that_looks_ends_well_without_memory():
    """Each allocation of the session in turn is refused: it is the same, or ends with a line."""
    with file_of(RECURS) as path:
        parts = recursion(path)
        told = b"".join(told for _, told in parts)
        expect(told_in(parts, None), (told, b"", 0), "the session with ample memory")
        ends_well_without_memory(lambda environment: told_in(parts, environment), told)


def each_message_is_valid_by_the_published_schema():
    for session, text in ((recursion, RECURS), (counted_from_0, RECURS), (written_over, COUNTS), (deepened, DEEPENS)):
        with file_of(text) as path, Talk() as talk:
            parts = [(sent, talk.answers(sent, told)) for sent, told in session(path)]
        requests = [("editor", json.loads(body)) for sent, _ in parts for body in bodies_of(sent)]
        answers = [("adapter", json.loads(body)) for _, told in parts for body in bodies_of(told)]
        expect(list(schema.faults_in(requests + answers)), [], "what is wrong by the schema")


def the_example_of_sorting_is_told_as_it_runs():
    """What examples/play prints of examples/sorting.session: its requests, each with what is told of it."""
    path = os.path.join(TOP, "examples", "sorting.session")
    played = subprocess.run([os.path.join(TOP, "examples", "play"), path, PROGRAM], capture_output=True, timeout=20, cwd=TOP)
    session = Piped("examples/sort.s").starts(ENTRY, breakpoints=[(at(36, "[sp] == 2"), is_set(1, 0x1007c, 36))], stopOnEntry=True)
    session.asks("continue").then(hit(1)).trace([session.at(1, 0x1007c, "sort+32", 36), *(session.at(k, 0x100a0, "sort+68", 44) for k in (2, 3)),
                                                 session.at(4, 0x10030, "_start+48", 14)]).scopes(1, 5, 6)
    session.lists(5, registers(0x1007c, 0x10ffcc, ra=0x1007c, t0=0x110000, t1=0x110000, t2=40, a0=0x10fffc, a1=2, t3=30))
    session.lists(6, stack(2, 0x10fff8, 0x100a4, 3, 0x10fff4, 0x100a4, 4, 0x10fff0, 0x10034, 10, 20, 40, 30))
    session.reads("0x0010fff0", 16, 0x10fff0, b"".join(number.to_bytes(4, "little") for number in (10, 20, 40, 30)))
    session.disassembles("0x0001007c", 5, [
        instruction(0x10074, 0x00000097, "auipc ra, 0x0"), instruction(0x10078, 0x03c080e7, "jalr ra, 60(ra)"),
        instruction(0x1007c, 0x00412283, "lw t0, 4(sp)"), instruction(0x10080, 0x0002a303, "lw t1, 0(t0)"),
        instruction(0x10084, 0x00052383, "lw t2, 0(a0)")], instructionOffset=-2)
    session.evaluates("[[sp + 4]]", 40, frameId=1).evaluates("[a0]", 30, frameId=1).sets_variable(5, "a0", "0x0010fff8", 0x10fff8)
    session.asks("stepOut").then(STEP).asks("variables", STALE, variablesReference=5)
    session.trace([session.at(7, 0x100a4, "sort+72", 45)], 3, levels=1).asks("continue")
    session.then(*(("output", '{"category":"stdout","output":"%d\\n"}' % number) for number in (10, 20, 40, 30)), *exits(0)).asks("disconnect")
    told = [body for _, part in session.parts for body in bodies_of(part)]
    lines = played.stdout.decode().splitlines()
    expect([line for line in lines if '"type":"request"' not in line], told, "what examples/play prints")
    expect([line for line in lines if '"type":"request"' in line], requests_of(path), "the requests that it prints")
    expect((played.stderr, played.returncode), (b"", 0), "the end of examples/play")


def bodies_of(part):
    """The bodies of frames."""
    while part:
        head, _, rest = part.partition(b"\r\n\r\n")
        length = int(head.split()[-1])
        yield rest[:length].decode()
        part = rest[length:]


def requests_of(path):
    return [line for line in open(path).read().splitlines() if not line.startswith("#")]


def checks():
    """Each check with its name."""
    return [(check.__name__.replace("_", " "), check) for check in (
        each_message_is_valid_by_the_published_schema,
        frames_and_variables_are_shown_over_steps,
        looks_are_the_same_however_their_requests_are_cut,
        lines_and_columns_are_counted_as_the_editor_counts_them,
        code_that_is_written_over_is_executed_as_it_is,
        long_answers_are_whole,
        a_refresh_in_one_piece_is_answered_in_order,
        a_program_has_the_memory_that_was_asked_for,
        no_program_is_there_to_join,
        a_session_that_looks_ends_well_without_memory,
        the_example_of_sorting_is_told_as_it_runs,
    )]
