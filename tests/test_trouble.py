"""The rows of docs/TROUBLE.md that are marked as shown: each is made to happen, and the program says what the row has."""
import contextlib
import json
import os
import re
import socket
import subprocess

from support.files import file_of
from support.program import PROGRAM, TOP, Talk, expect, run
from support.texts import request

ENDS = b"_start: li a0, 0\nli a7, 93\necall\n"
DATA_AFTER_CODE = b"# two lines, and then data\n\n_start: nop\n  ecall\n.data\n.word 1\n"


class Editor:
    """One running program that is asked one request after the other."""

    def __init__(self, talk):
        self.talk, self.number = talk, 0
        self.ask("initialize", adapterID="rvdap")

    def message(self):
        head = b""
        while not head.endswith(b"\r\n\r\n"):
            head += self.talk.read(1)
        return json.loads(self.talk.read(int(head.split(b":")[1])))

    def ask(self, command, **arguments):
        """The answer of a request; events before it are passed over."""
        self.number += 1
        self.talk.write(request(self.number, command, **arguments))
        while (message := self.message())["type"] != "response":
            pass
        return message

    def refusal(self, command, **arguments):
        return self.ask(command, **arguments).get("message")

    def event(self, name):
        """The body of the next event of this name."""
        while (message := self.message()).get("event") != name:
            pass
        return message.get("body", {})

    def launch(self, path, **arguments):
        expect(self.ask("launch", program=path, **arguments)["success"], True, "a launch")

    def start(self):
        expect(self.ask("configurationDone")["success"], True, "the start")

    def entry(self, path, line):
        """What is said of a breakpoint at a line."""
        return self.ask("setBreakpoints", source={"path": path}, breakpoints=[{"line": line}])["body"]["breakpoints"][0]


class Connection:
    """A connection over TCP, written to and read from as a running program is."""

    def __init__(self, port):
        self.socket = socket.create_connection(("127.0.0.1", port), timeout=20)
        self.write = self.socket.sendall

    def read(self, count):
        """As many bytes as are asked for."""
        piece = self.socket.recv(count, socket.MSG_WAITALL)
        expect(len(piece), count, "bytes of the connection")
        return piece

    def close(self):
        self.socket.close()


def connection(port):
    return contextlib.closing(Connection(port))


@contextlib.contextmanager
def server(path):
    """A program that listens, with the program in a file: its port."""
    with socket.socket() as free:
        free.bind(("127.0.0.1", 0))
        port = free.getsockname()[1]
    process = subprocess.Popen([PROGRAM, "--listen", "127.0.0.1:%d" % port, "--program", path], stderr=subprocess.PIPE)
    try:
        expect(process.stderr.readline(), b"listening on 127.0.0.1:%d\n" % port, "what it says first")
        yield port
    finally:
        process.kill()
        process.wait()
        process.stderr.close()


def with_editor(text, act, words=()):
    """Acts as an editor that has the file of a text."""
    with file_of(text) as path, Talk(words) as talk:
        return act(Editor(talk), path)


def stop_of(text):
    """Why a program that is launched stops."""
    def act(editor, path):
        editor.launch(path)
        editor.start()
        return editor.event("stopped")
    return with_editor(text, act)


def an_error_has_its_line_in_the_format_and_in_check():
    def act(editor, path):
        answer = editor.ask("launch", program=path)
        expect((answer["message"], answer["body"]["error"]["format"]), ("assemblyFailed", "line 2: Undefined"), "the refusal")
        ran = subprocess.run([PROGRAM, "check", path], capture_output=True, timeout=60)
        expect((ran.stdout.decode(), ran.returncode), ("%s:2:6: error: Undefined: no line defines g\ncall g\n" % path, 1), "rvdap check")
    with_editor(b"nop\ncall g\n", act)


def breakpoints_that_are_not_set_say_why():
    def act(editor, path):
        editor.launch(path)
        expect(editor.entry(os.path.basename(path), 3)["message"], "unknown source", "another text of the path")
        expect(editor.entry(path, 5)["message"], "no code at or after this line", "a line of data")
        expect((editor.entry(path, 1)["line"], editor.entry(path, 1)["verified"]), (3, True), "a comment")
        named = editor.ask("setFunctionBreakpoints", breakpoints=[{"name": "_Start"}, {"name": "_start"}])["body"]["breakpoints"]
        expect((named[0]["message"], named[1]["verified"]), ("unknown function", True), "another name, and that of a label")
        expect(run(b"", ("labels", path))[0].split(), [b"00010000", b"code", b"3", b"_start"], "the names")
    with_editor(DATA_AFTER_CODE, act)


def restart_runs_the_text_as_it_was_at_launch():
    def act(editor, path):
        editor.launch(path)
        editor.start()
        expect(editor.event("stopped")["reason"], "breakpoint", "the ebreak")
        with open(path, "wb") as file:
            file.write(ENDS)
        expect(editor.ask("restart")["success"], True, "restart")
        expect(editor.event("stopped")["reason"], "breakpoint", "the ebreak of the old text")
    with_editor(b"ebreak\n" + ENDS.removeprefix(b"_start: "), act)


def a_file_that_cannot_be_read_is_refused():
    def act(editor, path):
        for unread in (path + "s", os.path.dirname(path), path):
            expect(editor.refusal("launch", program=unread), "fileUnreadable", "no such file, a folder, and a long file")
    with_editor(b"#" * 1048577, act)


def one_that_ended_shows_nothing():
    def act(editor, path):
        editor.launch(path)
        expect(editor.entry(path, 3)["verified"], True, "a breakpoint at the last ecall")
        editor.start()
        expect(editor.event("stopped")["reason"], "breakpoint", "the stop there")
        expect(editor.ask("stackTrace", threadId=1)["body"]["totalFrames"], 1, "what it shows there")
        editor.ask("continue", threadId=1)
        editor.event("terminated")
        for command, arguments in (("stackTrace", {"threadId": 1}), ("evaluate", {"expression": "a0"})):
            expect(editor.refusal(command, **arguments), "ended", "%s after its end" % command)
    with_editor(ENDS, act)


def traps_stop_it_again_and_again():
    for text, said in ((b"ecall\n", "unknown environment call"), (b"nop\n", "illegal instruction"),
                       (b"lw a0, 8(zero)\n", "load access fault"), (b"sw a0, 8(zero)\n", "store access fault")):
        stop = stop_of(text)
        expect((stop["reason"], stop["text"]), ("exception", said), "the stop of %r" % text)

    def act(editor, path):
        editor.launch(path)
        editor.start()
        first = editor.event("stopped")
        editor.ask("continue", threadId=1)
        expect(editor.event("stopped"), first, "the same stop again")
    with_editor(b"lw a0, 8(zero)\n", act)


def a_run_in_a_terminal_says_what_was_wrong():
    for text, said in ((b"nop\n", "ran past the last line"), (b"auipc t0, 0\nsw zero, 8(t0)\nnop\n", "the program wrote over this instruction"),
                       (b"f: ret\nmain: call f\n", "instruction access fault"), (b"f: ret\nmain: call f\n", "no _start: it began at"),
                       (b"li a7, 1\ne: ecall\nj e\n", "output limit")):
        with file_of(text) as path:
            ran = subprocess.run([PROGRAM, "run", "--output-limit", "1000", path], stdin=subprocess.DEVNULL, capture_output=True, timeout=60)
        expect(said in ran.stderr.decode(), True, "a run of %r: %r" % (text, ran.stderr))
    expect(stop_of(b"f: ret\nmain: call f\n")["text"], "instruction access fault", "the same in an editor")


def what_is_not_recorded_is_not_taken_back():
    def act(editor, path):
        editor.launch(path, stopOnEntry=True)
        editor.start()
        expect(editor.event("stopped")["reason"], "entry", "the entry")
        expect(editor.refusal("stepBack", threadId=1), "noHistory", "a step back at the entry")
        editor.ask("next", threadId=1)
        expect(editor.event("stopped")["reason"], "step", "a step")
        expect(editor.ask("reverseContinue", threadId=1)["success"], True, "a run back")
        expect(editor.event("stopped")["text"], "start of history", "its stop")
        expect(editor.refusal("reverseContinue", threadId=1), "noHistory", "one more, where all was taken back")
        editor.ask("next", threadId=1)
        editor.event("stopped")
        expect(editor.ask("writeMemory", memoryReference="0x0010fff0", data="AQ==")["body"], {"bytesWritten": 1}, "memory is set")
        expect(editor.refusal("stepBack", threadId=1), "noHistory", "a step back after that")
    with_editor(b"_start: li a0, 1\n" + ENDS.removeprefix(b"_start: "), act)


def a_loop_is_found_by_pause():
    def act(editor, path):
        editor.launch(path)
        editor.start()
        editor.ask("pause", threadId=1)
        expect(editor.event("stopped")["reason"], "pause", "the stop")
        expect(editor.ask("stackTrace", threadId=1)["body"]["stackFrames"][0]["line"], 2, "where it is")
    with_editor(b"# for ever\ne: j e\n", act)


def debugged(*commands, text=ENDS):
    """What `rvdap debug` prints for commands that nobody types, and its status."""
    with file_of(text) as path:
        typed = "".join(command + "\n" for command in commands).encode()
        ran = subprocess.run([PROGRAM, "debug", path], input=typed, capture_output=True, timeout=60)
    expect(ran.stderr, b"", "what it says besides")
    return ran.stdout.decode(), ran.returncode


def a_command_that_is_refused_says_why():
    for command, why in (("print a9", "is no register and no label"), ("print A0", "is no register and no label"),
                         ("print $a0", "is no register and no label"), ("print a0 / 2", "no expression"), ("break 1 if a0 = 5", "bad condition"),
                         ("print [0]", "is outside memory"), ("back", "nothing before this is recorded")):
        out, status = debugged(command)
        expect((why in out.partition("(rvdap) %s\n" % command)[2], status), (True, 1), "%s: %r" % (command, out))
    out, status = debugged("continue", "print a0")
    expect(("the program has ended" in out.partition("(rvdap) print a0\n")[2], status), (True, 1), "after the end: %r" % out)
    out, status = debugged("break 3", "continue", "continue", "run", "continue")
    expect((out.count("breakpoint 1\n"), status), (2, 0), "a breakpoint stays: %r" % out)


def what_is_typed_is_no_request():
    expect(run(b"help\r\n\r\n"), (b"", b"rvdap: bad message\n", 1), "a word in a terminal")


def a_file_without_a_command_is_no_command():
    out, err, status = run(b"", words=["sort.s"])
    expect((out, err.splitlines()[0], status), (b"", b"error: unrecognized subcommand 'sort.s'", 2), "a file alone")


def a_port_that_is_taken_is_a_fault():
    with socket.socket() as taken:
        taken.bind(("127.0.0.1", 0))
        taken.listen()
        ran = subprocess.run([PROGRAM, "--listen", "127.0.0.1:%d" % taken.getsockname()[1]], capture_output=True, timeout=60)
    expect((ran.stderr, ran.returncode), (b"rvdap: read or write fault\n", 1), "a port that is taken")


def attach_without_a_program_is_refused():
    with Talk() as talk:
        expect(Editor(talk).refusal("attach"), "noMachine", "attach where there is no program")


def attach_to_a_program_that_ended_is_refused():
    with file_of(ENDS) as path, server(path) as port:
        with connection(port) as talk:
            editor = Editor(talk)
            expect((editor.ask("attach")["success"], editor.ask("configurationDone")["success"]), (True, True), "the program is joined")
            editor.ask("continue", threadId=1)
            editor.event("terminated")
        with connection(port) as talk:
            editor = Editor(talk)
            expect(editor.refusal("attach"), "ended", "attach after its end")
            editor.launch(path)


def the_page_has_each_word():
    with open(os.path.join(TOP, "docs", "TROUBLE.md"), encoding="utf-8") as file:
        page = file.read()
    with open(os.path.abspath(__file__), encoding="utf-8") as file:
        tests = file.read()
    said = [word for row in page.splitlines() if row.endswith("| *shown* |") for word in re.findall("`([^`]+)`", row.split("|")[1])]
    expect([word for word in said if '"%s' % word not in tests], [], "words that no test has")


def checks():
    """Each check with its name."""
    return [(check.__name__.replace("_", " "), check) for check in (
        an_error_has_its_line_in_the_format_and_in_check,
        breakpoints_that_are_not_set_say_why,
        restart_runs_the_text_as_it_was_at_launch,
        a_file_that_cannot_be_read_is_refused,
        one_that_ended_shows_nothing,
        traps_stop_it_again_and_again,
        a_run_in_a_terminal_says_what_was_wrong,
        what_is_not_recorded_is_not_taken_back,
        a_loop_is_found_by_pause,
        a_command_that_is_refused_says_why,
        what_is_typed_is_no_request,
        a_file_without_a_command_is_no_command,
        a_port_that_is_taken_is_a_fault,
        attach_without_a_program_is_refused,
        attach_to_a_program_that_ended_is_refused,
        the_page_has_each_word,
    )]
