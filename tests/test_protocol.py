"""docs/PROTOCOL.md, section 9: its session with a program, message by message, and other statements of the page about the program."""
import json
import os
import re
import subprocess

from support.program import PROGRAM, TOP, Talk, expect, frame
from support.programs import INCREMENT
from support.texts import FIRST, FIRST_ANSWER, refused, request

# Where the page has the example, and the line of the page before the session.
SHOWN, BEFORE = "/home/me/increment.s", "### With a program\n"


def shown_session():
    """The frames of the page's session, each with the sign of who sends it: > the editor, < the program."""
    with open(os.path.join(TOP, "docs", "PROTOCOL.md"), encoding="utf-8") as file:
        block = file.read().partition(BEFORE)[2].partition("```\n")[2].partition("\n```")[0]
    lines = re.sub(r"\n(?![<>] )", "", block).split("\n")
    return [(line[0], line[2:].replace("\\r\\n", "\r\n").encode()) for line in lines]


def body_of(shown):
    """The body of a frame of the page, whose header says its length."""
    head, _, body = shown.partition(b"\r\n\r\n")
    expect(head, b"Content-Length: %d" % len(body), "the header before %r" % body)
    return body


def the_session_with_a_program_is_as_it_is_shown():
    session = [(side, body_of(shown).replace(SHOWN.encode(), INCREMENT.encode())) for side, shown in shown_session()]
    asked = [json.loads(body)["command"] for side, body in session if side == ">"]
    expect(len(asked) > 8, True, "requests of the session")
    with Talk() as talk:
        for side, body in session:
            if side == ">":
                talk.write(frame(body))
            else:
                expect(talk.read(len(frame(body))), frame(body), "what is told")
        expect(talk.end(), (0, b""), "the end")


def data_breakpoints_are_an_unknown_command():
    with Talk() as talk:
        expect(talk.answers(FIRST, FIRST_ANSWER), FIRST_ANSWER, "the first answer")
        wanted = refused("unknownCommand", 1, "setDataBreakpoints", 2, 2)
        expect(talk.answers(request(2, "setDataBreakpoints", breakpoints=[{"dataId": "a0"}]), wanted), wanted, "the refusal")


def memory_is_looked_at_before_the_rule_on_listening():
    for words, said in ((["--once", "--memory", "5"], b"invalid value '5' for '--memory <KIB>'"),
                        (["--once", "--memory", "8"], b"'--once'"), (["--once", "--memory", "5", "--bad"], b"'--bad'")):
        ran = subprocess.run([PROGRAM, *words], stdin=subprocess.DEVNULL, capture_output=True, timeout=60)
        expect((ran.stdout, ran.returncode, said in ran.stderr.splitlines()[0]), (b"", 2, True), "what is said of %s" % words)


def checks():
    """Each check with its name."""
    return [(check.__name__.replace("_", " "), check) for check in (
        the_session_with_a_program_is_as_it_is_shown,
        data_breakpoints_are_an_unknown_command,
        memory_is_looked_at_before_the_rule_on_listening,
    )]
