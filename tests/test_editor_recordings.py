"""Sessions of real editors, recorded in tests/recordings: played again, they are what each editor sent and got.

Beside a recording lie `sent` and `got`: the bytes as they went between the editor and the program, copied on their way by `tee`.
"""
import glob
import json
import os
import re
import subprocess

from support.program import PROGRAM, SECONDS, TOP, expect
from test_record import PLAYED, bytes_of, lines_of, script_of, text_of

HERE = os.path.join(TOP, "tests", "recordings")
FILES = ["1.s", "got", "sent", "session.options", "session.watch"]
HEADER = re.compile(rb"Content-Length: (\d+)\r\n\r\n")
# The condition that was typed for the breakpoint at line 36, in each editor. Helix 25.01.1 takes it, and leaves it out of what it sends.
TYPED = "[sp] == 2"
SENDS_IT = {"emacs": True, "helix": False, "kate": True}


def recordings():
    """The folder of each recording, with its name."""
    return [(os.path.basename(there), there) for there in sorted(glob.glob(os.path.join(HERE, "*"))) if os.path.isdir(there)]


def bodies(stream):
    """The bodies of a stream of whole frames, whose headers have the one field."""
    found = []
    while stream:
        header = HEADER.match(stream)
        end = header.end() + int(header[1])
        expect(len(stream) >= end, True, "the last frame is whole")
        found.append(stream[header.end():end])
        stream = stream[end:]
    return found


def said(there, kind):
    """The bodies that replay prints of one kind, in their order: `->` those of requests, `<-` those of what was queued."""
    found = [PLAYED.fullmatch(line).groups() for line in lines_of(script_of(there))]
    return [re.sub(rb"\\x([0-9a-f]{2})", lambda byte: bytes([int(byte[1], 16)]), words) for _, _, mark, words in found if mark == kind]


def requests_of(there):
    return [json.loads(body) for body in bodies(text_of(there, "sent"))]


def messages_of(there):
    return [json.loads(body) for body in bodies(text_of(there, "got"))]


# ---- what is recorded is what went over the wire

def what_each_got_is_replayed():
    for name, there in recordings():
        got = text_of(there, "got")
        expect(bytes_of(script_of(there)), [got], "%s: the bytes that it got" % name)
        expect(said(there, b"<-"), bodies(got), "%s: the messages that it got" % name)


def what_each_sent_is_replayed():
    for name, there in recordings():
        sent = text_of(there, "sent")
        expect(said(there, b"->"), bodies(sent), "%s: the requests that it sent" % name)


def each_is_watched_to_its_end():
    """Each let its program run to its end, and left: after a `disconnect` an editor knows nothing more."""
    for name, there in recordings():
        ran = subprocess.run([PROGRAM, "watch", script_of(there)], capture_output=True, timeout=SECONDS)
        expect((ran.stdout.split(b"\n")[0], ran.stderr, ran.returncode), (b"run unknown ended:0", b"", 0), "%s: what is watched" % name)


# ---- what is recorded is such a session

def each_folder_is_an_editor_of_the_list():
    rows = re.findall(rb"^\| `(\w+)` \|", text_of(HERE, "README.md"), re.M)
    expect([name for name, _ in recordings()], sorted(row.decode() for row in rows), "the folders")
    for name, there in recordings():
        expect(sorted(os.listdir(there)), FILES, "%s: its files" % name)


def each_session_is_that_of_a_student():
    """It stops at the entry, at the breakpoint and after a step, shows the registers there, and prints the sorted words."""
    for name, there in recordings():
        messages = messages_of(there)
        reasons = {message["body"]["reason"] for message in messages if message.get("event") == "stopped"}
        expect(reasons, {"entry", "breakpoint", "step"}, "%s: why it stops" % name)
        shown = {variable["name"] for message in messages if message.get("command") == "variables" for variable in message["body"]["variables"]}
        expect({"zero", "sp", "a0", "pc"} <= shown, True, "%s: it shows registers" % name)
        printed = "".join(message["body"]["output"] for message in messages if message.get("event") == "output")
        expect(printed.split(), ["10", "20", "30", "40"], "%s: what is printed" % name)


def conditions_of(there):
    """The conditions that were sent for line 36, in each request that set a breakpoint there."""
    return {point.get("condition") for request in requests_of(there) if request["command"] == "setBreakpoints"
            for point in request["arguments"]["breakpoints"] if point["line"] == 36}


def values_of(there, expression):
    """The values of an expression that was evaluated, in their order."""
    asked = [request["seq"] for request in requests_of(there) if request["command"] == "evaluate" and request["arguments"]["expression"] == expression]
    return [message["body"]["result"] for message in messages_of(there) if message.get("request_seq") in asked]


def helix_leaves_the_condition_out():
    """So each pass stops: that of four words, of three and of two. The others stop where two are left, and their second word is 40."""
    for name, there in recordings():
        expect(conditions_of(there), {TYPED if SENDS_IT[name] else None}, "%s: the condition that it sent" % name)
        values = values_of(there, "[[sp + 4]]" if SENDS_IT[name] else "[sp]")
        expect(values, ["0x00000028"] if SENDS_IT[name] else ["0x00000004", "0x00000003", "0x00000002"], "%s: what it shows" % name)


def checks():
    """Each check with its name."""
    return [(check.__name__.replace("_", " "), check) for check in (
        what_each_got_is_replayed,
        what_each_sent_is_replayed,
        each_is_watched_to_its_end,
        each_folder_is_an_editor_of_the_list,
        each_session_is_that_of_a_student,
        helix_leaves_the_condition_out,
    )]
