"""A client of a session: it sends requests, gives the program time, takes what it is told, and its mirror then knows what the messages say.

The player begins a session of its own. What a message is called is what its kind is; a response says whether it is a success.
"""
from json import dumps

from support.players import Row

PLAYER = "test_mirror"
RULES = "docs/PROTOCOL.md and docs/HEADLINE.md, worked by hand"
PATH = "/w/p.s"
PROGRAM = "_start: addi a0, zero, 5\n        addi a0, a0, 1\n"


def client(call, answer):
    return "client " + call, answer


def send(seq, command, answer="ok", **arguments):
    message = {"seq": seq, "type": "request", "command": command, **({"arguments": arguments} if arguments else {})}
    return client("send " + dumps(message).encode().hex(), answer)


def asks(seq, command, *names, **arguments):
    """A request is sent and answered, and messages of these names come."""
    return [send(seq, command, **arguments), client("turn", "answered"), client("take", " ".join([str(len(names) - names.count("done")), *names]))]


STARTED = [("begin 65536", "ok"), *asks(1, "initialize", "initialize", "done", adapterID="rvdap"),
           send(2, "launch", program=PATH, stopOnEntry=True), client("pending", "1"), client("wants-file", PATH),
           client("turn " + PROGRAM.encode().hex(), "answered"), client("take", "2 launch done initialized"), client("wants-file", "none"),
           *asks(3, "configurationDone", "configurationDone", "done"), client("run", "Running"), client("slice 10", "0"),
           client("take", "1 stopped"), client("run", "Stopped"), client("register 10", "none")]

ROWS = [
    Row("what is told is known, and forgotten once the program moves", [
        *STARTED,
        *asks(4, "stackTrace", "stackTrace", "done", threadId=1), client("frame 0", "1 65536 _start"),
        *asks(5, "scopes", "scopes", "done", frameId=1), *asks(6, "variables", "variables", "done", variablesReference=2),
        client("register 10", "0"), client("register 32", "65536"),
        *asks(7, "stepIn", "stepIn", "done", threadId=1, granularity="instruction"), client("register 10", "none"), client("run", "Running"),
        client("slice 10", "1"), client("take", "1 stopped"), client("run", "Stopped"), client("frame 0", "none"), client("last", "7"), client("pending", "0")], RULES),
    Row("a number is used once, and nothing is answered where nothing was asked", [
        ("begin 65536", "ok"), client("last", "0"), client("turn", "nothing"), client("take", "0"), *asks(5, "initialize", "initialize", "done", adapterID="rvdap"),
        send(5, "threads", answer="no number for a request"), send(4, "threads", answer="no number for a request"),
        send(2147483647, "threads"), client("last", "2147483647"), client("turn", "answered"), client("take", "1 threads done")], RULES),
    # The number of a request that the session had no memory for is used up.
    Row("a request and its answer", [
        ("begin 65536", "ok"), send(1, "initialize", adapterID="rvdap"), client("turn", "answered"), client("take", "1 initialize done")], RULES,
        refused=True, otherwise=[["ok", "NoMemory", "no number for a request", "nothing", "0"]]),
    Row("no memory of another size", [("begin 65537", "bad memory size"), ("begin 4096", "ok"), client("run", "Unknown")], RULES),
]
