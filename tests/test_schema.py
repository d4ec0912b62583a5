"""Every request as it is written, and every response and event, held against the protocol's published schema."""
import json
import os
import subprocess

from rows.messages import PLAYER, REFUSALS
from rows.requests import EACH
from rows.requests import NAMES as REQUESTS
from support import schema
from support.players import play, tables
from support.program import TOP, expect

# The published schema, where it is at hand.
PUBLISHED = os.environ.get("DAP_SCHEMA")

EVENTS = ("initialized", "stopped", "continued", "output", "exited", "terminated")


def renumbered(commands, first):
    """The commands, of which those that write a message give these the numbers from the first on."""
    for command in commands:
        if command.startswith("write "):
            command, first = "write %d" % first, first + 1
        yield command


def messages():
    """What the player writes for each row that is about messages, one after the other."""
    written = []
    for _, module in tables():
        for row in module.ROWS if module.PLAYER == PLAYER else ():
            commands = list(renumbered((command for command, _ in row.steps), len(written) + 1))
            answers, status = play(PLAYER, commands)
            expect((len(answers), status), (len(commands), 0), "%s: the answers and the status" % row.name)
            written += [bytes.fromhex(answer) for command, answer in zip(commands, answers) if command.startswith("write ")]
    return written


def kinds_of(texts):
    """The commands of the successes, the names of the refusals and those of the events."""
    successes, refusals, events = set(), set(), set()
    for message in map(json.loads, texts):
        if message["type"] == "event":
            events.add(message["event"])
        elif message["success"]:
            successes.add(message["command"])
        else:
            refusals.add(message["message"])
    return successes, refusals, events


def every_message_is_valid_by_the_published_schema():
    texts = messages()
    successes, refusals, events = kinds_of(texts)
    expect(sorted(successes), sorted(REQUESTS), "the requests with a success")
    expect(sorted(refusals), sorted(name for _, name, _ in REFUSALS), "the refusals")
    expect(sorted(events), sorted(EVENTS), "the events")
    expect([fault for text in texts for fault in schema.faults_of(json.loads(text))], [], "what is wrong by the schema")


def every_request_is_valid_by_the_published_schema():
    """As an editor writes it that uses `requests`."""
    texts = [json.loads(bytes.fromhex(answer)) for row in EACH for command, answer in row.steps if command.startswith("asked ")]
    expect(sorted({text["command"] for text in texts}), sorted(REQUESTS), "the requests")
    expect([fault for text in texts for fault in schema.faults_of(text)], [], "what is wrong by the schema")


# A message by its type and the rest of it, and what is wrong with it.
WRONG = (
    ("request", {"command": "initialize", "arguments": {}}, ["InitializeRequest.arguments: adapterID is absent"]),
    ("request", {"command": "launch", "arguments": {"program": "a.s", "stopOnEntry": True}}, []),
    ("event", {"event": "stopped", "body": {"reason": "entry", "threadId": True}}, ["StoppedEvent.body.threadId: no integer"]),
    ("event", {"event": "stopped", "body": {"threadId": 1}}, ["StoppedEvent.body: reason is absent"]),
    ("event", {"event": "stopped", "body": {"reason": "bored"}}, ["StoppedEvent.body.reason: 'bored' is no value that the schema names"]),
    ("response", {"request_seq": 1, "success": True, "command": "threads", "body": {"threads": [{"id": 1, "name": "hart 0", "harts": 1}]}},
     ["ThreadsResponse.body.threads[]: the schema names no harts"]),
)


def a_message_that_is_wrong_by_the_schema_is_found():
    for kind, rest, faults in WRONG:
        expect(schema.faults_of({"seq": 1, "type": kind, **rest}), faults, "%s %s" % (kind, rest))


def a_conversation_that_is_wrong_is_found():
    asked = {"seq": 1, "type": "request", "command": "threads"}
    answer = {"seq": 1, "type": "response", "request_seq": 1, "success": True, "command": "threads", "body": {"threads": []}}
    for conversation, faults in (
            ([("editor", asked), ("adapter", answer)], []),
            ([("editor", asked), ("adapter", {**answer, "seq": 2})], ["adapter: seq 2 after 0"]),
            ([("adapter", answer)], ["threads: request_seq 1 answers no request of it"]),
            ([("editor", asked), ("adapter", answer), ("adapter", {**answer, "seq": 2})], ["threads: request_seq 1 answers no request of it"])):
        expect(list(schema.faults_in(conversation)), faults, str(conversation))


def the_table_is_that_of_the_published_schema():
    """The schema that DAP_SCHEMA names is made into a table again."""
    with open(schema.TABLE, encoding="utf-8") as file:
        table = file.read()
    made = subprocess.run([os.path.join(TOP, "tools", "schema"), "--print", PUBLISHED], capture_output=True, text=True, timeout=60)
    expect((made.stdout == table, made.stderr, made.returncode), (True, "", 0), "what tools/schema prints is the table")


def checks():
    """Each check with its name."""
    published = (the_table_is_that_of_the_published_schema,) if PUBLISHED else ()
    return [(check.__name__.replace("_", " "), check) for check in (
        every_message_is_valid_by_the_published_schema, every_request_is_valid_by_the_published_schema, a_message_that_is_wrong_by_the_schema_is_found,
        a_conversation_that_is_wrong_is_found, *published)]
