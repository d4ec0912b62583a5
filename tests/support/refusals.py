"""Sessions in which one growth after the other is refused: what is to be seen after an event that found no memory, and after it is given again.

A session is a list of commands of the sessions' player with their answers, as `Debugging` writes it down.
"""
import os
from dataclasses import dataclass

from support.allocations import each_refusal
from support.players import play, shown
from support.program import expect
from support.reading import messages

PLAYER = "test_session"
EVENTS = ("connect", "recv", "turn", "slice", "hold", "sent", "drop", "apply")
# These take no memory.
WITHOUT_MEMORY = ("connect", "hold", "sent", "drop")
NO_MEMORY = "NoMemory"
RUNNING = " Running "


def word_of(command):
    return command.split(" ", 1)[0]


def is_event(command):
    return word_of(command) in EVENTS


# What applying an event answers, by what its call does.
APPLIED = {"connect": "Connect(%s)", "recv": "Recv", "turn": "Turn(%s)", "hold": "Hold", "sent": "Sent", "drop": "DropConnection"}


def applied(steps):
    """The session with its events applied, but for its slices."""
    return [("apply " + command, form % answer if "%s" in form else form) if (form := APPLIED.get(word_of(command))) else (command, answer)
            for command, answer in steps]


@dataclass
class Seen:
    """What is to be seen before each command, and after each move of a slice; and at the end."""
    states: list
    last: str


def moves_of(command, answer):
    """A slice, move by move, and once more where it did not end for having made them all."""
    moved, ending = answer.split()
    if moved == "0" and ending == "Spent":
        return [command]
    return ["slice 1"] * int(moved) + ([] if ending == "Spent" else ["slice 1"])


def seen_in(name, steps):
    """Plays the session without a refusal, its slices move by move: the answers of its other commands are the same."""
    commands, places = [], []
    for command, answer in steps:
        given = moves_of(command, answer) if word_of(command) == "slice" else [command]
        places.append(len(commands))
        for one in given:
            commands += ["state", one]
    lines, status = play(PLAYER, commands + ["state"])
    expect((status, len(lines)), (0, len(commands) + 1), "%s: the status, and how many answers" % name)
    states = []
    for (command, answer), place, after in zip(steps, places, places[1:] + [len(commands)]):
        states.append(lines[place:after + 1:2])
        if word_of(command) != "slice":
            expect(lines[place + 1], answer, "%s: the answer of %s" % (name, shown(command)))
    return Seen(states, lines[-1])


def halves(state):
    """What a session says of its connection and how the program runs, and what is to be seen of the machine."""
    said, _, machine = state.partition(" | ")
    return said, machine


def may_be_seen(command, states, moved):
    """What may be seen after an event that found no memory once it made so many moves: what was to be seen before it; and after a slice the
    machine after so many moves, which runs, and is told of the last one or not."""
    if word_of(command) != "slice":
        return {states[0]}
    machine = halves(states[moved])[1]
    told = {halves(states[number])[0] for number in (moved - 1, moved) if number >= 0}
    return {"%s | %s" % (said, machine) for said in told if RUNNING in said}


def tried(steps):
    """The commands of a run in which no event is made again but by the command that says so."""
    commands = []
    for command, _ in steps:
        commands += ["tried " + command, "again " + command] if is_event(command) else [command]
    return commands + ["state"]


def answers_of(name, steps, seen, lines):
    """Pairs of a line and what it has to be, or a set of what it may be; and the event that found no memory, if one did."""
    lines, found_none = iter(lines), []
    for (command, answer), states in zip(steps, seen.states):
        line = next(lines, None)
        if line is not None and is_event(command) and line.startswith(NO_MEMORY):
            _, moved, state = line.split(" ", 2)
            expect(state in may_be_seen(command, states, int(moved)), True, "%s: after %s, %s moves, is seen what was before: %s" % (name, shown(command), moved, state))
            found_none.append(command)
            yield next(lines, None), answer, command
            continue
        yield line, answer, None
        if is_event(command):
            yield next(lines, None), "-", None
    yield next(lines, None), seen.last, None


def is_given_again(name, steps):
    """Each growth refused in turn: what is to be seen after it is as it was before the event, and all answers are those of the session without a
    refusal once it was given again. The player itself may find no memory: then it ends, and what it said so far is right.

    Answers the first words of the events that found no memory."""
    seen = seen_in(name, steps)
    commands = tried(steps)

    def once(environment):
        lines, status = play(PLAYER, commands, environment)
        which = "%s, allocation %s refused" % (name, environment["REFUSE_ALLOC"])
        expect(status in (0, 3), True, "%s: the status %d is right" % (which, status))
        none = set()
        for line, wanted, found_none in answers_of(which, steps, seen, lines):
            if line is None and status == 3:
                break
            if line != wanted:
                raise AssertionError("%s: %s, and not %s" % (which, shown(line), shown(wanted)))
            none |= {word_of(found_none)} if found_none else set()
        return none

    runs = each_refusal(once)
    found = set().union(*runs)
    expect(found & set(WITHOUT_MEMORY), set(), "%s: events that take no memory and found none" % name)
    if os.environ.get("TELL"):
        print("%s: %d refused, of them %d in events: %s" % (name, len(runs), sum(map(bool, runs)), " ".join(sorted(found))))
    return found


# ---- sessions over a wire

MOST = (1 << 64) - 1


def pieces_of(script):
    """What comes from the editor, a request a piece."""
    return [command.split(" ")[1] for command, _ in script.steps if word_of(command) == "recv"]


def driven(script, file):
    """The commands by which a whole session is driven, twice where the first time found no memory."""
    path = "/w/p.s"
    return ["file %s %s" % (path, file.hex()), "wire new false %d 0" % MOST, *("wire piece " + piece for piece in pieces_of(script)), "connect",
            "wire drive %d" % MOST, "wire taken", "pending", "waiting", "wire drive %d" % MOST, "wire taken", "wire faults", "connect"]


def ends_of_messages(data):
    """How many bytes of the data are whole messages, for each number of these."""
    ends, place = [0], 0
    while place < len(data):
        header = data.index(b"\r\n\r\n", place) + 4
        place = header + int(data[place:header].split(b":")[1])
        ends.append(place)
    return ends


def expect_driven(which, whole, answers):
    """How driving went: whether it found no memory and went on, or lost its connection by that; nothing is sent twice and nothing is lost."""
    ended, taken, pending, waiting, ended_then, taken_then, faults, number = answers
    taken, taken_then = bytes.fromhex(taken), bytes.fromhex(taken_then)
    if ended == "Closed":
        expect((taken == whole, taken_then == whole, faults, number), (True, True, "0", "2"), "%s: all was sent" % which)
        return "with memory"
    expect((ended_then, number), ("Closed", "2"), "%s: the end, and the number of the next connection" % which)
    if ended == NO_MEMORY and taken_then == whole:
        expect((whole[:len(taken)] == taken, faults), (True, "0"), "%s: what was sent before" % which)
        return "went on"
    # The wire in memory fails where it finds none for what it takes, and a piece that is lost ends the connection.
    expect((ended in (NO_MEMORY, "Fault"), pending, waiting), (True, "0", ""), "%s: the connection has ended" % which)
    expect((taken == taken_then, taken == whole[:len(taken)]), (True, True), "%s: what was sent" % which)
    if ended == "Fault":
        return "the wire failed"
    expect(len(taken) in ends_of_messages(whole), True, "%s: whole messages were sent before the piece that was lost" % which)
    return "a piece was lost"


def is_driven_again(name, script, file):
    """Each growth refused in turn while a session is driven over a wire: it is driven again, and answers how each run went."""
    commands = driven(script, file)
    lines, status = play("test_transport", commands)
    expect((status, expect_driven(name, script.taken, lines[-8:])), (0, "with memory"), "%s: without a refusal" % name)

    def once(environment):
        lines, status = play("test_transport", commands, environment)
        which = "%s, allocation %s refused" % (name, environment["REFUSE_ALLOC"])
        expect(status in (0, 3), True, "%s: the status %d is right" % (which, status))
        return "the player found none" if status else expect_driven(which, script.taken, lines[-8:])

    runs = each_refusal(once)
    if os.environ.get("TELL"):
        print("%s: %s" % (name, {run: runs.count(run) for run in set(runs)}))
    return set(runs)


# ---- two editors, one after the other, through a door

# How two editors were served, by how many connections that took: where serving found no memory it ended the connection that it had, and was begun
# again, with the first wire.
SERVED = {2: "in one go", 3: "the first connection ended", 4: "the second connection ended"}


def expect_served(which, wholes, answers):
    """How serving two wires went: what each was sent is the beginning of what is sent with memory, in whole messages, and all of it but on the wire whose
    connection ended, or which found no memory itself; and the second editor is answered wherever the first one's ended."""
    ended, first, first_faults, _, second, second_faults, turn, number = answers
    expect((ended.split()[:3], turn), (["Closed", "0", "0"], "NotConnected"), "%s: the end" % which)
    way, taken = SERVED[int(number) - 1], (bytes.fromhex(first), bytes.fromhex(second))
    cut = (first_faults != "0" or way == SERVED[3], second_faults != "0" or way == SERVED[4])
    expect(len(taken[0]) in ends_of_messages(wholes[0]) and taken[0] == wholes[0][:len(taken[0])], True, "%s: what the first was sent" % which)
    expect(cut[0] or taken[0] == wholes[0], True, "%s: the first was sent all" % which)
    if cut[1] or not cut[0]:
        expect(len(taken[1]) in ends_of_messages(wholes[1]) and taken[1] == wholes[1][:len(taken[1])], True, "%s: what the second was sent" % which)
        expect(cut[1] or taken[1] == wholes[1], True, "%s: the second was sent all" % which)
    else:
        expect([message["request_seq"] for message in messages(taken[1]) if message["type"] == "response"], [1, 2, 3], "%s: the second's answers" % which)
    return way


def are_served_again(name, commands):
    """Each growth refused in turn while two editors are served, one after the other; answers how each run went."""
    lines, status = play("test_transport", commands)
    wholes = (bytes.fromhex(lines[-7]), bytes.fromhex(lines[-4]))
    expect((status, expect_served(name, wholes, lines[-8:])), (0, SERVED[2]), "%s: without a refusal" % name)

    def once(environment):
        lines, status = play("test_transport", commands, environment)
        which = "%s, allocation %s refused" % (name, environment["REFUSE_ALLOC"])
        expect(status in (0, 3), True, "%s: the status %d is right" % (which, status))
        return "the player found none" if status else expect_served(which, wholes, lines[-8:])

    runs = each_refusal(once)
    if os.environ.get("TELL"):
        print("%s: %s" % (name, {run: runs.count(run) for run in set(runs)}))
    return set(runs)
