"""A walk: events at random, and what is known by the bytes that came, held against what there was to see. It stands beside the proof, as evidence
from outside that the definitions are the intended ones: the player asks a mirror and a snapshot, and nothing of the definitions."""
import json
import random

from support.debugging import PATH
from support.players import play
from support.program import expect, frame
from support.programs import CALLS, CIRCLES, COUNTS, PRINTS, RECURS

PLAYER = "test_watch_events"
SEED = 20261124
EVENTS = 100000
EVENTS_OF_A_WALK = 60
CUTS = 8
BASE = 0x10000
PROGRAMS = (CALLS, PRINTS, RECURS, COUNTS, CIRCLES, b"j x\n")
THREAD = {"threadId": 1}
# What more a breakpoint at a line is asked to do: some of them are logpoints.
LOGS = ({}, {}, {"logMessage": "here"}, {"logMessage": "a0 is {a0}\n", "hitCondition": "2"})
# Labels of the programs, and a name that none of them has.
LABELS = ("_start", "f", "g", "d", "e", "nowhere")


class Walk:
    """The commands of one walk. An editor is mostly sensible: it begins as it is to, and then asks this and that."""

    def __init__(self, chance):
        self.chance, self.lines, self.connections, self.seq, self.asked = chance, ["new 4096"], 0, 0, 0
        if chance.random() < 0.2:
            self.lines = ["new 4096 %s %s" % (PATH, chance.choice(PROGRAMS[:5]).hex())]
        self.has_program = len(self.lines[0].split()) > 2
        self.events = 0

    def does(self, line):
        self.lines.append(line)
        self.events += 1

    def connects(self):
        self.does("connect")
        self.connections += 1
        self.seq, self.asked = 0, 0

    def request(self, command, **arguments):
        self.seq += 1 if self.chance.random() < 0.97 else 0
        message = {"seq": self.seq, "type": "request", "command": command, **({"arguments": arguments} if arguments else {})}
        data = frame(json.dumps(message))
        cut = self.chance.randrange(1, len(data)) if self.chance.random() < 0.1 else 0
        for piece in (data[:cut], data[cut:]) if cut else (data,):
            self.does("recv " + piece.hex())

    def turns(self):
        self.does("turn " + self.chance.choice(PROGRAMS).hex() if self.chance.random() < 0.5 else "turn")

    def begins(self):
        self.connects()
        self.request("initialize", adapterID="rvdap")
        self.turns()
        if self.has_program or self.connections > 1 and self.chance.random() < 0.7:
            self.request("attach")
            self.does("turn")
        else:
            self.request("launch", program=PATH, stopOnEntry=self.chance.random() < 0.6)
            self.does("turn " + self.chance.choice(PROGRAMS[:5]).hex())
        if self.chance.random() < 0.5:
            self.breakpoints()
        self.request("configurationDone")
        self.turns()
        if self.connections == 1 and self.chance.random() < 0.8:
            self.does("slice %d" % self.chance.choice((0, 0, 1, 3)))
            self.looks(1, 2)

    def breakpoints(self):
        if self.chance.random() < 0.6:
            lines = [{"line": self.chance.randrange(1, 14), **self.chance.choice(LOGS)} for _ in range(self.chance.randrange(4))]
            self.request("setBreakpoints", source={"path": self.chance.choice((PATH, PATH, "/w/q.s"))}, breakpoints=lines)
        elif self.chance.random() < 0.5:
            self.request("setFunctionBreakpoints", breakpoints=[{"name": self.chance.choice(LABELS)} for _ in range(self.chance.randrange(3))])
        else:
            places = [{"instructionReference": "0x%x" % (BASE + self.chance.randrange(60))} for _ in range(self.chance.randrange(3))]
            self.request("setInstructionBreakpoints", breakpoints=places)
        self.turns()

    def asks(self):
        chance = self.chance
        reference = chance.randrange(1, 9)
        address = "0x%x" % (BASE + chance.choice((0, 4, 8, chance.randrange(64), 4090, 4096)))
        command, arguments = chance.choice((
            ("stackTrace", THREAD), ("stackTrace", {**THREAD, "startFrame": chance.randrange(3)}), ("scopes", {"frameId": reference}),
            ("variables", {"variablesReference": reference}), ("variables", {"variablesReference": reference}),
            ("setVariable", {"variablesReference": reference, "name": chance.choice(("a0", "sp", "t0", "pc")), "value": str(chance.randrange(-9, 99))}),
            ("readMemory", {"memoryReference": address, "count": chance.randrange(40)}),
            ("writeMemory", {"memoryReference": address, "data": chance.choice(("EwUlAA==", "AAAA", "")), "allowPartial": chance.random() < 0.5}),
            ("continue", THREAD), ("next", THREAD), ("stepIn", THREAD), ("stepIn", {**THREAD, "granularity": "instruction"}), ("stepOut", THREAD),
            ("stepBack", THREAD), ("stepBack", THREAD), ("reverseContinue", THREAD), ("pause", THREAD), ("restart", {}), ("terminate", {}), ("disconnect", {}), ("threads", {}), ("evaluate", {"expression": "[sp]"}),
            ("cancel", {"requestId": self.seq}), ("initialize", {}), ("bogus", {}), ("next", {"threadId": 2})))
        if command in ("terminate", "disconnect", "restart") and chance.random() < 0.7:
            return
        self.request(command, **arguments)

    def goes_on(self):
        chance = self.chance.random()
        if chance < 0.3:
            self.asks()
        elif chance < 0.65:
            self.turns()
        elif chance < 0.85:
            self.does("slice %d" % self.chance.choice((0, 1, 1, 2, 5, 50)))
        elif chance < 0.88:
            self.breakpoints()
        elif chance < 0.9:
            self.does("hold")
        elif chance < 0.94:
            self.does("sent %d" % self.chance.randrange(400))
        elif chance < 0.955:
            self.does("drop")
            self.begins()
        else:
            frame = self.chance.choice((1, 1, 2, 3, 4, 5))
            self.looks(frame, frame + self.chance.choice((1, 1, 2)))

    def looks(self, frame, registers):
        """A refresh, as an editor makes it where the program stands, with these numbers of a frame and of its registers."""
        self.request("stackTrace", **THREAD)
        self.does("turn")
        self.request("scopes", frameId=frame)
        self.does("turn")
        self.request("variables", variablesReference=registers)
        self.does("turn")
        if self.chance.random() < 0.5:
            self.request("readMemory", memoryReference="0x%x" % (BASE + 4 * self.chance.randrange(8)), count=self.chance.randrange(1, 60))
            self.does("turn")

    def walked(self):
        self.begins()
        while self.events < EVENTS_OF_A_WALK:
            self.goes_on()
        return self


def walks(events):
    """Walks with so many events in all."""
    chance, made, count = random.Random(SEED), [], 0
    while count < events:
        made.append(Walk(chance).walked())
        count += made[-1].events
    return made


def walks_with_lengths(events):
    """Walks with so many events in all, each with how many bytes its connections get."""
    made = walks(events)
    asked = [walk.lines + ["queued %d" % c for c in range(1, walk.connections + 1)] for walk in made]
    lines, status = play(PLAYER, [line for commands in asked for line in commands])
    expect((len(lines), status), (sum(map(len, asked)), 0), "the answers")
    at, found = 0, []
    for walk, commands in zip(made, asked):
        at += len(commands)
        found.append((walk, [int(line) for line in lines[at - walk.connections:at]]))
    return found


def what_is_known_on_a_walk_was_so():
    """For each connection of each walk a few cuts, the greatest among them: each fact that is known there was so."""
    made = walks_with_lengths(EVENTS)
    chance, commands = random.Random(SEED), []
    for walk, lengths in made:
        commands += walk.lines
        for connection, queued in enumerate(lengths, 1):
            commands += ["compare %d %d" % (connection, cut) for cut in [queued] + [chance.randrange(queued + 1) for _ in range(CUTS)]]
            commands.append("compare %d %d" % (connection, queued + 1))
    answers, status = play(PLAYER, commands)
    expect((len(answers), status), (len(commands), 0), "the answers of the comparisons")
    compared = [(command, answer) for command, answer in zip(commands, answers) if command.startswith("compare")]
    too_long = [answer for _, answer in compared if answer == "CutTooLong: cut too long"]
    expect(len(too_long), sum(walk.connections for walk, _ in made), "the cuts that are too long")
    facts = [int(answer) for _, answer in compared if answer.isdigit()]
    expect(len(facts) + len(too_long), len(compared), "what is not as it was told: %s" % [pair for pair in compared if not pair[1].isdigit() and "Cut" not in pair[1]][:3])
    expect(sum(facts) > EVENTS, True, "there is much to know: %d facts" % sum(facts))


def an_editor_in_turn_knows_the_same():
    """On each connection an editor tells requests and feeds pieces in turn, as they come: it knows what one knows that told all of them
    first, and both as many facts."""
    chance, commands, pairs = random.Random(SEED + 1), [], []
    for walk, lengths in walks_with_lengths(EVENTS // 10):
        commands += walk.lines
        for connection, queued in enumerate(lengths, 1):
            for cut in [queued] + [chance.randrange(queued + 1) for _ in range(CUTS)]:
                pairs.append(len(commands))
                commands.append("interleave %d %d %d" % (connection, cut, chance.choice((1, 7, 100, 10000))))
                commands.append("compare %d %d" % (connection, cut))
    answers, status = play(PLAYER, commands)
    expect((len(answers), status), (len(commands), 0), "the answers")
    other = [(commands[at], answers[at], answers[at + 1]) for at in pairs if not answers[at].isdigit() or answers[at] != answers[at + 1]]
    expect(other, [], "what is known in turn, and else")
    facts = sum(int(answers[at]) for at in pairs)
    expect(facts > EVENTS // 10, True, "there is much to know: %d facts" % facts)


# ---- back and forth

SESSIONS = "test_session"
# What it runs at most on its way forward.
LONGEST = 2500
STEPS_OF_A_CONNECTION = 15
# What follows pc where a session says all that is to be seen: the bytes.
BYTES = 80
# Programs that go on for longer than that: one that stores words, halfwords and bytes over what it stored; one that calls itself 260 times, of
# which fewer are kept, and returns; one that changes an instruction of its own in each round; one in which two functions return and call at once; and
# one that prints, now and then, for nobody takes what waits to be sent on these walks.
GO_ON = (
    b"_start: la t0, n\ne: addi a0, a0, 37\nsb a0, 1(t0)\nsh a0, 2(t0)\nsw a0, 4(t0)\nsw a0, -4(sp)\nlw a1, 0(t0)\ncall f\nj e\nf: ret\nn: .word 1, 2\n",
    b"_start: li a0, 260\njal g\nj _start\ng: addi a0, a0, -1\naddi sp, sp, -4\nsw ra, 0(sp)\nbeqz a0, d\njal g\nd: lw ra, 0(sp)\naddi sp, sp, 4\nret\n",
    b"_start: la t0, n\nlw t1, 0(t0)\nla t2, p\nlw t3, 0(t2)\np: addi a0, a0, 1\nsw t1, 0(t2)\nmv t4, t1\nmv t1, t3\nmv t3, t4\nj p\nn: addi a0, a0, 2\n",
    b"_start: la t0, f\ne: addi a0, a0, 1\njalr ra, 0(t0)\nj e\nf: addi a1, a1, 1\njalr t0, 0(ra)\nj f\n",
    b"_start: li a7, 1\nd: addi a1, a1, 9\ne: addi a1, a1, -1\nbnez a1, e\naddi a0, a0, 1\necall\nj d\n",
)


def machine_of(state):
    """What is to be seen of the machine: its frames, registers and bytes."""
    return state.partition(" | ")[2]


def pc_of(state):
    return int(state.split()[-BYTES - 1])


class BackAndForth:
    """The commands of one walk in a program, of which each state after so many moves on its way forward is known; and the number of moves that
    leads to where it is after some of these."""

    def __init__(self, chance, file, forward):
        self.chance, self.file, self.forward = chance, file, forward
        self.lines, self.wanted, self.events, self.at, self.recorded = [], [], 0, 0, 0
        self.connects("launch", program=PATH, stopOnEntry=True)
        self.does("slice 1")

    def does(self, line):
        self.lines.append(line)
        self.events += 1

    def asks(self, command, file=b"", **arguments):
        self.seq += 1
        self.does("recv " + frame(json.dumps({"seq": self.seq, "type": "request", "command": command, "arguments": arguments})).hex())
        self.does(("turn " + file.hex()).strip())

    def connects(self, command, **arguments):
        self.does("connect")
        self.seq, self.steps, self.address = 0, 0, None
        self.asks("initialize")
        self.asks(command, self.file, **arguments)
        self.asks("configurationDone")

    def is_seen(self):
        """Here the machine is as it is on its way forward."""
        self.wanted.append((len(self.lines), self.at))
        self.lines.append("state")

    def moves(self, command, most, moved, **arguments):
        """It is given time for so many moves, of which so many are made, and stops there, if need be by a pause."""
        self.asks(command, **THREAD, **arguments)
        self.does("slice %d" % most)
        self.asks("pause", **THREAD)
        self.does("slice 1")
        self.at += moved
        self.recorded += moved
        self.is_seen()

    def first(self, places):
        """How many moves lead to the first of these places where the breakpoint is, or to all of them."""
        met = [number for number, place in enumerate(places, 1) if pc_of(self.forward[place]) == self.address]
        return met[0] if met else len(places)

    def goes_on(self):
        chance, left = self.chance.random(), LONGEST - self.at
        self.steps += 1
        if self.steps > STEPS_OF_A_CONNECTION:
            self.does("drop")
            self.connects("attach")
        elif chance < 0.3 and left:
            self.moves("stepIn", 1, 1, granularity="instruction")
        elif chance < 0.45 and left:
            most = min(left, self.chance.choice((1, 2, 3, 20, 300)))
            self.moves("continue", most, self.first(range(self.at + 1, self.at + most + 1)))
        elif chance < 0.75:
            self.moves("stepBack", 9, -min(1, self.recorded))
        elif chance < 0.93:
            most = min(self.recorded, self.chance.choice((1, 2, 3, 20, 300, LONGEST)))
            self.moves("reverseContinue", most, -self.first(range(self.at - 1, self.at - most - 1, -1)) if most else 0)
        elif chance < 0.99:
            self.address = self.chance.choice((None, pc_of(self.forward[self.chance.randrange(LONGEST)])))
            places = [] if self.address is None else [{"instructionReference": "0x%x" % self.address}]
            self.asks("setInstructionBreakpoints", breakpoints=places)
            self.is_seen()
        else:
            self.asks("writeMemory", memoryReference="0x%x" % BASE, data="")
            self.recorded = 0


def states_forward(file):
    """What is to be seen after each number of moves, up to the longest."""
    walk = BackAndForth(random.Random(SEED), file, None)
    walk.asks("continue", **THREAD)
    lines, status = play(SESSIONS, walk.lines + ["state"] + LONGEST * ["slice 1", "state"])
    states = [machine_of(line) for line in lines[len(walk.lines)::2]]
    expect((status, len(states)), (0, LONGEST + 1), "the status, and how many states")
    return states


def back_and_forth_is_where_it_was():
    events, chance = 0, random.Random(SEED)
    for file in GO_ON:
        walk = BackAndForth(chance, file, states_forward(file))
        while walk.events < EVENTS // len(GO_ON):
            walk.goes_on()
        lines, status = play(SESSIONS, walk.lines)
        expect((status, len(lines)), (0, len(walk.lines)), "the status, and how many answers, of %r" % file)
        for place, at in walk.wanted:
            expect(machine_of(lines[place]), walk.forward[at], "the machine after %d moves of %r, at line %d of the walk" % (at, file, place))
        events += walk.events
    expect(events >= EVENTS, True, "there are many events: %d" % events)


def checks():
    return [
        ("what is known on a walk was so", what_is_known_on_a_walk_was_so),
        ("an editor in turn knows the same", an_editor_in_turn_knows_the_same),
        ("back and forth is where it was", back_and_forth_is_where_it_was),
    ]
