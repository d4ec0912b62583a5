"""Wires that fail, at each of their calls in turn: driving ends with a fault, what was sent is the beginning of what would have been, the connection
has ended, and the next one is served."""
from functools import partial

from rows.transport import COUNTS, EVERY, FIRST, GO_ON, JOINED, JOINS, LEAVES, P, RAN, STOPPED_AT_ENTRY, TURNS, file, launch
from support.players import play
from support.program import expect
from support.reading import messages

PIECES = [FIRST + launch(stopOnEntry=True), GO_ON]
WHOLE = STOPPED_AT_ENTRY + RAN
# Whether a wire polls, and how many bytes it takes at once.
HABITS = ((False, EVERY), (False, 100), (False, 7), (True, EVERY), (True, 100))


def wire(polls, most, failing, pieces):
    return ["wire new %s %d %d" % (str(polls).lower(), most, failing), *("wire piece " + piece.hex() for piece in pieces)]


def drive(polls, most, failing):
    """A session in which this call of the wire fails, what there is then, and the same session over another wire."""
    return ["fresh", file(P)[0], *wire(polls, most, failing, PIECES), "connect", "wire drive %d" % TURNS, "wire taken", "wire faults", "turn", "waiting", "pending",
            "link_fault", *wire(polls, most, 0, PIECES), "connect", "wire drive %d" % TURNS, "wire taken", "wire faults", "connect"]


# The place of what was taken among the answers of that.
TAKEN = 7


def answers(player, commands):
    """The answers of each list of commands, all played in one run."""
    lines, status = play(player, [command for each in commands for command in each])
    expect((status, len(lines)), (0, sum(map(len, commands))), "the status, and how many answers")
    lines = iter(lines)
    return [[next(lines) for _ in each] for each in commands]


def each_call_of_a_wire_fails(polls, most):
    calls = 40 + len(WHOLE) // most
    found = answers("test_transport", [drive(polls, most, failing) for failing in range(calls)])
    whole = bytes.fromhex(found[0][TAKEN])
    expect(polls or whole == WHOLE, True, "what is told where nothing fails")
    failed = 0
    for call, lines in enumerate(found):
        ended, taken, faults, *said = lines[TAKEN - 1:TAKEN + 6]
        which = "call %d" % call
        expect(said, ["NotConnected", "", "0", "none"], "%s: the session then" % which)
        expect(lines[-5:], ["2", "Closed", whole.hex(), "0", "3"], "%s: the next connection" % which)
        taken = bytes.fromhex(taken)
        expect(taken, whole[:len(taken)], "%s: what was sent" % which)
        if ended == "Closed":
            expect((taken == whole, faults), (True, "0"), "%s: all was sent" % which)
        else:
            expect((ended, faults), ("Fault", "1"), "%s: the end" % which)
            failed += 1
            expect(call, failed, "each call before the last fails")
    expect(failed > 5, True, "%d calls failed" % failed)
    expect(failed < calls - 1, True, "all calls were tried")


def serves(first_fails, second_fails):
    """An editor leaves a program that runs, and another joins it: this call of each wire fails."""
    return ["fresh", file(COUNTS)[0], *wire(True, EVERY, first_fails, [LEAVES]), "wire other", *wire(True, EVERY, second_fails, [JOINS]), "wire other",
            "wire serve %d 0 0" % TURNS, "wire taken", "wire faults", "wire other", "wire taken", "wire faults", "turn", "connect"]


def served(lines):
    """What each wire took, and how often it failed."""
    ended, first, first_faults, _, second, second_faults, turn, number = lines[-8:]
    expect((ended.split()[:3], turn, number), (["Closed", "0", "0"], "NotConnected", "3"), "the end, and the number of the next connection")
    return bytes.fromhex(first), int(first_faults), bytes.fromhex(second), int(second_faults)


def the_first_of_two_wires_fails_at_each_call():
    """The second editor is served all the same: it finds the program, or none where the first one's had not been launched."""
    found = [served(lines) for lines in answers("test_transport", [serves(call, 0) for call in range(40)])]
    whole = found[0][0]
    expect(found[0], (whole, 0, JOINED, 0), "where nothing fails")
    failed = [one for one in found if one[1]]
    expect((len(failed) > 2, found[1:len(failed) + 1] == failed), (True, True), "each of %d calls failed" % len(failed))
    for first, _, second, faults in failed:
        expect((first == whole[:len(first)], faults), (True, 0), "what the first was sent")
        told = messages(second)
        expect([message["request_seq"] for message in told if message["type"] == "response"], [1, 2, 3], "the second's answers")
        # A program whose launch was told was launched; one that was launched may not have been told.
        expect(told[1]["success"] or b'"command":"launch"' not in first, True, "a program that was launched is joined")
        expect(told[1].get("message"), None if told[1]["success"] else "noMachine", "else there is none")
    expect(any(second == JOINED for _, _, second, _ in failed), True, "a program that runs was joined")


def the_second_of_two_wires_fails_at_each_call():
    found = [served(lines) for lines in answers("test_transport", [serves(0, call) for call in range(40)])]
    whole = found[0][0]
    failed = [one for one in found if one[3]]
    expect((len(failed) > 2, found[1:len(failed) + 1] == failed), (True, True), "each of %d calls failed" % len(failed))
    for first, faults, second, _ in failed:
        expect((first == whole, faults, second == JOINED[:len(second)]), (True, 0, True), "what both were sent")


def checks():
    """Each check with its name."""
    return [("failing wires: each call fails, %s, sends of %d" % ("a wire that polls" if polls else "one that does not", most), partial(each_call_of_a_wire_fails, polls, most))
            for polls, most in HABITS] \
        + [("failing wires: " + check.__name__.replace("_", " "), check) for check in (
            the_first_of_two_wires_fails_at_each_call, the_second_of_two_wires_fails_at_each_call)]
