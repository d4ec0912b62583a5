"""Bytes that are no requests: a session is cut anywhere, and each of its bytes is another. What comes before the fault is answered, the fault has
its name, and nothing halts."""
import os
from concurrent.futures import ThreadPoolExecutor

from rows.session_runs import two_pieces
from rows.transport import CONNECT, EVERY, FIRST, GO_ON, P, RAN, STOPPED_AT_ENTRY, TURNS, file, launch
from support.files import file_of
from support.players import play, shown
from support.program import expect, frame, run
from support.reading import messages, read
from support.texts import FIRST_ANSWER, request

PIECES = [FIRST + launch(stopOnEntry=True), GO_ON]
WHOLE = STOPPED_AT_ENTRY + RAN
OTHERS = (0x00, 0x22, 0x7b, 0xff)
AT_ONCE = 2000


def with_byte(place, value):
    """The pieces with this byte at a place of both together."""
    pieces = [bytearray(piece) for piece in PIECES]
    at = pieces[0] if place < len(pieces[0]) else pieces[1]
    at[place - (0 if at is pieces[0] else len(pieces[0]))] = value
    return [bytes(piece) for piece in pieces]


def cut_at(length):
    return [PIECES[0][:length], PIECES[1][:max(0, length - len(PIECES[0]))]]


LENGTH = sum(map(len, PIECES))
CUTS = [cut_at(length) for length in range(LENGTH + 1)]
CHANGED = [with_byte(place, value) for place in range(LENGTH) for value in OTHERS]


# The places of the header parts of the first frame and of the last.
IN_HEADERS = [at + place for at, piece in ((0, PIECES[0]), (len(PIECES[0]), PIECES[1])) for place in range(piece.index(b"\r\n\r\n") + 4)]
HEADERS = [with_byte(place, value) for place in IN_HEADERS for value in range(256)]


def commands_of(pieces):
    """A session that is driven over a wire with these pieces, what there is to see then, and a connection after it."""
    return ["fresh", file(P)[0], "wire new false %d 0" % EVERY, *("wire piece " + piece.hex() for piece in pieces if piece),
            CONNECT[0], "wire drive %d" % TURNS, "link_fault", "wire taken", "wire faults", "connect"]


def expect_answers(which, data, fault, taken):
    """What an editor was told that sent these bytes, and what closed its connection."""
    requests, wanted = read(data)
    expect(fault, wanted, "%s: what closed the connection" % which)
    told = messages(taken)
    expect([message["request_seq"] for message in told if message["type"] == "response"], [request["seq"] for request in requests],
           "%s: a response for each request before the fault" % which)
    expect_first(which, data, taken)


def expect_first(which, data, taken):
    """The first answers are those of the requests that came unchanged."""
    whole = b"".join(PIECES)
    same = next((place for place, (one, other) in enumerate(zip(data, whole)) if one != other), min(len(data), len(whole)))
    sure = WHOLE if same == LENGTH else STOPPED_AT_ENTRY if same >= len(PIECES[0]) else FIRST_ANSWER if same >= len(FIRST) else b""
    expect(taken[:len(sure)], sure, "%s: the answers of what came unchanged" % which)


def are_driven(cases):
    """Sessions over a wire, many in one run of the player."""
    for begin in range(0, len(cases), AT_ONCE):
        commands = [commands_of(pieces) for pieces in cases[begin:begin + AT_ONCE]]
        lines, status = play("test_transport", [command for each in commands for command in each])
        expect((status, len(lines)), (0, sum(map(len, commands))), "the status, and how many answers")
        lines = iter(lines)
        for pieces, each in zip(cases[begin:], commands):
            *made, ended, fault, taken, faults, number = [next(lines) for _ in each]
            which = shown(b"".join(pieces))
            expect((made[-1], ended, faults, number), ("1", "Closed", "0", "2"), "%s: the end, and the number of the next connection" % which)
            expect_answers(which, b"".join(pieces), fault, bytes.fromhex(taken))


def every_cut():
    are_driven(CUTS)


def every_byte_another():
    are_driven(CHANGED)


def every_byte_of_the_first_header_and_the_last_any_other():
    are_driven(HEADERS)


def bodies_that_are_no_json():
    for body in (b"[" * 200 + b"]" * 200, b'{"seq":4,"type":"request","command":"threads","x":%s}' % (b"[" * 200 + b"]" * 200), b"\xff\xfe", b'{"type":"event","x":"\xc3("}',
                 b'{"seq":4,"type":"request","command":"\xff"}'):
        are_driven([[PIECES[0], frame(body)], [FIRST + frame(body)], [frame(body)]])


def the_program_says_the_same():
    """The built program over pipes, each cut and each byte another: a status, a line for what is bad, and the answers of what came before."""
    with file_of(P) as path, ThreadPoolExecutor(os.cpu_count()) as pool:
        longer = len(path) - len("/w/p.s")

        def in_file(pieces):
            """The same bytes, with the path of the file in place of the row's, where that came unchanged."""
            data = b"".join(pieces)
            own = data.replace(b'"/w/p.s"', b'"%s"' % path.encode())
            head, found, body = own.partition(b'\r\n\r\n{"seq":2')
            number = b": %d" % len(request(2, "launch", program="/w/p.s", stopOnEntry=True).split(b"\r\n\r\n")[1])
            if own == data or not found or not head.endswith(number):
                return data
            return head[:-len(number)] + b": %d" % (int(number[2:]) + longer) + found + body

        def expect_run(pieces):
            data = in_file(pieces)
            requests, fault = read(data)
            out, err, status = run(data)
            which = shown(data)
            expect((err, status), (b"", 0) if fault == "none" else (b"rvdap: bad message\n", 1), "%s: the end" % which)
            told = [message["request_seq"] for message in messages(out) if message["type"] == "response"]
            expect(told, [request["seq"] for request in requests], "%s: a response for each request before the fault" % which)

        for _ in pool.map(expect_run, CUTS + CHANGED):
            pass


def checks():
    """Each check with its name."""
    expect((two_pieces().taken, b"".join(PIECES)[:83 + 22]), (WHOLE, FIRST[:105]), "the session is that of the rows")
    return [("bad bytes: " + check.__name__.replace("_", " "), check) for check in (
        every_cut, every_byte_another, every_byte_of_the_first_header_and_the_last_any_other, bodies_that_are_no_json, the_program_says_the_same)]
