"""The built program's `--record FOLDER` and `replay SCRIPT`: what was recorded, played again, gives the bytes that the client got."""
import glob
import os
import re
import resource
import signal
import subprocess
import tempfile
import time
from multiprocessing.pool import ThreadPool

from support.allocations import each_refusal
from support.files import file_of
from support.listening import Server, attaches, launches
from support.mutations import HERE, session_of
from support.program import PROGRAM, SECONDS, TOP, Talk, expect, frame, run
from support.programs import CIRCLES, COUNTS
from support.texts import ANSWERS, FIRST, FIRST_ANSWER, SESSION, request

PLAYED = re.compile(rb"(\d+) (?:connection (\d+)|(->|<-|--) (.*))")


# ---- recordings

def folder():
    """A folder in which recordings are made."""
    return tempfile.TemporaryDirectory()


def script_of(there):
    return os.path.join(there, "session.watch")


def text_of(*path):
    with open(os.path.join(*path), "rb") as file:
        return file.read()


def replayed(script, *words, environment=None):
    """What is printed of a script, on standard output and error, and the status."""
    ran = subprocess.run([PROGRAM, "replay", *words, script], stdin=subprocess.DEVNULL, capture_output=True, timeout=SECONDS, env=environment)
    return ran.stdout, ran.stderr, ran.returncode


def lines_of(script, *words):
    """The lines of a conversation: the number of the event, and what is said."""
    out, err, status = replayed(script, *words)
    expect((err, status), (b"", 0), "replay: standard error and status")
    return [line for line in out.splitlines() if not line.startswith(b"  ")]


def bytes_of(script):
    """The bytes that were queued for each connection, one after the other."""
    streams = []
    for line in lines_of(script):
        _, connection, kind, said = PLAYED.fullmatch(line).groups()
        if connection:
            streams.append(b"")
        elif kind == b"<-":
            streams[-1] += frame(re.sub(rb"\\x([0-9a-f]{2})", lambda found: bytes([int(found[1], 16)]), said))
    return streams


def expect_recorded(data, name, words=(), **how):
    """Plays bytes into the program, which records them, and holds what it wrote against the recording."""
    with folder() as place:
        there = os.path.join(place, "there")
        out, err, _ = run(data, words=["--record", there, *words], **how)
        expect(b"recording ends" in err, False, name + ": standard error")
        expect(bytes_of(script_of(there)), [out], name + ": what is replayed")
        ran = subprocess.run([PROGRAM, "watch", script_of(there)], capture_output=True, timeout=SECONDS)
        expect((ran.stdout[:4], ran.stderr, ran.returncode), (b"run ", b"", 0), name + ": what is watched")


def the_first_session_is_recorded_line_by_line():
    with folder() as place:
        there = os.path.join(place, "there")
        expect(run(SESSION, words=["--record", there]), (ANSWERS, b"", 0), "the session")
        lines = text_of(there, "session.watch").decode().splitlines()
        expect(lines[0], "connect", "the first line")
        expect(lines[1], "bytes " + SESSION.hex(), "a piece of three frames")
        expect(sum(int(line.split()[1]) for line in lines if line.startswith("sent ")), len(ANSWERS), "the bytes that were sent")
        expect(lines[-2:], ["drop", "watch 1 all"], "the last lines")
        expect(text_of(there, "session.options"), b"memory 1024\n", "what it began with")
        expect(sorted(os.listdir(there)), ["session.options", "session.watch"], "the files")
        expect(b"".join(bytes_of(script_of(there))), ANSWERS, "what is replayed")


def a_piece_of_one_frame_is_a_send():
    with folder() as place:
        there = os.path.join(place, "there")
        with Talk(["--record", there]) as talk:
            expect(talk.answers(FIRST, FIRST_ANSWER), FIRST_ANSWER, "the answer")
            talk.end()
        lines = text_of(there, "session.watch").splitlines()
        expect(lines[1], b"send " + FIRST.partition(b"\r\n\r\n")[2], "the line of the piece")
        said = lines_of(script_of(there))
        expect(said[:2], [b"1 connection 1", b"2 -> " + FIRST.partition(b"\r\n\r\n")[2]], "the first lines of the conversation")
        expect([line for line in said if b" <- " in line], [b"3 <- " + FIRST_ANSWER.partition(b"\r\n\r\n")[2]], "the answer, at its turn")
        expect(lines_of(script_of(there), "--from", "3", "--to", "3"), said[2:3], "a part of it")


def the_examples_are_recorded():
    for path in sorted(glob.glob(os.path.join(TOP, "examples", "*.session"))):
        requests = [line for line in text_of(path).splitlines() if line.startswith(b"{")]
        expect_recorded(b"".join(map(frame, requests)), os.path.basename(path))


def cut_pieces_and_what_is_no_message_are_recorded():
    expect_recorded(None, "byte by byte", pieces=[SESSION[i:i + 1] for i in range(len(SESSION))])
    expect_recorded(FIRST + frame(b"no JSON \xff\x00\n"), "a body that is no JSON")
    expect_recorded(FIRST + b"Content-Length: x\r\n\r\n", "a fault of a frame")
    expect_recorded(frame(b'{"seq":1,"type":"request","command":"threads"}\r'), "a body that ends with a carriage return")
    expect_recorded(b"", "nothing")
    many = FIRST + b"".join(request(seq, "threads") for seq in range(2, 3000))
    expect_recorded(many, "pieces of 65,536 bytes")


def one_at_random_is_recorded(number):
    pieces, program = session_of("recorded", number)
    with folder() as place:
        there = os.path.join(place, "there")
        with open(os.path.join(place, HERE), "wb") as file:
            file.write(program)
        ran = subprocess.run([PROGRAM, "--record", there], input=b"".join(pieces), cwd=place, capture_output=True, timeout=SECONDS)
        expect(bytes_of(script_of(there)), [ran.stdout], "session %d: what is replayed" % number)


def sessions_at_random_are_recorded():
    with ThreadPool(os.cpu_count()) as pool:
        pool.map(one_at_random_is_recorded, range(1000), chunksize=10)


def two_editors_are_recorded():
    with folder() as place, file_of(CIRCLES) as path:
        there = os.path.join(place, "there")
        got = []
        with Server("--record", there) as server:
            for sends, number in ((launches(path), 4), (attaches(), 4)):
                with server.editor() as editor:
                    editor.sends(sends)
                    time.sleep(0.1)
                    editor.sends(request(number, "disconnect", terminateDebuggee=False))
                    got.append(b"".join(iter(lambda: editor.socket.recv(1 << 16), b"")))
        expect(bytes_of(script_of(there)), got, "what each got")
        expect(text_of(there, "1.s"), text_of(path), "the copy of the program")


def the_copy_is_that_of_the_launch():
    with folder() as place:
        program, there = os.path.join(place, "p.s"), os.path.join(place, "there")
        with open(program, "wb") as file:
            file.write(COUNTS)
        with Talk(["--record", there]) as talk:
            talk.write(FIRST + request(2, "launch", program=program, stopOnEntry=True) + request(3, "configurationDone"))
            talk.read_up_to(1000)
            with open(program, "wb") as file:
                file.write(b"bogus\n")
            talk.end()
        expect(text_of(there, "1.s"), COUNTS, "the copy")
        expect(b"turn 1.s\n" in text_of(there, "session.watch"), True, "the line of the turn")
        expect(any(b'"entry"' in line for line in lines_of(script_of(there))), True, "it stops at its entry again")


def what_it_began_with_is_kept():
    with folder() as place, file_of(CIRCLES) as path:
        there = os.path.join(place, "there")
        with Server("--program", path, "--memory", "8", "--once", "--record", there) as server:
            with server.editor() as editor:
                editor.sends(FIRST + request(2, "attach") + request(3, "configurationDone") + request(4, "stackTrace", threadId=1) + request(5, "disconnect"))
                got = b"".join(iter(lambda: editor.socket.recv(1 << 16), b""))
        expect(text_of(there, "session.options"), b"memory 8\nprogram %s\n" % path.encode(), "the options")
        expect(text_of(there, "program.s"), CIRCLES, "the program")
        expect(bytes_of(script_of(there)), [got], "what is replayed, from another folder")


def a_program_that_runs_for_ever_adds_nothing():
    with folder() as place, file_of(CIRCLES) as path:
        there = os.path.join(place, "there")
        with Talk(["--record", there]) as talk:
            talk.write(launches(path))
            talk.read(len(FIRST_ANSWER))
            sizes = [0]
            # It may take a while until all that was asked is answered.
            while len(sizes) < 3 or len(sizes) < 50 and sizes[-1] != sizes[-2]:
                time.sleep(0.3)
                sizes.append(os.path.getsize(script_of(there)))
            time.sleep(0.5)
            expect(os.path.getsize(script_of(there)), sizes[-2], "the size of the script")


def what_was_killed_is_a_script_but_for_its_last_line():
    with file_of(CIRCLES) as path:
        for pause in (0.01, 0.05, 0.1):
            with folder() as place:
                there = os.path.join(place, "there")
                with Talk(["--record", there]) as talk:
                    talk.write(launches(path))
                    first = talk.read(len(FIRST_ANSWER))
                    time.sleep(pause)
                    talk.process.send_signal(signal.SIGKILL)
                    got = first + talk.read_so_far + talk.process.stdout.read()
                whole = b"".join(bytes_of(script_of(there)))
                expect(whole[:len(got)], got[:len(whole)], "what is replayed, beside what was got")
                expect(len(got) - len(whole) < 1000, True, "what is replayed is all but a message")
                ran = subprocess.run([PROGRAM, "watch", script_of(there), "1"], capture_output=True, timeout=SECONDS)
                expect((ran.stdout[:4], ran.returncode), (b"run ", 0), "what is watched")


# ---- what goes wrong

def a_folder_that_is_no_new_one_is_refused():
    with folder() as place:
        full = os.path.join(place, "full")
        os.mkdir(full)
        with open(os.path.join(full, "x"), "wb"):
            pass
        for there in (full, os.path.join(full, "x"), os.path.join(full, "x", "y"), os.path.join(place, "no", "where"), ""):
            out, err, status = run(SESSION, words=["--record", there])
            expect((out, status), (b"", 2), "a folder that is refused")
            expect(err.startswith(b"rvdap: %s: " % there.encode()), True, "the line: %r" % err)
        empty = os.path.join(place, "empty")
        os.mkdir(empty)
        expect(run(SESSION, words=["--record", empty]), (ANSWERS, b"", 0), "an empty folder")
        expect(run(SESSION, words=["--record", empty])[2], 2, "a second time")


def a_recording_that_cannot_be_written_ends_and_the_session_goes_on():
    def few_bytes():
        signal.signal(signal.SIGXFSZ, signal.SIG_IGN)
        resource.setrlimit(resource.RLIMIT_FSIZE, (300, 300))

    with folder() as place:
        there = os.path.join(place, "there")
        ran = subprocess.run([PROGRAM, "--record", there], input=SESSION, capture_output=True, preexec_fn=few_bytes, timeout=SECONDS)
        expect((ran.stdout, ran.returncode), (ANSWERS, 0), "the session")
        expect(re.fullmatch(rb"rvdap: .*: the recording ends: .*\n", ran.stderr) is not None, True, "one line: %r" % ran.stderr)
        expect(b"".join(bytes_of(script_of(there))), b"", "what is replayed: no line was whole but the first")


def a_full_disk_ends_a_recording():
    """A file system of four pages, where this may mount one: one is left, for what the session began with."""
    with folder() as place:
        disk = os.path.join(place, "disk")
        os.mkdir(disk)
        if subprocess.run(["mount", "-t", "tmpfs", "-o", "size=16k", "tmpfs", disk], capture_output=True, check=False).returncode != 0:
            print("left out: a disk that is full, since none can be mounted here")
            return
        try:
            with open(os.path.join(disk, "full"), "wb") as file:
                file.write(bytes(3 * 4096))
            there = os.path.join(disk, "there")
            out, err, status = run(SESSION, words=["--record", there])
            expect((out, status), (ANSWERS, 0), "the session")
            expect(err, b"rvdap: %s: the recording ends: No space left on device (os error 28)\n" % there.encode(), "one line")
        finally:
            subprocess.run(["umount", disk], check=True)


def wrong_scripts_are_refused():
    with folder() as place:
        script = os.path.join(place, "s.watch")
        for text, wanted in ((b"connect\nbogus\nturn\n", b"line 2"), (b"\n", b"line 1"), (b"watch 1 all\nconnect\n", b"line 1")):
            with open(script, "wb") as file:
                file.write(text)
            expect(replayed(script), (b"", b"rvdap: %s: %s\n" % (script.encode(), wanted), 1), "a wrong script")
        expect(replayed(os.path.join(place, "none")), (b"", b"rvdap: %s/none: cannot read\n" % place.encode(), 1), "a script that is not there")
        with open(script, "wb") as file:
            file.write(b"connect\nturn\nconn")
        expect(lines_of(script), [b"1 connection 1"], "a line that was cut")


def facts_are_those_of_watch():
    with folder() as place:
        there = os.path.join(place, "there")
        requests = [line for line in text_of(TOP, "examples", "sorting.session").splitlines() if line.startswith(b"{")]
        run(b"".join(map(frame, requests[:-1])), words=["--record", there])
        out, err, status = replayed(script_of(there), "--facts")
        expect((err, status), (b"", 0), "replay --facts")
        last = out.rpartition(b"<-")[2].partition(b"\n")[2]
        ran = subprocess.run([PROGRAM, "watch", script_of(there)], capture_output=True, timeout=SECONDS)
        facts = b"".join(line[2:] + b"\n" for line in last.splitlines() if line.startswith(b"  "))
        expect(facts, ran.stdout, "what is known after the last message")


def a_recording_without_memory():
    """Each allocation is refused in turn: the session is served as without a recording, or ends as it does without memory."""
    with folder() as place:
        def once(environment):
            there = os.path.join(place, environment["REFUSE_ALLOC"])
            return run(SESSION, words=["--record", there], environment=environment), there

        gave = each_refusal(once)
        for (out, err, status), there in gave:
            if status == 0:
                expect(out, ANSWERS, "a whole session")
                ended = err == b"rvdap: %s: the recording ends: no memory\n" % there.encode()
                expect(ended or (err == b"" and text_of(there, "session.watch").endswith(b"\nwatch 1 all\n")), True, "what is said: %r" % err)
            else:
                expect(out, ANSWERS[:len(out)], "what was told before")
                expect(err.startswith(b"rvdap: "), True, "a line")
            if os.path.exists(script_of(there)):
                whole = b"".join(bytes_of(script_of(there)))
                expect(whole, ANSWERS[:len(whole)], "what is replayed")
        expect(len(gave) > 5, True, "some allocations were refused")


def a_replay_without_memory():
    with folder() as place:
        there = os.path.join(place, "there")
        run(SESSION, words=["--record", there])
        whole = replayed(script_of(there))[0]
        for out, err, status in each_refusal(lambda environment: replayed(script_of(there), environment=environment)):
            expect((out == whole, err) if status == 0 else (err, status), (True, b"") if status == 0 else (b"rvdap: no memory\n", 1), "a replay")
            expect(out, whole[:len(out)], "what was printed")


def the_example_of_a_client_finds_nothing_wrong():
    with folder() as place:
        ran = subprocess.run([os.path.join(TOP, "examples", "record", "compare"), PROGRAM, os.path.join(place, "there")], cwd=TOP, capture_output=True, text=True,
                             timeout=SECONDS)
        expect((ran.stdout, ran.stderr, ran.returncode), ("33 registers are shown, 0 of them wrong\n", "", 0), "examples/record/compare")


def checks():
    """Each check with its name."""
    return [(check.__name__.replace("_", " "), check) for check in (
        the_first_session_is_recorded_line_by_line,
        a_piece_of_one_frame_is_a_send,
        the_examples_are_recorded,
        cut_pieces_and_what_is_no_message_are_recorded,
        sessions_at_random_are_recorded,
        two_editors_are_recorded,
        the_copy_is_that_of_the_launch,
        what_it_began_with_is_kept,
        a_program_that_runs_for_ever_adds_nothing,
        what_was_killed_is_a_script_but_for_its_last_line,
        a_folder_that_is_no_new_one_is_refused,
        a_recording_that_cannot_be_written_ends_and_the_session_goes_on,
        a_full_disk_ends_a_recording,
        wrong_scripts_are_refused,
        facts_are_those_of_watch,
        a_recording_without_memory,
        a_replay_without_memory,
        the_example_of_a_client_finds_nothing_wrong,
    )]
