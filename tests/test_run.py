"""`rvdap run` over small programs: what they print, their statuses, and what is said of where and why they stopped; and examples/grade."""
import os
import re
import shlex
import signal
import subprocess
import tempfile

from support.allocations import each_refusal
from support.files import file_of
from support.program import PROGRAM, TOP, expect

GRADE = os.path.join(TOP, "examples", "grade")
SORT, UNDEFINED = (os.path.join(TOP, "examples", name) for name in ("sort.s", "undefined-label.s"))

# Prints -7 and 2147483647, and ends with the code 259, of which the low 8 bits are 3. Eight instructions, the last of which ends it.
PRINTS = b"li a7, 1\nli a0, -7\necall\nlui a0, 0x80000\naddi a0, a0, -1\necall\nli a7, 93\nli a0, 259\necall\n"
PRINTED = b"-7\n2147483647\n"
# Runs for ever, and prints 1 each time.
ENDLESS = b"li a7, 1\nli a0, 1\ne: ecall\nj e\n"
# Prints 1, and then loads from address 0, on line 4.
TRAPS = b"li a7, 1\nli a0, 1\nf: ecall\nlw a0, 0(zero)\n"
EBREAK = b"f: nop\nebreak\nnop\n"
# Prints 5, and then stores into a page that nothing was stored into; six instructions retire.
STORES = b"li a7, 1\nli a0, 5\necall\nsw a0, -4(sp)\nli a7, 93\nli a0, 0\necall\n"


def run(*words, stdout=subprocess.PIPE, environment=None):
    ran = subprocess.run([PROGRAM, "run", *words], stdin=subprocess.DEVNULL, stdout=stdout, stderr=subprocess.PIPE, env=environment, timeout=60)
    return ran.stdout, ran.stderr.decode(errors="replace"), ran.returncode


def expect_run(text, printed, said, status, *words):
    """Fails unless a run of this text prints this and has this status. said follows the file's name on standard error."""
    with file_of(text) as path:
        expect(run(*words, path), (printed, said and path + ":" + said, status), "a run of %r" % text)


def a_program_prints_and_ends_with_its_code():
    expect_run(PRINTS, PRINTED, "", 3)
    expect_run(b"li a7, 93\nli a0, -1\necall\n", b"", "", 255)
    expect_run(b"li a7, 93\nli a0, 256\necall\n", b"", "", 0)
    expect(run(SORT), (b"10\n20\n30\n40\n", "", 0), "examples/sort.s")


# What TRAPS did wrong.
TRAPPED = "4: load access fault: lw a0, 0(zero) reads 0x00000000, where no memory is\nlw a0, 0(zero)\nat 0x0001000c (f+4)\n"


def a_trap_is_said_with_what_was_wrong_its_line_and_label():
    expect_run(TRAPS, b"1\n", TRAPPED, 123)
    # It begins at its label, not at its first line, and stands at it where it traps.
    expect_run(TRAPS.replace(b"f: ", b"_start: "), b"", "3: unknown environment call: a7 is 0, and the calls are 1 and 93\n_start: ecall\n"
               "at 0x00010008 (_start)\n", 123)
    expect_run(b"li a7, 10\necall\n", b"", "2: unknown environment call: a7 is 10, and the calls are 1 and 93\necall\nat 0x00010004\n", 123)


# Programs, and what is said of them: each by hand.
FAULTS = (
    # A load and a store, of each size, where no memory is: below and above it.
    ("lw a0, 8(zero)", "1: load access fault: lw a0, 8(zero) reads 0x00000008, where no memory is\n%s\nat 0x00010000\n"),
    ("lhu a0, -2(zero)", "1: load access fault: lhu a0, -2(zero) reads 0xfffffffe, where no memory is\n%s\nat 0x00010000\n"),
    ("lb a0, 0(sp)", "1: load access fault: lb a0, 0(sp) reads 0x00110000, where no memory is\n%s\nat 0x00010000\n"),
    ("sw a0, 0(sp)", "1: store access fault: sw a0, 0(sp) writes 0x00110000, where no memory is\n%s\nat 0x00010000\n"),
    ("sh a0, 0(zero)", "1: store access fault: sh a0, 0(zero) writes 0x00000000, where no memory is\n%s\nat 0x00010000\n"),
    ("sb a0, 1(sp)", "1: store access fault: sb a0, 1(sp) writes 0x00110001, where no memory is\n%s\nat 0x00010000\n"),
    # At no multiple of what it has to be.
    ("lw a0, -2(sp)", "1: load address misaligned: lw a0, -2(sp) reads 0x0010fffe, which is no multiple of 4\n%s\nat 0x00010000\n"),
    ("lh a0, -3(sp)", "1: load address misaligned: lh a0, -3(sp) reads 0x0010fffd, which is no multiple of 2\n%s\nat 0x00010000\n"),
    ("sw a0, 3(sp)", "1: store address misaligned: sw a0, 3(sp) writes 0x00110003, which is no multiple of 4\n%s\nat 0x00010000\n"),
    ("sh a0, -1(sp)", "1: store address misaligned: sh a0, -1(sp) writes 0x0010ffff, which is no multiple of 2\n%s\nat 0x00010000\n"),
    ("jalr ra, 3(zero)", "1: instruction address misaligned: jalr ra, 3(zero) goes to 0x00000002, which is no multiple of 4\n%s\nat 0x00010000\n"),
    ("j x\n.half 0\nx: .half 0", "1: instruction address misaligned: jal zero, 0x00010006 goes to 0x00010006, which is no multiple of 4\nj x\nat 0x00010000\n"),
    ("beqz a0, x\n.half 0\nx: .half 0",
     "1: instruction address misaligned: beq a0, zero, 0x00010006 goes to 0x00010006, which is no multiple of 4\nbeqz a0, x\nat 0x00010000\n"),
    # It went to where no memory is, ran past the end, or into data.
    ("ret", " instruction access fault: the program went to 0x00000000, where no memory is\nat 0x00000000\n"),
    ("nop", " illegal instruction: ran past the last line\nat 0x00010004\n"),
    ("# nothing", " illegal instruction: there is no instruction\nat 0x00010000\n"),
    ("nop\nx: .word 5", " illegal instruction: no instruction stands here, but .word 0x00000005\nat 0x00010004 (x)\n"),
    ("nop\nj x\n.space 8\nx: .byte 1", " illegal instruction: no instruction stands here, but .word 0x00000001\nat 0x00010010 (x)\n"),
    # It wrote over its next instruction, which is then another one, or none.
    ("_start: auipc t0, 0\nsw zero, 8(t0)\nnop",
     "3: illegal instruction: the program wrote over this instruction: .word 0x00000000 stands here now\nnop\nat 0x00010008 (_start+8)\n"),
    ("_start: la t0, x\nlw t1, 0(t0)\nauipc t0, 0\nsw t1, 8(t0)\nnop\nx: lw a0, 0(zero)",
     "5: load access fault: the program wrote over this instruction: lw a0, 0(zero) stands here now\nnop\nat 0x00010014 (_start+20)\n"),
    # It began at a label that is neither `_start` nor `main`.
    ("# as in C\nsquare: ret\nmain: call square",
     " instruction access fault: the program went to 0x00000000, where no memory is\nat 0x00000000\n%s: no _start: it began at square, line 2\n"),
    ("main: ret", " instruction access fault: the program went to 0x00000000, where no memory is\nat 0x00000000\n"),
    ("f: ret\n_start: jr zero", " instruction access fault: the program went to 0x00000000, where no memory is\nat 0x00000000\n"),
)


def what_a_program_did_wrong_is_said():
    for text, said in FAULTS:
        with file_of(text.encode()) as path:
            wanted = said.replace("%s", path if "no _start" in said else text)
            expect(run(path), (b"", path + ":" + wanted, 123), "a run of %r" % text)


def a_stack_that_grows_into_the_code_is_said():
    """Frame k stores a0, which is then 6 - k, at 0x00110000 - 8 k: at 0x00010030, where the call's second word is, -131060."""
    text = (b"# forgot the base case\n_start: li   a0, 5\n        call sum\n        li   a7, 1\n        ecall\n        li   a7, 93\n        ecall\n"
            b"sum:    addi sp, sp, -8\n        sw   ra, 4(sp)\n        sw   a0, 0(sp)\n        addi a0, a0, -1\n        call sum\n        ret\n")
    expect_run(text, b"", "12: illegal instruction: the program wrote over this instruction: .word 0xfffe000c stands here now\n        call sum\n"
               "at 0x00010030 (sum+20)\n", 123)


def an_ebreak_is_said_at_its_own_line():
    expect_run(EBREAK, b"", "2: ebreak at 0x00010004 (f+4)\nebreak\n", 122)


def instructions_are_limited():
    for limit, printed, status in ((0, b"", 124), (2, b"", 124), (3, b"-7\n", 124), (5, b"-7\n", 124), (6, PRINTED, 124), (8, PRINTED, 124)):
        with file_of(PRINTS) as path:
            out, said, was = run("--limit", str(limit), path)
        expect((out, was), (printed, status), "a limit of %d" % limit)
        expect(re.fullmatch(r"%s:\d: instruction limit at 0x000100[0-9a-f]{2}\n[^\n]+\n" % re.escape(path), said) is not None, True, "what is said: %r" % said)
    expect_run(PRINTS, PRINTED, "", 3, "--limit", "9")
    expect_run(ENDLESS, b"1\n" * 499999, "3: instruction limit at 0x00010008 (e)\ne: ecall\n", 124, "--limit", "1000000")


def output_is_limited():
    """As many bytes as are allowed are written, and it ends at the call that printed one more."""
    for limit, place in ((0, "3: output limit at 0x00010008"), (2, "3: output limit at 0x00010008"), (3, "6: output limit at 0x00010014"),
                         (13, "6: output limit at 0x00010014")):
        expect_run(PRINTS, PRINTED[:limit], place + "\necall\n", 121, "--output-limit", str(limit))
    for limit in ("14", "15", "4294967295"):
        expect_run(PRINTS, PRINTED, "", 3, "--output-limit", limit)
    expect_run(ENDLESS, b"1\n" * 500000, "3: output limit at 0x00010008 (e)\ne: ecall\n", 121, "--output-limit", "1000000")
    # The third number is printed by the seventh instruction.
    expect_run(ENDLESS, b"1\n1\n1", "3: output limit at 0x00010008 (e)\ne: ecall\n", 121, "--output-limit", "5", "--limit", "7")
    expect_run(ENDLESS, b"1\n1\n", "3: instruction limit at 0x00010008 (e)\ne: ecall\n", 124, "--output-limit", "5", "--limit", "6")


def registers_are_told_at_the_end():
    values = {"sp": 0x110000, "a0": 259, "a7": 93}
    names = ("zero ra sp gp tp t0 t1 t2 s0 s1 a0 a1 a2 a3 a4 a5 a6 a7 s2 s3 s4 s5 s6 s7 s8 s9 s10 s11 t3 t4 t5 t6").split()
    lines = "pc 0x00010020 65568\n" + "".join("%s 0x%08x %d\n" % (name, values.get(name, 0), values.get(name, 0)) for name in names)
    with file_of(PRINTS) as path:
        expect(run("--registers", path), (PRINTED, lines, 3), "registers of a program that ended")
    with file_of(TRAPS.replace(b"li a0, 1\n", b"li a0, -1\n")) as path:
        out, said, status = run("--registers", path)
    expect((out, status), (b"-1\n", 123), "a run that traps")
    expect(said.startswith(path + ":" + TRAPPED + "pc 0x0001000c 65548\nzero 0x00000000 0\n"), True, "where it stopped comes first: %r" % said)
    expect("\na0 0xffffffff -1\n" in said, True, "a number below 0: %r" % said)


def the_last_instructions_are_told():
    """Each by hand: what it read or wrote, and the register that it loaded, computed or stored; before the registers, and after where it stopped."""
    text = b"_start: li t0, -5\nsw t0, -8(sp)\nlh t1, -8(sp)\nbeqz t1, _start\ncall f\nf: sb zero, -1(sp)\nebreak\n"
    said = "7: ebreak at 0x0001001c (f+4)\nebreak\n"
    trace = ("0x00010000 addi t0, zero, -5; t0 = 0xfffffffb -5\n"
             "0x00010004 sw t0, -8(sp) writes 0x0010fff8; t0 = 0xfffffffb -5\n"
             "0x00010008 lh t1, -8(sp) reads 0x0010fff8; t1 = 0xfffffffb -5\n"
             "0x0001000c beq t1, zero, 0x00010000\n"
             "0x00010010 auipc ra, 0x0; ra = 0x00010010 65552\n"
             "0x00010014 jalr ra, 8(ra); ra = 0x00010018 65560\n"
             "0x00010018 sb zero, -1(sp) writes 0x0010ffff\n"
             "0x0001001c ebreak\n")
    lines = trace.splitlines(keepends=True)
    for count in (0, 1, 3, 8, 9, 65536, 4294967295):
        expect_run(text, b"", said + "".join(lines[max(0, 8 - count):]), 122, "--trace", str(count))
    with file_of(TRAPS) as path:
        out, told, status = run("--trace", "2", "--registers", path)
    expect((out, status), (b"1\n", 123), "a run that traps")
    expect(told.startswith(path + ":" + TRAPPED + "0x00010004 addi a0, zero, 1; a0 = 0x00000001 1\n0x00010008 ecall\npc 0x0001000c 65548\n"), True, "its trace: %r" % told)
    with file_of(ENDLESS) as path:
        told = run("--trace", "70000", "--limit", "200000", path)[1].splitlines()
    expect(len(told), 2 + 65536, "the lines of as many instructions as are recorded")


def several_files_are_one_program():
    """Each begins on a line of its own, and an error or a stop is told under its name and its own line."""
    adds = b"_start: la t0, x\nlw a0, 0(t0)\nli a7, 1\necall\nli a0, 0\nli a7, 93\necall"
    with file_of(adds) as first, file_of(b"x: .word 7") as second, file_of(b"nop\ny: .wrd 7") as wrong, file_of(b"# y\r\n\nx: lw t0, 0(zero)") as traps:
        expect(run(first, second), (b"7\n", "", 0), "two texts")
        expect(run(first, "--count", second), (b"7\n", "rvdap: retired instructions: 7\n", 0), "an option between them")
        expect(run(first, wrong, second), (b"", "%s:2:4: error: UnknownInstruction: .wrd: .word?\ny: .wrd 7\n" % wrong, 125), "an error in the second")
        expect(run(second, first, second), (b"", "%s:1:1: error: TwiceDefined: an earlier label has this name\nx: .word 7\n" % second, 125), "a label twice")
        with file_of(b"j x") as jumps:
            expect(run(jumps, traps), (b"", "%s:3: load access fault: lw t0, 0(zero) reads 0x00000000, where no memory is\nx: lw t0, 0(zero)\n"
                                       "at 0x00010004 (x)\n" % traps, 123), "a trap in the second")
        expect(run(first, first + ".absent", second), (b"", "rvdap: %s.absent: cannot read\n" % first, 1), "one that is absent")


def instructions_are_counted():
    with file_of(PRINTS) as path:
        expect(run("--count", path), (PRINTED, "rvdap: retired instructions: 8\n", 3), "a count")
    with file_of(TRAPS) as path:
        expect(run("--count", path), (b"1\n", "rvdap: retired instructions: 3\n%s:%s" % (path, TRAPPED), 123), "a count before a trap")


def an_error_is_said_with_its_line_as_compilers_do():
    expect_run(b"nop\n  addi a0, a0, 2048\n", b"", "2:16: error: OutOfRange: 2048 is not in -2048 to 2047\n  addi a0, a0, 2048\n", 125)
    expect_run(b"nop\n# \xff\n", b"", "2:3: error: NotUtf8: a byte that is not UTF-8\n", 125)


def what_cannot_be_read_says_so():
    with tempfile.TemporaryDirectory() as folder:
        long = os.path.join(folder, "long.s")
        with open(long, "wb") as file:
            file.write(b"#" * 1048577)
        for path in (os.path.join(folder, "absent.s"), folder, long):
            expect(run(path), (b"", "rvdap: %s: cannot read\n" % path, 1), "no text")


def memory_is_given_to_the_program():
    expect_run(b"mv a0, sp\nli a7, 1\necall\nli a7, 93\nli a0, 0\necall\n", b"%d\n" % (0x10000 + 8192), "", 0, "--memory", "8")
    expect_run(b"li a0, 5\nsw a0, -4(sp)\nli a7, 93\necall\n", b"", "", 5, "--memory", "16384")
    expect_run(b".space 4097\n", b"", "1:1: error: TooLarge: memory ends before this line\n.space 4097\n", 125, "--memory", "4")


def what_is_printed_comes_while_it_runs():
    with file_of(ENDLESS) as path, subprocess.Popen([PROGRAM, "run", path], stdin=subprocess.DEVNULL, stdout=subprocess.PIPE) as process:
        expect(process.stdout.read(4), b"1\n1\n", "what is printed first")
        process.send_signal(signal.SIGINT)
        process.stdout.read()
        expect(process.wait(), -signal.SIGINT, "a run that is interrupted")


def a_program_that_prints_100_mb_is_written_whole():
    count = 9100000
    text = b"li a0, 1000000000\nli a7, 1\nli s0, %d\nl: ecall\naddi s0, s0, -1\nbnez s0, l\nli a0, 0\nli a7, 93\necall\n" % count
    with file_of(text) as path:
        out, said, status = run(path)
    expect((out == b"1000000000\n" * count, said, status), (True, "", 0), "%d numbers" % count)


def output_that_fails_ends_it():
    with file_of(ENDLESS) as path, open("/dev/full", "wb") as full:
        expect(run(path, stdout=full)[1:], ("rvdap: read or write fault\n", 1), "a full disk")
    with file_of(ENDLESS) as path:
        reading, writing = os.pipe()
        os.close(reading)
        expect(run(path, stdout=writing)[1:], ("rvdap: read or write fault\n", 1), "a pipe that nobody reads")
        os.close(writing)
    with file_of(PRINTS) as path, open("/dev/full", "wb") as full:
        said = "rvdap: retired instructions: 8\nrvdap: read or write fault\n"
        expect(run("--count", path, stdout=full)[1:], (said, 1), "a count where output fails")
        ran = subprocess.run(["sh", "-c", 'exec "$0" run "$1" >&-', PROGRAM, path], stdin=subprocess.DEVNULL, stderr=subprocess.PIPE, timeout=60)
        expect((ran.stderr, ran.returncode), (b"rvdap: read or write fault\n", 1), "no standard output")


def a_fifo_is_read():
    with tempfile.TemporaryDirectory() as folder:
        path = os.path.join(folder, "fifo")
        os.mkfifo(path)
        with subprocess.Popen([PROGRAM, "run", path], stdin=subprocess.DEVNULL, stdout=subprocess.PIPE) as process:
            with open(path, "wb") as file:
                file.write(PRINTS)
            expect((process.stdout.read(), process.wait()), (PRINTED, 3), "a program out of a FIFO")


def without_memory_it_ends_with_a_line():
    with file_of(PRINTS) as path:
        for out, said, status in each_refusal(lambda environment: run(path, environment=environment)):
            if status == 3:
                expect((out, said), (PRINTED, ""), "a whole run")
            else:
                expect((said, status), ("rvdap: no memory\n", 1), "out of memory")
                expect(out in (b"", b"-7\n", PRINTED), True, "what was printed before it: %r" % out)


def what_was_printed_before_memory_ran_out_is_there():
    """The page of the store is refused, or room for a line after the first: the number is there, and so is the count."""
    none, counted = "rvdap: no memory\n", "rvdap: retired instructions: %d\n"
    with file_of(STORES) as path:
        ends = set(each_refusal(lambda environment: run("--count", path, environment=environment)))
    whole = (b"5\n", counted % 6, 0)
    expect(ends - {whole}, {(b"", none, 1), (b"", counted % 0 + none, 1), (b"5\n", counted % 3 + none, 1)}, "the ends")


def the_document_for_teachers_shows_what_is_so():
    """Its block of runs: of examples/sort.s, and of the program above that traps, as trap.s."""
    with open(os.path.join(TOP, "docs", "TEACHING.md"), encoding="utf-8") as file:
        [block] = re.findall(r"^```\n(\$ rvdap run .*?)^```$", file.read(), re.M | re.S)
    shown = [it.split("\n", 1) for it in re.split(r"^\$ ", block, flags=re.M)[1:]]
    expect([command for command, _ in shown], ["rvdap run examples/sort.s", "rvdap run trap.s", "echo $?"], "what is run")
    with tempfile.TemporaryDirectory() as folder:
        with open(os.path.join(folder, "trap.s"), "wb") as file:
            file.write(TRAPS)
        os.symlink(os.path.join(TOP, "examples"), os.path.join(folder, "examples"))
        script = "\n".join(["rvdap() { %s \"$@\"; }" % shlex.quote(PROGRAM), *(command for command, _ in shown)])
        ran = subprocess.run(["sh", "-c", script], cwd=folder, stdin=subprocess.DEVNULL, stdout=subprocess.PIPE, stderr=subprocess.STDOUT, timeout=60)
    expect(ran.stdout.decode(), "".join(lines for _, lines in shown), "what it prints")


def submissions_are_graded():
    texts = (b"li a7, 1\nli a0, 1\necall\nli a7, 93\nli a0, 3\necall\n", PRINTS, PRINTS.replace(b"-7", b"7"),
             PRINTS.replace(b"259", b"4"), ENDLESS, EBREAK, b"call f\n")
    why = (": printed 1 as number 1, and not -7", None, ": printed 7 as number 1, and not -7", ": exit code 4, and not 3",
           ": 3: instruction limit at 0x00010008 (e)", ": 2: ebreak at 0x00010004 (f+4)",
           ": 1:6: error: Undefined: no line defines f")
    with tempfile.TemporaryDirectory() as folder:
        paths = [os.path.join(folder, "%d.s" % number) for number in range(len(texts))]
        for path, text in zip([*paths, os.path.join(folder, "expected")], [*texts, PRINTED]):
            with open(path, "wb") as file:
                file.write(text)
        wanted = "".join("%s  %s%s\n" % ("failed" if fault else "passed", path, fault or "") for path, fault in zip(paths, why))
        expected = os.path.join(folder, "expected")
        expect(grade("--limit", "1000000", "--status", "3", expected, *paths), (wanted + "1 of 7 passed\n", "", 1), "seven submissions")
        expect(grade("--status", "3", expected, paths[1]), ("passed  %s\n1 of 1 passed\n" % paths[1], "", 0), "one that is right")
        printed = grade(expected, UNDEFINED)[0]
        expect(printed.startswith("failed  %s: 4:10: error: Undefined: " % UNDEFINED), True, "the example with an error: %r" % printed)


def a_status_may_be_any_and_the_last_line_may_lack_its_line_feed():
    with file_of(PRINTS) as path, file_of(b"-7\n2147483647") as expected, file_of(b" -7 \n\n+2147483647\n\n") as spaced, file_of(b"-7\n") as less:
        expect(grade("--any-status", expected, path), ("passed  %s\n1 of 1 passed\n" % path, "", 0), "any status")
        expect(grade(expected, path), ("failed  %s: exit code 3, and not 0\n0 of 1 passed\n" % path, "", 1), "another status")
        expect(grade("--status", "3", spaced, path), ("passed  %s\n1 of 1 passed\n" % path, "", 0), "numbers, and not lines")
        expect(grade("--any-status", less, path), ("failed  %s: printed 2 numbers, and not 1\n0 of 1 passed\n" % path, "", 1), "a number too many")
        expect(grade("--any-status", less, path[:-1]), ("failed  %s: cannot read\n0 of 1 passed\n" % path[:-1], "", 1), "a file that is absent")


def one_submission_stops_no_other():
    """A hundred, among them a flood, an endless loop, one that cannot be read, one that is no text and one that lacks its last line feed."""
    right = PRINTS.replace(b"259", b"0")
    odd = {7: (ENDLESS, "3: output limit at 0x00010008 (e)"), 23: (b"e: j e\n", "1: instruction limit at 0x00010000 (e)"), 42: (None, "cannot read"),
           64: (bytes(range(256)) * 50, "2:118: error: NotUtf8: a byte that is not UTF-8"), 81: (right.rstrip(b"\n"), None)}
    with tempfile.TemporaryDirectory() as folder:
        paths = [os.path.join(folder, "%02d.s" % number) for number in range(100)]
        for number, path in enumerate(paths):
            text = odd.get(number, (right,))[0]
            if text is None:
                os.mkdir(path)
                continue
            with open(path, "wb") as file:
                file.write(text)
        with file_of(PRINTED.rstrip(b"\n")) as expected:
            out, said, status = grade("--limit", "5000000", expected, *paths)
    faults = {number: fault for number, (_, fault) in odd.items() if fault}
    lines = ["failed  %s: %s" % (path, faults[number]) if number in faults else "passed  " + path for number, path in enumerate(paths)]
    expect((out, said, status), ("\n".join([*lines, "96 of 100 passed\n"]), "", 1), "a hundred submissions")


def grade(*words):
    ran = subprocess.run([GRADE, "--rvdap", PROGRAM, *words], stdin=subprocess.DEVNULL, capture_output=True, timeout=120)
    return ran.stdout.decode(), ran.stderr.decode(errors="replace"), ran.returncode


# Adds the words of a table up to a 0, and prints the sum; what each wrong one does instead, and how the loop of the guide tells it.
SUM = "_start: la t0, input\nli a0, 0\nl: lw t1, 0(t0)\nadd a0, a0, t1\naddi t0, t0, 4\nbnez t1, l\nli a7, 1\necall\nli a0, 0\nli a7, 93\necall\n"
SUBMISSIONS = {
    "breaks": (SUM.replace("li a7, 1\n", "ebreak\n"), "122 submissions/breaks.s:7: ebreak at 0x0001001c (l+16)"),
    "ends with 1": (SUM.replace("li a0, 0\nli a7, 93", "li a0, 1\nli a7, 93"), "1 "),
    "ends without an exit": (SUM.partition("ecall\n")[0] + "ecall\n.word 0\n", "123 submissions/ends without an exit.s: illegal instruction: no instruction stands here, but .word 0x00000000"),
    "forgets the first": (SUM.replace("la t0, input", "la t0, input\naddi t0, t0, 4"), "0 "),
    "goes on for ever": (SUM.replace("bnez t1, l", "j l"), "124 submissions/goes on for ever.s:4: instruction limit at 0x00010010 (l+4)"),
    "has an error": (SUM.replace("addi t0", "add t0"), "125 submissions/has an error.s:5:13: error: BadOperand: add takes three registers: with a number addi"),
    "is right in another way": (SUM.replace("bnez t1, l", "bne t1, zero, l"), ""),
    "is right": (SUM, ""),
    "lacks its line feed": (SUM.rstrip("\n"), ""),
    "prints for ever": (SUM.replace("bnez t1, l", "li a7, 1\necall\nj l"), "121 submissions/prints for ever.s:7: output limit at 0x0001001c (l+16)"),
    "prints nothing": (SUM.replace("li a7, 1\necall\n", ""), "0 "),
    "prints twice": (SUM.replace("li a7, 1\necall\n", "li a7, 1\necall\necall\n"), "0 "),
}
INPUTS = {"few": ("input: .word 3, 4, 0\n", "7\n"), "many": ("input: .word 1, 2, 3, 4, -20, 0\n", "-10\n")}


def the_loop_of_the_guide_grades():
    with open(os.path.join(TOP, "docs", "TEACHING.md"), encoding="utf-8") as file:
        loop = file.read().partition("```sh\n")[2].partition("```")[0]
    with tempfile.TemporaryDirectory() as folder:
        for place in ("submissions", "inputs"):
            os.mkdir(os.path.join(folder, place))
        for name, (text, _) in SUBMISSIONS.items():
            with open(os.path.join(folder, "submissions", name + ".s"), "w", encoding="utf-8") as file:
                file.write(text)
        for name, texts in INPUTS.items():
            for ending, text in zip((".s", ".expected"), texts):
                with open(os.path.join(folder, "inputs", name + ending), "w", encoding="utf-8") as file:
                    file.write(text)
        path = os.path.dirname(PROGRAM) + os.pathsep + os.environ["PATH"]
        ran = subprocess.run(["sh", "-c", loop], cwd=folder, env=dict(os.environ, PATH=path, LC_ALL="C"), capture_output=True, text=True, timeout=60)
    expect(ran.stderr, "", "what the loop says besides")
    lines = iter(ran.stdout.splitlines())
    for name, (_, said) in SUBMISSIONS.items():
        for given in INPUTS:
            pair = "submissions/%s.s with inputs/%s.s" % (name, given)
            expect(next(lines), "failed  %s: status %s" % (pair, said) if said else "passed  " + pair, "a line of the loop")
    expect(list(lines), [], "further lines")


def checks():
    """Each check with its name."""
    return [(check.__name__.replace("_", " "), check) for check in (
        a_program_prints_and_ends_with_its_code,
        a_trap_is_said_with_what_was_wrong_its_line_and_label,
        what_a_program_did_wrong_is_said,
        a_stack_that_grows_into_the_code_is_said,
        an_ebreak_is_said_at_its_own_line,
        instructions_are_limited,
        output_is_limited,
        registers_are_told_at_the_end,
        the_last_instructions_are_told,
        several_files_are_one_program,
        instructions_are_counted,
        an_error_is_said_with_its_line_as_compilers_do,
        what_cannot_be_read_says_so,
        memory_is_given_to_the_program,
        what_is_printed_comes_while_it_runs,
        a_program_that_prints_100_mb_is_written_whole,
        output_that_fails_ends_it,
        a_fifo_is_read,
        without_memory_it_ends_with_a_line,
        what_was_printed_before_memory_ran_out_is_there,
        the_document_for_teachers_shows_what_is_so,
        submissions_are_graded,
        a_status_may_be_any_and_the_last_line_may_lack_its_line_feed,
        one_submission_stops_no_other,
        the_loop_of_the_guide_grades,
    )]
