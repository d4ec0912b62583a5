"""The examples, and what docs/TEACHING.md and docs/MACHINE.md say in tables about programs: each is tried with the built program."""
import json
import math
import os
import re
import subprocess

from support.files import file_of
from support.program import PROGRAM, TOP, expect

NESTED = os.path.join(TOP, "examples", "nested.s")
OVERRUN = os.path.join(TOP, "examples", "overrun.s")
# The functions, from the outermost on: each calls the next one.
FUNCTIONS = ("_start", "outer", "middle", "inner")


def lines_of(function, sample=NESTED):
    """The lines of a function of a sample, by number."""
    with open(sample, encoding="utf-8") as file:
        lines = dict(enumerate(file.read().split("\n"), 1))
    begin = next(number for number, line in lines.items() if line.startswith(function + ":"))
    end = next((number for number, line in lines.items() if number > begin and not line.strip()), len(lines))
    return {number: lines[number] for number in range(begin, end)}


def line_of(function, text, sample=NESTED):
    """The line of a function that has this text."""
    number, = [number for number, line in lines_of(function, sample).items() if text in line]
    return number


def expected_frames(function, line):
    """The frames of a stop in a function at a line, the innermost first: a function and a line each."""
    depth = FUNCTIONS.index(function)
    callers = [(FUNCTIONS[k], line_of(FUNCTIONS[k], "call " + FUNCTIONS[k + 1])) for k in reversed(range(depth))]
    return [(function, line), *callers]


def played(session="nesting.session"):
    """The requests and the messages of a session, in order."""
    ran = subprocess.run([os.path.join(TOP, "examples", "play"), os.path.join(TOP, "examples", session), PROGRAM],
                         cwd=TOP, capture_output=True, text=True, timeout=60)
    expect((ran.stderr, ran.returncode), ("", 0), "examples/play examples/" + session)
    return [json.loads(line) for line in ran.stdout.splitlines()]


def frames_of(message):
    return [(frame["name"].partition("+")[0], frame["line"]) for frame in message["body"]["stackFrames"]]


def each_caller_is_shown_and_stepping_out_stops_in_it():
    stacks = [frames_of(message) for message in played() if message["type"] == "response" and message["command"] == "stackTrace"]
    wanted = [expected_frames("inner", line_of("inner", "slli")), expected_frames("middle", line_of("middle", "call inner") + 1),
              expected_frames("outer", line_of("outer", "call middle") + 1)]
    expect(stacks, wanted, "frames in inner, in middle, and after a step out of that")


def it_ends_with_what_its_functions_compute():
    reasons = [message["body"] for message in played() if message.get("event") in ("stopped", "exited")]
    expect([body.get("reason") for body in reasons], ["breakpoint", "breakpoint", "step", "step", None], "the stops")
    # 5 * 2 + 2 + 1, as the sample computes it.
    expect(reasons[-1], {"exitCode": 13}, "the end")


def who_overwrote_ra_is_found_by_going_back():
    messages = played("backwards.session")
    stops = [message["body"] for message in messages if message.get("event") == "stopped"]
    expect([(body["reason"], body.get("text")) for body in stops],
           [("exception", "instruction access fault"), ("step", None), ("breakpoint", None), ("step", "start of history")], "the stops")
    stacks = [frames_of(message) for message in messages if message["type"] == "response" and message["command"] == "stackTrace"]
    call, ret = line_of("_start", "call fours", OVERRUN), line_of("fours", "    ret", OVERRUN)
    # A frame has the name of the nearest label, which at the ret is that of the loop.
    expect(stacks, [[("0x00000010", 0)], [("next", ret), ("_start", call)], [("_start", call)]], "the frames")
    store, = [message["body"]["breakpoints"][0]["line"] for message in messages if message.get("command") == "setBreakpoints" and "body" in message]
    expect(store, line_of("fours", "sw   t3", OVERRUN), "the line of the store")
    # ra, which is the word 4 * 4; where it was loaded from; how many words there are; and the address after the two words of the call.
    results = [message["body"]["result"] for message in messages if message.get("command") == "evaluate" and "body" in message]
    expect(results, ["0x00000010", "0x0010fffc", "0x00000004", "0x00010008"], "what is evaluated")
    refused, = [message["message"] for message in messages if message.get("success") is False]
    expect(refused, "noHistory", "where nothing is recorded any more")


def the_program_that_overwrites_ra_is_the_one_of_the_guide():
    with open(OVERRUN, encoding="utf-8") as file, open(os.path.join(TOP, "docs", "MACHINE.md"), encoding="utf-8") as guide:
        text = file.read()
        block, = re.findall(r"^```\n(fours:.*?)^```$", guide.read(), re.DOTALL | re.MULTILINE)
    expect(text.endswith("\n\n" + block), True, "examples/overrun.s has the lines of the guide")
    mended = run_of(text.replace("ble ", "blt "))
    expect((mended.stdout, mended.stderr, mended.returncode), ("", "", 0), "a run of the program with blt")


def rows(page, header):
    """The rows of all tables of a page that have this header, each a list of its cells."""
    with open(os.path.join(TOP, "docs", page), encoding="utf-8") as file:
        tables = file.read().split("\n%s\n|---" % header)[1:]
    lines = [line for table in tables for line in table.partition("\n\n")[0].split("\n")[1:]]
    return [[cell.strip() for cell in line.strip("|").split(" | ")] for line in lines]


def code(cell):
    """The spans of code of a cell, without those of links."""
    return re.findall("`([^`]*)`", re.sub(r"\]\([^)]*\)", "]", cell))


def assembled(text):
    """What `rvdap asm` says of a text, without its name; nothing where it is listed."""
    with file_of(text) as path:
        ran = subprocess.run([PROGRAM, "asm", path], capture_output=True, text=True, timeout=60)
        return ran.stderr.replace("rvdap: %s: " % path, "").strip()


def run_of(text):
    """A run of a text by `rvdap run`."""
    with file_of(text) as path:
        return subprocess.run([PROGRAM, "run", path], capture_output=True, text=True, timeout=60)


def stop_of(text):
    """Why a run of a text stops; nothing where it ends by itself."""
    said = run_of(text).stderr
    return said.splitlines()[0].split(": ")[1].partition(" at 0x")[0] if said else ""


def printed_by(text):
    return run_of(text).stdout


def each_habit_of_other_simulators_is_met_as_the_table_says():
    table = rows("TEACHING.md", "| They write | Here | Write |")
    expect(len(table) > 30, True, "rows of the table")
    for written, here, instead in table:
        text, fix = "\n".join(code(written)), "\n".join(code(instead.partition(";")[0]))
        what_comes = stop_of if here.startswith("stops: ") else assembled
        expect(what_comes(text), code(here)[0], "what comes of %r" % text)
        if fix:
            expect((assembled(fix), what_comes(fix) != code(here)[0]), ("", True), "the text %r" % fix)


def collatz(number):
    steps = 0
    while number != 1:
        number, steps = 3 * number + 1 if number % 2 else number // 2, steps + 1
    return steps


def fibonacci(count):
    return 1 if count < 3 else fibonacci(count - 1) + fibonacci(count - 2)


def the_exercises_print_what_the_table_says():
    wanted = [sum((3, -1, 4, -1, 5)), max(3, 9, -20, 7), bin(0xF0F00001).count("1"), math.gcd(84, 36), 123 * 45, collatz(27),
              fibonacci(10), ", ".join(map(str, sorted((30, 10, 40, 20))))]
    printed = [prints for _, prints in rows("TEACHING.md", "| Write a program that | It prints |")]
    expect(printed, list(map(str, wanted)), "what the exercises print")


def the_guide_multiplies():
    fix, = ["\n".join(code(cells[3])) for cells in rows("MACHINE.md", "| Lines | Reported | Why | Fix |") if "mul" in cells[0]]
    for first, second in ((6, 7), (-3, 5), (9, 0), (65536, 3000)):
        product = (first * second + 2**31) % 2**32 - 2**31
        text = "li a1, %d\nli a2, %d\n%s\nli a7, 1\necall\nli a7, 93\nli a0, 0\necall\n" % (first, second, fix)
        expect(printed_by(text), "%d\n" % product, "the product of %d and %d" % (first, second))


def the_programs_of_the_guide_are_examples():
    with open(os.path.join(TOP, "docs", "MACHINE.md"), encoding="utf-8") as file:
        texts = re.findall(r"```asm\n(.*?)```\n", file.read(), re.DOTALL)
    for name, text, printed in (("squares.s", texts[0], "1\n4\n9\n"), ("count.s", texts[1], "2\n")):
        with open(os.path.join(TOP, "examples", name), encoding="utf-8") as file:
            expect(file.read(), text, "examples/%s" % name)
        ran = run_of(text)
        expect((ran.stdout, ran.stderr, ran.returncode), (printed, "", 0), "a run of examples/%s" % name)


def traps_are_shown_as_the_guide_says():
    texts = {"FetchOutside": "j 0", "Illegal": "nop", "JumpMisaligned": "j 65538", "LoadMisaligned": "lw a0, 1(sp)",
             "LoadOutside": "lb a0, 0(sp)", "StoreMisaligned": "sh a0, 1(zero)", "StoreOutside": "sw a0, 0(zero)", "UnknownCall": "ecall"}
    table = rows("MACHINE.md", "| Cause | An editor shows | When |")
    expect([code(cause) for cause, _, _ in table], [[cause] for cause in texts], "the causes")
    for cause, shown, _ in table:
        expect(stop_of(texts[code(cause)[0]] + "\n"), code(shown)[0], "the stop of %s" % cause)


def the_guide_reads_hexadecimal():
    table = rows("MACHINE.md", "| Shown | Unsigned | Signed |")
    expect(len(table), 5, "the rows of numbers")
    for shown, unsigned, signed in table:
        value = int(shown, 16)
        expect(int(unsigned.rpartition("= ")[2].replace(",", "")), value, "%s as an unsigned number" % shown)
        expect(int(signed.replace(",", "")), value - 2**32 * (value >> 31), "%s as a signed number" % shown)
        expect(printed_by("li a0, %s\nli a7, 1\necall\nebreak\n" % shown), signed.replace(",", "") + "\n", "%s is printed" % shown)


def checks():
    """Each check with its name."""
    return [(check.__name__.replace("_", " "), check) for check in (
        each_caller_is_shown_and_stepping_out_stops_in_it,
        it_ends_with_what_its_functions_compute,
        who_overwrote_ra_is_found_by_going_back,
        the_program_that_overwrites_ra_is_the_one_of_the_guide,
        each_habit_of_other_simulators_is_met_as_the_table_says,
        the_exercises_print_what_the_table_says,
        the_guide_multiplies,
        the_programs_of_the_guide_are_examples,
        traps_are_shown_as_the_guide_says,
        the_guide_reads_hexadecimal,
    )]
