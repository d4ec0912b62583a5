"""The examples of docs/MACHINE.md, stepped: its programs print and end as it says, and its instructions have the results that it says."""
from rows.guide import GUIDE, SQUARES, TABLE, WORDS, code, from_the_guide, number, outputs, programs, section, tables
from rows.steps import BASE, hart, memory, registers, sets, steps, x

PLAYER = "test_machine"

SP = 0x10800
# The bytes at sp and after it in the guide's examples of loads.
LOADED = 0x83828180

# How many instructions each program retires before each output, and before it ends, counted by hand.
RETIRED = (
    (SQUARES, (15, 19, 23), 4),
    (TABLE, (35,), 2),
)


def runs(which):
    (start, words), before, last = RETIRED[which]
    printed, ends = outputs(programs()[which][0])
    yield from (*memory(*words), hart(start, SP))
    for count, value in zip(before, printed, strict=True):
        yield from (*[steps("Retired")] * count, steps("Printed(%d)" % value))
    yield from (*[steps("Retired")] * last, steps("Exit(%d)" % ends))


def value(cell):
    """The number that a cell begins with."""
    return number(cell.replace(":", " ").replace(", ", " ").split()[0])


def results():
    for instruction, first, second, result in tables(section("Steps"), ["Instruction", "a1", "a2", "a0 afterwards"]):
        text, = code(instruction)
        yield from (*memory(WORDS.get(text, 0)), hart(BASE, 0), sets(11, value(first)), sets(12, value(second)))
        yield from (steps("Retired"), x(10, value(result)))


def loads():
    for instruction, result in tables(section("Steps"), ["Instruction", "a0 afterwards"]):
        text, = code(instruction)
        yield from (*memory(WORDS.get(text, 0)), ("memory write_word %d %d" % (SP, LOADED), "ok"), hart(BASE, SP))
        trap, = code(result) or [None]
        yield from (steps("Trap(%s)" % trap), registers(x2=SP)) if trap else (steps("Retired"), x(10, value(result)))


ROWS = [
    from_the_guide("the guide's program prints squares", lambda: runs(0), GUIDE % "Two programs"),
    from_the_guide("the guide's program counts in a table", lambda: runs(1), GUIDE % "Two programs"),
    from_the_guide("the guide's instructions have their results", results, GUIDE % "Steps"),
    from_the_guide("the guide's loads have their results", loads, GUIDE % "Steps"),
]
