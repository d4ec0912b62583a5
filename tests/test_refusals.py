"""Each growth refused in turn, tried whole: what found no memory changed nothing, and given again it does what it does with memory."""
from functools import partial

from rows.session_back import there_and_back
from rows.session_logs import beside_a_function
from rows.session_looks import at_an_instruction, code_that_is_written_over, in_a_recursion
from rows.session_references import joined_while_it_runs
from rows.session_runs import two_pieces
from rows.transport import EVERY, JOINS, LEAVES, TURNS, file
from support.players import is_a, tables
from support.program import expect
from support.programs import CALLS, COUNTS, RECURS
from support.refusals import applied, are_served_again, is_driven_again, is_given_again


def launched_by_applying():
    script = two_pieces()
    script.steps = applied(script.steps)
    return script


# Sessions, with the events of each that find no memory somewhere.
SESSIONS = (
    ("a program is launched, stops at its entry and runs to its end", two_pieces, {"recv", "turn", "slice"}),
    ("frames and the stack, over a call in a recursion and out of it", in_a_recursion, {"recv", "turn", "slice"}),
    ("code that is written over", code_that_is_written_over, {"recv", "turn", "slice"}),
    ("an editor that joins a program that runs", joined_while_it_runs, {"recv", "turn", "slice"}),
    ("values, and a register that is set, at an instruction", at_an_instruction, {"recv", "turn", "slice"}),
    ("a logpoint, and a function breakpoint after it", beside_a_function, {"recv", "turn", "slice"}),
    ("a step back, and runs back", there_and_back, {"recv", "turn", "slice"}),
    ("a program that is launched and runs to its end, its events applied", launched_by_applying, {"apply", "slice"}),
)


def a_session(name, script, wanted):
    expect(is_given_again(name, script().steps), wanted, "%s: the events that found no memory" % name)


# The same over a wire, with the file that is launched: all but the one in which a connection is dropped.
DRIVEN = (("a program is launched, stops at its entry and runs to its end", two_pieces, CALLS),
          ("frames and the stack, over a call in a recursion and out of it", in_a_recursion, RECURS),
          ("code that is written over", code_that_is_written_over, COUNTS),
          ("values, and a register that is set, at an instruction", at_an_instruction, CALLS),
          ("a logpoint, and a function breakpoint after it", beside_a_function, COUNTS),
          ("a step back, and runs back", there_and_back, COUNTS))


def a_drive(name, script, file):
    ways = is_driven_again(name, script(), file)
    expect({"went on", "a piece was lost"} <= ways, True, "%s: driving went on, and lost a piece, in %s" % (name, sorted(ways)))


def two_editors_one_after_the_other():
    """The first leaves a program that runs, and the second joins it."""
    commands = [file(COUNTS)[0], "wire new true %d 0" % EVERY, "wire piece " + LEAVES.hex(), "wire other", "wire new true %d 0" % EVERY,
                "wire piece " + JOINS.hex(), "wire other", "wire serve %d 0 0" % TURNS, "wire taken", "wire faults", "wire other", "wire taken", "wire faults",
                "turn", "connect"]
    ways = are_served_again("two editors", commands)
    expect({"the first connection ended", "the second connection ended"} <= ways, True, "memory was refused in both connections, in %s" % sorted(ways))


# Calls that take no memory, which are made in rows that are played with each allocation refused: their tables name the commands.
TAKE_NONE = {
    "Unframer::new", "Unframer::next_body", "Unframer::retract", "Server::new", "Command::name", "Memory::byte", "Memory::word", "Memory::word_bytes", "Memory::read",
    "LineTable::new", "LineTable::line_of", "LineTable::address_of", "LineTable::bind", "LineTable::starts", "LineTable::label_at", "LineTable::label_address",
    "decode", "encode", "reg_name", "reg_of", "Hart::new", "Expr::value",
    "Breaks::check", "Breaks::stand_at", "Breaks::ids", "Breaks::logs", "Breaks::log_text", "Breaks::clear",
    "Breaks::reset_hits", "destination", "undo_of", "undo_at", "Undo::of_pc", "Undo::stored", "Hart::undo",
    "Calls::depth", "Calls::kept", "Calls::entry", "Runner::begin", "Runner::recorded", "Runner::turns_back",
    "Handles::new", "Handles::find", "Handles::end_stop", "set_register", "Session::connect", "Session::hold", "Session::sent", "Session::drop_connection", "Session::waiting", "Session::runnable",
    "Session::pending", "Session::wants_file", "Session::finished", "Session::link_fault",
    "Mirror::new", "Mirror::run", "Mirror::source_break", "Mirror::instruction_break", "Mirror::function_break", "Mirror::frame", "Mirror::register",
    "Mirror::byte",
}


def calls_that_take_no_memory_are_made_without():
    made = set()
    for table, module in tables():
        refused = [command for row in module.ROWS if row.refused for command, _ in row.steps]
        for call, words in {**getattr(module, "TAKES_NONE", {}), **getattr(module, "ALSO_MADE", {})}.items():
            expect(any(is_a(command, words) for command in refused), True, "%s: %s is made in a row that is refused memory" % (table, call))
            made.add(call)
    expect(TAKE_NONE - made, set(), "calls that take no memory and are made in no row that is refused any")


def checks():
    """Each check with its name."""
    return [("without memory: " + name, partial(a_session, name, script, wanted)) for name, script, wanted in SESSIONS] \
        + [("over a wire, without memory: " + name, partial(a_drive, name, script, file)) for name, script, file in DRIVEN] \
        + [("over wires, without memory: two editors, one after the other", two_editors_one_after_the_other),
           ("calls that take no memory are made without", calls_that_take_no_memory_are_made_without)]
