"""Lines that somebody types at a prompt: what each asks for, or the first thing that is wrong with it, and the column of that.

A line is a word and what belongs to it, with blanks round and between them. The head of crates/prompt/specs/Lines.antt has what belongs to
which word. The words are those of gdb, and its short forms, where it has them (Debugging with GDB, 13.1: "Set Breaks", "Continuing and
Stepping", "Reverse Execution", "Memory", "Registers").
"""
from support.players import Row

PLAYER = "test_scripts"
RULES = "the rules at the head of this table, worked by hand"


def typed(line, wanted):
    """A line, and what it asks for; a text in what is wanted is written as COLUMN:TEXT."""
    line = line if isinstance(line, bytes) else line.encode()
    words = ["%s %s" % (column, text.encode().hex()) if parted else word for word in wanted for column, parted, text in [word.partition(":")]]
    return ("typed " + line.hex()).strip(), " ".join(words)


def asks(wanted, *lines):
    """Each of these lines asks for this."""
    return [typed(line, wanted) for line in lines]


def wrong(line, sentence, column):
    return ("typed " + line.encode().hex()).strip(), "%s, column %d" % (sentence, column)


ROWS = [
    Row("nothing repeats the last motion, and a comment does nothing", [
        *asks(["again"], "", "   ", "\t"), *asks(["comment"], "# break 3", "  #")], RULES),
    Row("words that stand alone", [
        *asks(["quit"], "quit", "q", "exit", " q\t"), *asks(["run"], "run", "r", "restart"), *asks(["breakpoints"], "breakpoints", "i"),
        *asks(["stack"], "stack"), *asks(["backtrace"], "backtrace", "bt"), *asks(["labels"], "labels"),
        *asks(["where"], "where", "frame", "f")], RULES),
    Row("a motion is made once, or as many times as is said", [
        *asks(["continue", "1"], "continue", "c", "c 1"), *asks(["step", "3"], "step 3", "s   3", "s 03"), *asks(["next", "1"], "next", "n"),
        *asks(["finish", "2"], "finish 2", "fin 2"), *asks(["stepi", "0"], "stepi 0", "si 0"),
        *asks(["nexti", "4294967295"], "nexti 4294967295", "ni 4294967295"), *asks(["back", "5"], "back 5", "reverse-stepi 5", "rsi 5"),
        *asks(["reverse-continue", "1"], "reverse-continue", "rc")], RULES),
    Row("a breakpoint at a line, a label or an address", [
        *asks(["break", "line", "12", "if", "none", "hit", "none"], "break 12", "b 12"),
        *asks(["break", "label", "3:loop", "if", "none", "hit", "none"], "b loop"),
        *asks(["once", "label", "8:loop", "if", "none", "hit", "none"], "tbreak loop"),
        *asks(["once", "address", "5:0x10004", "if", "none", "hit", "none"], "tb *0x10004"),
        *asks(["break", "address", "6:loop + 4", "if", "none", "hit", "none"], "b  * loop + 4")], RULES),
    Row("a condition, and at which hit", [
        typed("b loop if a0 == 3", ["break", "label", "3:loop", "if", "11:a0 == 3", "hit", "none"]),
        typed("b loop hit 2", ["break", "label", "3:loop", "if", "none", "hit", "2"]),
        typed("b *loop+4 if  a0 == 3  hit 2 ", ["break", "address", "4:loop+4", "if", "15:a0 == 3", "hit", "2"])], RULES),
    Row("`if` and `hit` are words where a blank stands on each side of them", [
        typed("b if", ["break", "label", "3:if", "if", "none", "hit", "none"]),
        typed("b hit hit 2", ["break", "label", "3:hit", "if", "none", "hit", "2"]),
        typed("b iffy if [hit] == 1", ["break", "label", "3:iffy", "if", "11:[hit] == 1", "hit", "none"])], RULES),
    Row("a log says all that follows its place", [
        typed("log 7 sum = {a0}  if hit", ["log", "line", "7", "7:sum = {a0}  if hit"]),
        typed("log *loop+4 here", ["log", "address", "6:loop+4", "13:here"])], RULES),
    Row("numbers of breakpoints and displays", [
        *asks(["delete", "2"], "delete 2", "d 2"), *asks(["delete", "none"], "d"), *asks(["undisplay", "1"], "undisplay 1"),
        *asks(["undisplay", "none"], "undisplay")], RULES),
    Row("an expression is all that follows", [
        typed("change [count]", ["change", "8:[count]"]), typed("back-to-change ra", ["back-to-change", "16:ra"]),
        typed("display a0 * 2 ", ["display", "9:a0 * 2"]), *asks(["print", "3:a0"], "p a0", "p a0  "), typed("print -a0", ["print", "7:-a0"])], RULES),
    Row("one `=` sets, and no other sign does", [
        *asks(["set", "3:a0", "8:5"], "p a0 = 5"), typed("set [sp+4]=a0 == 1", ["set", "5:[sp+4]", "12:a0 == 1"]),
        typed("p a0 == 5", ["print", "3:a0 == 5"]), typed("p a0 <= 5", ["print", "3:a0 <= 5"]), typed("p a0 != 5", ["print", "3:a0 != 5"]),
        typed("p a0 >= 5", ["print", "3:a0 >= 5"]), typed("p '='", ["print", "3:'='"]), typed("p a0 == '='", ["print", "3:a0 == '='"])], RULES),
    Row("registers by name, or all", [
        *asks(["registers", "none"], "registers", "regs"), typed("regs a0  a1", ["registers", "6:a0  a1"])], RULES),
    Row("a number after an expression counts where a value ends before it", [
        typed("x sp", ["words", "3:sp", "none"]), typed("x sp 4", ["words", "3:sp", "4"]), typed("x sp + 4", ["words", "3:sp + 4", "none"]),
        typed("x sp + 4 4", ["words", "3:sp + 4", "4"]), typed("x 4", ["words", "3:4", "none"]), typed("xb [table] 16", ["bytes", "4:[table]", "16"]),
        typed("x (sp) 2", ["words", "3:(sp)", "2"]), typed("x 'a' 2", ["words", "3:'a'", "2"]), typed("x my_ 2", ["words", "3:my_", "2"]),
        typed("x sp 0x4", ["words", "3:sp 0x4", "none"])], RULES),
    Row("instructions, and lines", [
        typed("disassemble", ["disassemble", "here", "none"]), typed("disas 5", ["disassemble", "line", "5", "none"]),
        typed("disas loop 10", ["disassemble", "label", "7:loop", "10"]), typed("disas *pc + 8 2", ["disassemble", "address", "8:pc + 8", "2"]),
        *asks(["list", "here"], "list", "l"), typed("l 20", ["list", "line", "20"]), typed("l main", ["list", "label", "3:main"])], RULES),
    Row("help, and that for a word", [*asks(["help", "none"], "help", "h"), typed("help break", ["help", "6:break"])], RULES),
    Row("an unknown word", [
        wrong("brake 3", "no such command", 1), wrong("  Step", "no such command", 3), wrong("x/4 sp", "no such command", 1),
        wrong("é", "no such command", 1), ("typed ff", "no such command, column 1")], RULES),
    Row("what is missing", [
        wrong("break", "a line, a label or *ADDRESS is missing", 6), wrong("b *  ", "an expression is missing", 4),
        wrong("b loop if", "an expression is missing", 10), wrong("b 3 if  hit 2", "an expression is missing", 7), wrong("b 3 hit", "a number is missing", 8),
        wrong("log 3", "a text is missing", 6), wrong("log", "a line, a label or *ADDRESS is missing", 4),
        wrong("print", "an expression is missing", 6), wrong("set a0", "= and a value is missing", 7), wrong("set a0 =", "= and a value is missing", 9),
        wrong("x", "an expression is missing", 2), wrong("change ", "an expression is missing", 7)], RULES),
    Row("what is no number", [
        wrong("s 1x", "no number", 3), wrong("s 1 2", "no number", 3), wrong("s -1", "no number", 3), wrong("s 4294967296", "no number", 3),
        wrong("b 12a", "no number", 3), wrong("b 3 hit x", "no number", 9), wrong("x sp 4294967296", "no number", 6),
        wrong("d a", "no number", 3)], RULES),
    Row("what nothing may follow", [
        wrong("quit now", "nothing may follow here", 6), wrong("b loop end", "nothing may follow here", 8), wrong("l main end", "nothing may follow here", 8),
        wrong("disas loop end", "nothing may follow here", 12)], RULES),
    Row("a text that is no UTF-8", [("typed " + (b"p a\xff").hex(), "no UTF-8, column 3"), ("typed " + (b"b \xff").hex(), "no UTF-8, column 3"),
                                    ("typed " + (b"log 3 \xc3\xa9").hex(), "log line 3 7 c3a9")], RULES),
]
