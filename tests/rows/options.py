"""Command lines: what their words ask for, which are refused, and where the message goes.

By docs/PROTOCOL.md, section 7, and packaging/rvdap.1: a message on standard output where help or the version is asked for, and else on standard
error; without a command the memory is 1,024 KiB where none is given.
"""
from support.players import Row

PLAYER = "test_options"
MANUAL = "packaging/rvdap.1, worked by hand"
PROFILE = "docs/PROTOCOL.md, section 7, worked by hand"
README = "README.md and the documents for users, worked by hand"


def line(call, *words):
    return " ".join([call, *(word.encode().hex() for word in words)])


def text_of(value):
    return "none" if value is None else value.encode().hex()


def asks(*words, mode="serve", file=None, listen=None, program=None, once=False, verbose=False, memory=1024, limit=None, output_limit=None, trace=None, count=False,
         registers=False, json=False, others=(), recording=None, connection=None, size=None, first=None, last=None, facts=False, commands=None):
    """The words ask for these options."""
    def flag(value):
        return str(value).lower()

    def number(value):
        return "none" if value is None else str(value)

    options = " ".join([mode, text_of(file), text_of(listen), text_of(program), flag(once), flag(verbose), str(memory), number(limit), number(output_limit), number(trace),
                        flag(count), flag(registers), flag(json), text_of(recording), number(connection), number(size), number(first), number(last), flag(facts),
                        text_of(commands), str(len(others)), *map(text_of, others)])
    return [(line("options", *words), options), (line("tried", *words), options)]


def refused(*words):
    """The words are refused, with a message on standard error."""
    return [(line("options", *words), "Words"), (line("tried", *words), "stderr")]


def printed(*words):
    """The words ask for something that is printed on standard output, and no more."""
    return [(line("options", *words), "Words"), (line("tried", *words), "stdout")]


def names(text, *words):
    """The message on the words has this text."""
    return line("names", text, *words), "true"


def is_silent_on(text, *words):
    return line("names", text, *words), "false"


ADDRESS = "127.0.0.1:4711"
LISTEN = ("--listen", ADDRESS)
VERSION = "rvdap 0.1.0\n".encode().hex()


def memory(text, kib):
    """What stands after --memory, in both of its forms."""
    return asks("--memory", text, memory=kib) + asks("--memory=" + text, memory=kib)


def no_memory(text):
    return refused("--memory", text) + refused("--memory=" + text)


def limit(text, number):
    """What stands after --limit, in both of its forms."""
    return asks("run", "--limit", text, "a.s", mode="run", file="a.s", limit=number) + asks("run", "--limit=" + text, "a.s", mode="run", file="a.s", limit=number)


def no_limit(text):
    return refused("run", "--limit", text, "a.s") + refused("run", "--limit=" + text, "a.s")


RUN = dict(mode="run", file="a.s")
DEBUG = dict(mode="debug", file="a.s")
CHECK = dict(mode="check", file="a.s")
LABELS = dict(mode="labels", file="a.s")
COMMANDS = ("asm", "watch", "run", "debug", "check", "labels", "convert", "replay")
WATCH = dict(mode="watch", file="s")
REPLAY = dict(mode="replay", file="s")

ROWS = [
    Row("without words an editor is served over standard streams", asks(), MANUAL, refused=True),
    Row("the ways to call it", asks("--memory", "64", memory=64) + asks(*LISTEN, listen=ADDRESS) + asks(*LISTEN, "--program", "sort.s", listen=ADDRESS, program="sort.s")
        + asks(*LISTEN, "--once", listen=ADDRESS, once=True) + asks(*LISTEN, "--memory", "64", listen=ADDRESS, memory=64)
        + asks("--verbose", verbose=True) + asks(*LISTEN, "--verbose", listen=ADDRESS, verbose=True)
        + asks("asm", "sort.s", mode="asm", file="sort.s") + asks("watch", "s", mode="watch", file="s"), MANUAL),
    Row("a session is recorded in a folder", asks("--record", "there", recording="there") + asks("--record=a b", "--verbose", "--memory", "8", recording="a b", verbose=True, memory=8)
        + asks(*LISTEN, "--once", "--record", "there", listen=ADDRESS, once=True, recording="there") + refused("--record") + refused("--record", "a", "--record", "b")
        + refused("--record", "there", "asm", "a.s") + refused("run", "--record", "there", "a.s") + [names("beside a command", "--record", "there", "replay", "s")], MANUAL, refused=True),
    Row("a connection of a script is watched, whole or in part", asks("watch", "s", "2", connection=2, **WATCH) + asks("watch", "s", "2", "1137", connection=2, size=1137, **WATCH)
        + asks("watch", "--", "s", "1", "0", connection=1, size=0, **WATCH) + refused("watch", "s", "1", "2", "3") + [step for text in ("x", "+1", "", "4294967296", "all")
            for step in refused("watch", "s", text) + refused("watch", "s", "1", text)] + [names("<C>", "watch", "s", "x"), names("<N>", "watch", "s", "1", "x")], MANUAL),
    Row("a script is replayed, whole or in part", asks("replay", "s", **REPLAY) + asks("replay", "--from", "7", "--to=9", "s", first=7, last=9, **REPLAY)
        + asks("replay", "s", "--facts", facts=True, **REPLAY) + asks("replay", "--", "--facts", mode="replay", file="--facts") + refused("replay") + refused("replay", "s", "t")
        + refused("replay", "--from", "s") + refused("replay", "--from", "x", "s") + refused("replay", "--to=-1", "s") + refused("replay", "--facts=true", "s")
        + refused("replay", "--to", "1", "--to", "1", "s") + refused("watch", "--from", "7", "s") + refused("watch", "s", "--facts") + printed("replay", "--help")
        + [names("--from <N>", "replay", "--from", "x", "s"), names("--to <N>", "replay", "--to", "x", "s"), names("SCRIPT", "replay", "--help")], MANUAL),
    Row("all options of a listener at once, in any order", asks(*LISTEN, "--program", "a.s", "--once", "--memory", "8", listen=ADDRESS, program="a.s", once=True, memory=8)
        + asks("--memory", "8", "--once", "--program", "a.s", *LISTEN, listen=ADDRESS, program="a.s", once=True, memory=8)
        + asks("--once", "--program=a.s", "--listen=" + ADDRESS, "--memory=8", listen=ADDRESS, program="a.s", once=True, memory=8), MANUAL, refused=True),
    Row("the examples of the documents", asks("asm", "sort.s", mode="asm", file="sort.s") + asks("asm", "examples/increment.s", mode="asm", file="examples/increment.s")
        + asks("watch", "examples/sorting.watch", mode="watch", file="examples/sorting.watch")
        + asks(*LISTEN, "--program", "/home/me/sort.s", listen=ADDRESS, program="/home/me/sort.s") + printed("asm", "--help") + printed("--version"), README),
    Row("the memory is a multiple of 4 from 4 to 16,384", memory("4", 4) + memory("8", 8) + memory("1024", 1024) + memory("16380", 16380) + memory("16384", 16384)
        + [step for text in ("0", "1", "2", "3", "5", "6", "7", "1023", "16383", "16385", "16388", "65536") for step in no_memory(text)], PROFILE),
    Row("no memory is more than all numbers that fit", [step for text in ("4294967296", "4294967300", "4294968320", "18446744073709551616", "4" * 40)
        for step in no_memory(text)], PROFILE),
    Row("leading zeros of the memory are fine", memory("0004", 4) + memory("0" * 40 + "16384", 16384), PROFILE),
    Row("the memory is decimal digits and nothing else", [step for text in ("+8", " 8", "8 ", "0x8", "0x10", "8k", "8K", "8KiB", "4.0", "1e3", "1_024", "1,024", "much", "８", "４")
        for step in no_memory(text)] + refused("--memory=-8") + refused("--memory="), PROFILE),
    Row("the message on a memory has the value", [names("'5'", "--memory", "5"), names("much", "--memory=much"), names("--memory", "--memory", "5")], PROFILE),
    Row("an option has a value", refused("--memory") + refused("--listen") + refused(*LISTEN, "--program") + refused("--memory", "--once") + refused("--listen", "--once"), PROFILE),
    Row("no option stands twice", refused("--memory", "8", "--memory", "8") + refused(*LISTEN, *LISTEN) + refused(*LISTEN, "--once", "--once")
        + refused(*LISTEN, "--program", "a.s", "--program", "b.s"), PROFILE),
    Row("what is told of connections stands beside no command", refused("--verbose", "asm", "a.s") + refused("asm", "--verbose", "a.s"), PROFILE),
    Row("a flag has no value", refused("--verbose=true") + refused(*LISTEN, "--once=true") + refused(*LISTEN, "--once=false"), PROFILE),
    Row("a program stands only beside an address", refused("--program", "a.s") + refused("--program=a.s", "--memory", "8") + [names("--program", "--program", "a.s"),
        names("--listen", "--program", "a.s")], PROFILE),
    Row("an end after the first connection stands only beside an address", refused("--once") + refused("--once", "--memory", "8") + refused("--once", "--program", "a.s")
        + [names("--once", "--once"), names("--listen", "--once")], PROFILE),
    Row("of a program and an end without an address the program is told", [step for words in (("--once", "--program", "a.s"), ("--program", "a.s", "--once"))
        for step in (names("'--program <FILE>'", *words), is_silent_on("'--once'", *words))], PROFILE),
    Row("the memory is looked at before what stands beside what", [names("'5'", "--once", "--memory", "5"), is_silent_on("--once'", "--once", "--memory", "5")]
        + refused("--once", "--memory", "5"), PROFILE),
    Row("no option stands beside a command", refused("--memory", "8", "asm", "a.s") + refused(*LISTEN, "asm", "a.s") + refused("--once", "asm", "a.s")
        + refused("--program", "a.s", "asm", "a.s") + refused("--memory", "8", "watch", "s") + refused("asm", "--memory", "8", "a.s") + refused("asm", "a.s", "--once")
        + refused("watch", *LISTEN, "s") + refused("watch", "s", "--program", "a.s"), PROFILE),
    Row("a command has one file", refused("asm") + refused("watch") + refused("asm", "a.s", "b.s") + refused("watch", "s", "t") + refused("asm", "a.s", "watch", "s"), PROFILE),
    Row("the file of a command may look like an option after --", asks("asm", "--", "--help", mode="asm", file="--help") + asks("asm", "--", "-", mode="asm", file="-")
        + asks("watch", "--", "--once", mode="watch", file="--once") + asks("asm", "--", "--", mode="asm", file="--"), PROFILE),
    Row("a lone -- is no argument of its own", asks("--") + asks("--memory", "8", "--", memory=8) + refused("asm", "--"), PROFILE),
    Row("a file named - is no stream", asks("asm", "-", mode="asm", file="-") + asks("watch", "-", mode="watch", file="-"), PROFILE),
    Row("a file or an address may have any text", asks("asm", "a b.s", mode="asm", file="a b.s") + asks("watch", "naïve.watch", mode="watch", file="naïve.watch")
        + asks("--listen", "[::1]:4711", listen="[::1]:4711") + asks("--listen", "localhost:4711", listen="localhost:4711")
        + asks("--listen=nowhere", "--program=ä b.s", listen="nowhere", program="ä b.s") + asks(*LISTEN, "--program==", listen=ADDRESS, program="="), PROFILE),
    Row("help is printed", printed("--help") + printed("-h") + printed("asm", "--help") + printed("asm", "-h") + printed("watch", "--help") + printed("watch", "-h")
        + [names("--memory", "--help"), names("--listen", "-h"), names("asm", "--help"), names("watch", "--help")], PROFILE, refused=7),
    Row("the version is printed", printed("--version") + printed("-V") + [(line("message", "--version"), VERSION), (line("message", "-V"), VERSION)], PROFILE, refused=7),
    Row("a command has no version", refused("asm", "--version") + refused("asm", "-V") + refused("watch", "-V"), PROFILE),
    Row("the first of help, the version and a fault decides", printed("--help", "--memories") + printed("--version", "bogus") + refused("--memories", "--help") + refused("bogus", "--version")
        + printed("--memory", "5", "--help") + printed("--once", "--version") + [(line("message", "-V", "--help"), VERSION)], PROFILE),
    Row("other words are refused", [step for word in ("", " ", "as", "ASM", "asmm", "a.s", "-", "help", "version", "serve", "listen", "--memories", "--mem", "--Memory", "-memory", "-m", "-l",
        "-o", "-p", "-x", "--asm", "--watch", "--file", "/help", "4711") for step in refused(word)]
        + refused("help", "asm") + refused("serve", ADDRESS) + refused(*LISTEN, "a.s") + refused("a.s", *LISTEN), PROFILE),
    Row("the message on an unknown word has it", [names("bogus", "bogus"), names("--memories", "--memories"), names("-x", "-x")], PROFILE),
    Row("the ways to run a program", asks("run", "a.s", **RUN) + asks("run", "--memory", "8", "a.s", memory=8, **RUN) + asks("run", "--limit", "7", "a.s", limit=7, **RUN)
        + asks("run", "--count", "a.s", count=True, **RUN) + asks("run", "--memory", "8", "--limit", "7", "--count", "a.s", memory=8, limit=7, count=True, **RUN)
        + asks("run", "a.s", "--count", "--limit=7", "--memory=8", memory=8, limit=7, count=True, **RUN)
        + asks("run", "--limit", "0", "a.s", "--count", limit=0, count=True, **RUN)
        + asks("run", "--output-limit", "9", "a.s", output_limit=9, **RUN) + asks("run", "--registers", "a.s", registers=True, **RUN)
        + asks("run", "--trace=3", "a.s", trace=3, **RUN) + asks("run", "a.s", "b.s", others=["b.s"], **RUN)
        + asks("run", "--limit=1", "a.s", "--output-limit=2", "b.s", "--trace", "3", "--registers", "--count", "c.s", limit=1, output_limit=2, trace=3, registers=True,
               count=True, others=["b.s", "c.s"], **RUN), MANUAL, refused=True),
    Row("the ways to debug a program", asks("debug", "a.s", **DEBUG) + asks("debug", "--memory", "8", "a.s", memory=8, **DEBUG) + asks("debug", "-x", "s", "a.s", commands="s", **DEBUG)
        + asks("debug", "a.s", "--commands", "s", "--memory=8", memory=8, commands="s", **DEBUG), MANUAL, refused=True),
    Row("a script of commands is named in each form of an option", [step for form in (("-x", "s"), ("-xs",), ("-x=s",), ("--commands", "s"), ("--commands=s",))
        for step in asks("debug", *form, "a.s", commands="s", **DEBUG) + asks("debug", "a.s", *form, commands="s", **DEBUG)]
        + asks("debug", "-x", "-", "a.s", commands="-", **DEBUG) + asks("debug", "-x-s", "a.s", commands="-s", **DEBUG) + asks("debug", "-x=", "a.s", commands="", **DEBUG)
        + asks("debug", "--commands=a b", "--", "-x", mode="debug", file="-x", commands="a b") + asks("debug", "-x", "debug", "debug", mode="debug", file="debug", commands="debug")
        + refused("debug", "a.s", "-x") + refused("debug", "a.s", "--commands") + refused("debug", "-x", "--", "a.s") + refused("debug", "-x", "--memory", "8", "a.s")
        + refused("debug", "-x", "s", "-x", "s", "a.s") + refused("debug", "-x", "s", "--commands", "s", "a.s") + refused("debug", "-X", "s", "a.s"), PROFILE),
    Row("the program that is debugged is one file", refused("debug") + refused("debug", "-x", "s") + refused("debug", "--memory", "8") + refused("debug", "--") + refused("debug", "a.s", "b.s")
        + [names("FILE", "debug"), names("b.s", "debug", "a.s", "b.s")], PROFILE),
    Row("its memory is that of a program", [step for text, kib in (("4", 4), ("16384", 16384), ("0008", 8)) for step in asks("debug", "--memory", text, "a.s", memory=kib, **DEBUG)]
        + [step for text in ("0", "5", "16388", "+8", "x", "") for step in refused("debug", "--memory", text, "a.s")] + [names("'5'", "debug", "--memory", "5", "a.s")], PROFILE),
    Row("help of debug is printed", printed("debug", "--help") + printed("debug", "-h") + printed("debug", "-x", "s", "--help") + refused("debug", "--version")
        + [names(word, "debug", "--help") for word in ("--memory <KIB>", "-x, --commands <SCRIPT>", "FILE", "(rvdap) break 36")], PROFILE),
    Row("the ways to check files", asks("check", "a.s", **CHECK) + asks("check", "--json", "a.s", json=True, **CHECK) + asks("check", "a.s", "--json", json=True, **CHECK)
        + asks("check", "a.s", "b.s", others=["b.s"], **CHECK) + asks("check", "a.s", "b.s", "c.s", "--json", others=["b.s", "c.s"], json=True, **CHECK)
        + asks("check", "--json", "a.s", "b.s", "a.s", others=["b.s", "a.s"], json=True, **CHECK), MANUAL, refused=True),
    Row("the ways to ask for labels", asks("labels", "a.s", **LABELS) + asks("labels", "--json", "a.s", json=True, **LABELS)
        + asks("labels", "a.s", "--json", json=True, **LABELS), MANUAL, refused=True),
    Row("a file is converted", asks("convert", "a.s", mode="convert", file="a.s") + asks("convert", "--", "--json", mode="convert", file="--json") + refused("convert")
        + refused("convert", "a.s", "b.s") + refused("convert", "--json", "a.s") + refused("conver", "a.s") + printed("convert", "--help")
        + [names("FILE", "convert"), names("FILE", "convert", "--help")], MANUAL),
    Row("as many files are checked as are named", asks("check", "a.s", *["%d.s" % number for number in range(40)], others=["%d.s" % number for number in range(40)], **CHECK)
        + asks("check", "a.s", *["a.s"] * 3, others=["a.s"] * 3, **CHECK), PROFILE),
    Row("the limit is decimal digits from 0 to 4,294,967,295", limit("0", 0) + limit("1", 1) + limit("1000000", 1000000) + limit("4294967295", 4294967295) + limit("0007", 7)
        + limit("0" * 40 + "4294967295", 4294967295) + [step for text in ("4294967296", "4294967297", "4611686018427387904", "18446744073709551616", "9" * 40, "+1", " 1", "1 ", "0x1",
            "1.0", "1e3", "1_000", "1,000", "1k", "x", "much", "１") for step in no_limit(text)] + refused("run", "--limit=-1", "a.s") + refused("run", "--limit=", "a.s"), PROFILE),
    Row("what may be printed and traced are such numbers too", [step for name, option in (("output_limit", "--output-limit"), ("trace", "--trace"))
        for text, number in (("0", 0), ("1000000", 1000000), ("4294967295", 4294967295), ("0007", 7))
        for step in asks("run", option, text, "a.s", **RUN, **{name: number}) + asks("run", option + "=" + text, "a.s", **RUN, **{name: number})]
        + [step for option in ("--output-limit", "--trace") for text in ("4294967296", "+1", "0x1", "1k", "x", "-1", "")
            for step in refused("run", option, text, "a.s") + refused("run", option + "=" + text, "a.s")]
        + [names("--output-limit <BYTES>", "run", "--output-limit", "x", "a.s"), names("--trace <N>", "run", "--trace", "x", "a.s")], PROFILE),
    Row("a limit of -1 or of no digits is none in either form", refused("run", "--limit", "-1", "a.s") + refused("run", "--limit", "", "a.s"), PROFILE),
    Row("the memory of a run is that of a program", [step for text, kib in (("4", 4), ("1024", 1024), ("16384", 16384), ("0008", 8))
        for step in asks("run", "--memory", text, "a.s", memory=kib, **RUN) + asks("run", "--memory=" + text, "a.s", memory=kib, **RUN)]
        + [step for text in ("0", "3", "5", "16388", "4294967296", "+8", "x", "") for step in refused("run", "--memory", text, "a.s")], PROFILE),
    Row("the messages on a run have its values", [names("'x'", "run", "--limit", "x", "a.s"), names("--limit", "run", "--limit", "x", "a.s"),
        names("4294967295", "run", "--limit", "4294967296", "a.s"), names("'5'", "run", "--memory", "5", "a.s"), names("--memory", "run", "--memory", "5", "a.s"),
        names("''", "run", "--limit=", "a.s")], PROFILE),
    Row("the memory of a run is looked at before its limit", [names("'5'", "run", "--limit", "x", "--memory", "5", "a.s"),
        is_silent_on("'x'", "run", "--limit", "x", "--memory", "5", "a.s")] + refused("run", "--limit", "x", "--memory", "5", "a.s"), PROFILE),
    Row("a run has one file or more", refused("run") + refused("run", "--count") + refused("run", "--limit", "7") + refused("run", "--memory", "8") + refused("run", "--registers")
        + refused("run", "--output-limit", "7") + refused("run", "--") + [names("FILE", "run")] + asks("run", "a.s", "--", "b.s", others=["b.s"], **RUN)
        + asks("run", "a.s", *["%d.s" % number for number in range(40)], others=["%d.s" % number for number in range(40)], **RUN), PROFILE),
    Row("a check has one file or more, and labels are those of one", refused("check") + refused("check", "--json") + refused("check", "--") + refused("labels")
        + refused("labels", "--json") + refused("labels", "a.s", "b.s") + refused("labels", "--") + [names("FILE", "check"), names("FILE", "labels"), names("b.s", "labels", "a.s", "b.s")],
        PROFILE),
    Row("an option of a run has a value, and none stands twice", refused("run", "--limit") + refused("run", "a.s", "--limit") + refused("run", "a.s", "--memory")
        + refused("run", "--limit", "--count", "a.s") + refused("run", "--limit", "7", "--limit", "7", "a.s") + refused("run", "--memory", "8", "--memory", "8", "a.s")
        + refused("run", "--count", "--count", "a.s") + refused("run", "--count=true", "a.s") + refused("run", "--registers", "--registers", "a.s")
        + refused("run", "--output-limit", "7", "--output-limit", "7", "a.s") + refused("run", "--output-limit") + refused("run", "--trace"), PROFILE),
    Row("JSON is asked for once, without a value", refused("check", "--json", "--json", "a.s") + refused("labels", "--json", "--json", "a.s") + refused("check", "--json=true", "a.s")
        + refused("labels", "--json=false", "a.s"), PROFILE),
    Row("no option stands before a command", [step for command in COMMANDS for before in (("--memory", "8"), LISTEN, ("--once",), ("--program", "a.s"))
        for step in refused(*before, command, "a.s")] + refused("--limit", "7", "run", "a.s") + refused("--count", "run", "a.s") + refused("--json", "check", "a.s")
        + refused("--json", "labels", "a.s") + [names("beside a command", "--memory", "8", command, "a.s") for command in COMMANDS], PROFILE),
    Row("a command has no option of another", [step for words in (("run", "--json"), ("run", "--once"), ("run", *LISTEN), ("run", "--program", "b.s"), ("check", "--memory", "8"),
        ("check", "--limit", "7"), ("check", "--count"), ("check", "--registers"), ("check", "--output-limit", "7"), ("labels", "--trace", "7"), ("check", "--once"), ("labels", "--memory", "8"),
        ("labels", "--limit", "7"), ("labels", "--count"), ("asm", "--json"), ("debug", "--limit", "7"), ("debug", "--count"), ("debug", "--trace", "7"), ("debug", "--json"),
        ("debug", "--once"), ("debug", "--verbose"), ("debug", "--record", "there"), ("run", "-x", "s"), ("run", "--commands", "s"), ("check", "-x", "s"),
        ("asm", "--count"), ("watch", "--json"), ("watch", "--limit", "7")) for step in refused(*words, "a.s") + refused(words[0], "a.s", *words[1:])], PROFILE),
    Row("the options of commands are none without one", refused("--limit", "7") + refused("--count") + refused("--json") + refused("--registers")
        + refused("--output-limit", "7") + refused("--trace", "7") + refused("-x", "s") + refused("--commands", "s") + refused("-x", "s", "debug", "a.s"), PROFILE),
    Row("files may look like options after --", asks("run", "--", "--count", mode="run", file="--count") + asks("run", "--count", "--", "-", mode="run", file="-", count=True)
        + asks("labels", "--", "--json", mode="labels", file="--json") + asks("check", "--", "--json", mode="check", file="--json")
        + asks("check", "--json", "--", "-x", "--", "--help", mode="check", file="-x", others=["--", "--help"], json=True)
        + asks("check", "a.s", "--", "--json", others=["--json"], **CHECK), PROFILE),
    Row("files of the commands may have any text", asks("run", "a b.s", mode="run", file="a b.s") + asks("run", "-", mode="run", file="-") + asks("run", "", mode="run", file="")
        + asks("run", "run", mode="run", file="run") + asks("check", "naïve.s", "a b.s", "", "-", mode="check", file="naïve.s", others=["a b.s", "", "-"])
        + asks("check", "check", "labels", mode="check", file="check", others=["labels"]) + asks("labels", "ä b.s", mode="labels", file="ä b.s"), PROFILE),
    Row("help of the commands is printed", [step for command in ("run", "check", "labels") for step in printed(command, "--help") + printed(command, "-h")
        + [names(command, "--help"), names("FILE", command, "--help")]]
        + [names(word, "run", "--help") for word in ("--memory", "--limit", "--count", "--output-limit", "--registers", "--trace", "121", "122", "123", "124", "125")]
        + [names("--json", "check", "--help"), names("--json", "labels", "-h")] + printed("run", "--limit", "x", "--help") + refused("run", "--version") + refused("check", "-V")
        + refused("labels", "--version"), PROFILE, refused=37),
    Row("a command's name is whole and in small letters", [step for word in ("ru", "runn", "RUN", "chec", "checks", "Check", "label", "labelss", "--run", "--check", "--labels", "-r",
        "debu", "debugs", "Debug", "--debug") for step in refused(word, "a.s")] + refused("asm", "run", "a.s") + refused("help", "run"), PROFILE),
    Row("texts of errors", [("text Words", "usage"), ("text NoMemory", "no memory")], "the doc comments of the errors"),
]
