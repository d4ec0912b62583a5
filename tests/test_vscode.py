"""The extension of VS Code: its declarations by the rules of contribution points, and sessions in the order of VS Code's requests.

VS Code itself has no part in this: its rules and its order are written down here as they are known.
"""
import contextlib
import json
import os
import re
import shutil
import socket
import subprocess
import tempfile
import threading

from support.program import PROGRAM, SECONDS, TOP, expect

FOLDER = os.path.join(TOP, "editors", "vscode")
SORT = os.path.join(TOP, "examples", "sort.s")
UNDEFINED = os.path.join(TOP, "examples", "undefined-label.s")

CATEGORIES = {"Programming Languages", "Snippets", "Linters", "Themes", "Debuggers", "Formatters", "Keymaps", "SCM Providers", "Other",
              "Extension Packs", "Language Packs", "Data Science", "Machine Learning", "Visualization", "Notebooks", "Education", "Testing"}
POINTS = {"languages", "grammars", "breakpoints", "debuggers", "problemMatchers"}
# What a debugger may say, with the kind of each value.
DEBUGGER = {"type": str, "label": str, "program": str, "args": list, "runtime": str, "runtimeArgs": list, "variables": dict,
            "languages": list, "initialConfigurations": list, "configurationSnippets": list, "configurationAttributes": dict,
            "strings": dict}
MATCHER = {"name", "label", "owner", "source", "severity", "applyTo", "fileLocation", "pattern", "background", "base"}
KINDS = {"string": str, "boolean": bool, "number": (int, float), "object": dict, "array": list}
# What each configuration has, whatever its debugger.
COMMON = {"type", "request", "name"}

# What VS Code says of itself in `initialize`.
FLAGS = {"clientID": "vscode", "clientName": "Visual Studio Code", "adapterID": "rvdap", "pathFormat": "path", "linesStartAt1": True,
         "columnsStartAt1": True, "supportsVariableType": True, "supportsVariablePaging": True, "supportsRunInTerminalRequest": True,
         "locale": "en", "supportsProgressReporting": True, "supportsInvalidatedEvent": True, "supportsMemoryReferences": True,
         "supportsArgsCanBeInterpretedByShell": True, "supportsMemoryEvent": True, "supportsStartDebuggingRequest": True,
         "supportsANSIStyling": True}


def text_of(*path):
    with open(os.path.join(FOLDER, *path), encoding="utf-8") as file:
        return file.read()


def package():
    return json.loads(text_of("package.json"))


def contributed(point):
    return package()["contributes"][point]


def debugger():
    [only] = contributed("debuggers")
    return only


def the_manifest_has_what_it_needs():
    said = package()
    for name, form in {"name": r"[a-z0-9][a-z0-9-]*", "publisher": r"[A-Za-z0-9][A-Za-z0-9-]*", "version": r"\d+\.\d+\.\d+"}.items():
        expect(bool(re.fullmatch(form, said[name])), True, "the %s %r" % (name, said[name]))
    expect(bool(re.fullmatch(r"\^1\.\d+\.0", said["engines"]["vscode"])), True, "the versions of VS Code")
    expect(set(said["categories"]) - CATEGORIES, set(), "categories that are none")
    expect(said["extensionKind"], ["workspace"], "where the extension runs: beside the program")
    expect({"main", "browser", "activationEvents", "dependencies"} & set(said), set(), "words for code, which there is none of")
    expect(set(said["contributes"]), POINTS, "contribution points")
    version = subprocess.run([PROGRAM, "--version"], stdout=subprocess.PIPE, text=True, check=True).stdout
    expect("rvdap %s\n" % said["version"], version, "the version")


def languages_and_files_are_there():
    ids = [it["id"] for it in contributed("languages")]
    expect(len(set(ids)), len(ids), "names of languages, each once")
    for it in contributed("languages"):
        expect([ending for ending in it["extensions"] if not re.fullmatch(r"\.\w+", ending)], [], "endings of files")
        said = json.loads(text_of(it["configuration"]))
        expect(said["comments"], {"lineComment": "#"}, "comments")
        expect(re.findall(said["wordPattern"], "loop.1: lw t0, -4(sp)"), ["loop.1", "lw", "t0", "-4", "sp"], "words")
    named = [it["language"] for point in ("breakpoints", "grammars") for it in contributed(point)] + debugger()["languages"]
    expect(set(named), set(ids), "the languages that are named, and those that are contributed")
    for it in contributed("grammars"):
        expect(json.loads(text_of(it["path"]))["scopeName"], it["scopeName"], "the grammar's scope")


def the_debugger_says_what_one_may():
    said = debugger()
    for word, value in said.items():
        expect((word in DEBUGGER, isinstance(value, DEBUGGER.get(word, object))), (True, True), "the debugger's %s" % word)
    expect(set(said["strings"]), {"unverifiedBreakpoints"}, "its strings")
    for request, schema in said["configurationAttributes"].items():
        expect(request in ("launch", "attach"), True, "the request %s" % request)
        expect(set(schema["required"]) - set(schema["properties"]), set(), "what %s requires, and does not have" % request)
        for name, it in schema["properties"].items():
            expect((bool(it["description"]), isinstance(it["default"], KINDS[it["type"]])), (True, True), "%s of %s" % (name, request))


def inserted(value):
    """What a snippet inserts for a value: a text that begins with ^ is put there as it is, without its quotes; ${1:TEXT} is TEXT."""
    if not isinstance(value, str):
        return value
    text = re.sub(r"\$\{\d:([^}]*)\}", r"\1", value).replace("\\$", "$")
    return json.loads(text[1:]) if text.startswith("^") else text


def expect_fits(said, what):
    """Fails where a configuration does not fit the attributes of its request."""
    schema = debugger()["configurationAttributes"][said["request"]]
    expect((said["type"], bool(said["name"])), (debugger()["type"], True), "%s: type and name" % what)
    expect(set(schema["required"]) - set(said), set(), "%s: what is required and absent" % what)
    for name in set(said) - COMMON:
        expect(isinstance(said[name], KINDS[schema["properties"][name]["type"]]), True, "%s: the kind of %s" % (what, name))


def configurations_fit_their_attributes():
    for said in debugger()["initialConfigurations"]:
        expect_fits(said, "the initial configuration")
    requests = []
    for snippet in debugger()["configurationSnippets"]:
        said = {name: inserted(value) for name, value in snippet["body"].items()}
        expect_fits(said, snippet["label"])
        requests.append(said["request"])
        if said["request"] == "launch":
            expect(said["program"], "${file}", "the program that the snippet launches")
    expect(requests, ["launch", "attach"], "the snippets")


def blocks_of_the_readme():
    return [json.loads(block) for block in re.findall(r"^```json\n(.*?)^```$", text_of("README.md"), re.M | re.S)]


def the_problem_matcher_finds_the_line():
    [matcher] = contributed("problemMatchers")
    expect(set(matcher) - MATCHER, set(), "words that a matcher does not have")
    expect(matcher["pattern"].get("kind", "location") in ("location", "file"), True, "the pattern's kind")
    [tasks] = [it["tasks"] for it in blocks_of_the_readme() if "tasks" in it]
    [task] = tasks
    expect(task["problemMatcher"], "$" + matcher["name"], "the matcher of the task in README.md")
    with tempfile.TemporaryDirectory() as folder:
        path = os.path.join(folder, "é:1: error: 2.s")
        shutil.copy(UNDEFINED, path)
        words = [PROGRAM, *(word.replace("${file}", path) for word in task["args"])]
        ran = subprocess.run(words, capture_output=True, text=True, check=False)
        pattern = matcher["pattern"]
        found = [re.search(pattern["regexp"], line) for line in (ran.stdout + ran.stderr).splitlines()]
        expect((ran.returncode, [[it[pattern[word]] for word in ("file", "line", "column", "message")] for it in found if it]),
               (1, [[path, "4", "10", "Undefined: no line defines g"]]), "what is matched")
    ran = subprocess.run([PROGRAM, "check", "/nowhere.s"], capture_output=True, text=True, check=False)
    expect((ran.stderr, re.search(pattern["regexp"], ran.stderr)), ("rvdap: /nowhere.s: cannot read\n", None), "a file that cannot be read has no line")


def configurations_of_the_readme_fit():
    said = [it for block in blocks_of_the_readme() for it in block.get("configurations", [])]
    expect([it["request"] for it in said], ["launch", "attach"], "the configurations in README.md")
    for it in said:
        expect_fits({word: value for word, value in it.items() if word != "preLaunchTask"}, "README.md: " + it["name"])
    labels = [it["label"] for block in blocks_of_the_readme() for it in block.get("tasks", [])]
    expect([it["preLaunchTask"] for it in said if "preLaunchTask" in it], labels, "the task before a launch")


def patterns():
    """The grammar's patterns: the regular expression, and by its groups what it colours."""
    for it in json.loads(text_of("syntaxes", "rv32asm.tmLanguage.json"))["patterns"]:
        scopes = {int(group): said["name"] for group, said in it.get("captures", {}).items()} or {0: it["name"]}
        yield re.compile(it["match"]), scopes


def colours(line):
    """The parts of a line that are coloured, as an editor finds them: from the left, where two begin at one place by the first pattern."""
    found, place, all_patterns = [], 0, list(patterns())
    while True:
        hits = [(hit, scopes) for hit, scopes in ((form.search(line, place), scopes) for form, scopes in all_patterns) if hit]
        if not hits:
            return found
        hit, scopes = min(hits, key=lambda it: it[0].start())
        found += [(hit.start(group), hit[group], scope.removesuffix(".rv32asm")) for group, scope in scopes.items()]
        place = hit.end()


def each_line_of_the_examples_is_coloured():
    wanted = [("_start", "entity.name.function"), ("lw", "keyword.mnemonic"), ("a0", "variable.language.register"),
              ("%lo", "keyword.operator"), ("x.y$", "variable.other.name"), ("sp", "variable.language.register"),
              ("# -1", "comment.line.number-sign")]
    expect([it[1:] for it in colours("_start: lw a0, %lo(x.y$)(sp) # -1")], wanted, "colours")
    wanted = [("add", "entity.name.function"), ("a0", "entity.name.function"), (".word", "keyword.control.directive"),
              ("-0x1F", "constant.numeric"), ("add", "variable.other.name"), ("x31", "variable.language.register"),
              ("x32", "variable.other.name")]
    expect([it[1:] for it in colours("add:a0:\t.word -0x1F, add, x31, x32")], wanted, "colours of names that are words elsewhere")
    names = sorted(name for name in os.listdir(os.path.join(TOP, "examples")) if name.endswith(".s"))
    expect(len(names) >= 3, True, "examples")
    for name in names:
        with open(os.path.join(TOP, "examples", name), encoding="utf-8") as file:
            for line in file.read().splitlines():
                bare = line
                for start, text, _ in colours(line):
                    bare = bare[:start] + " " * len(text) + bare[start + len(text):]
                expect(re.sub(r"[\s,:()]", "", bare), "", "what has no colour in %s: %s" % (name, line))


def the_grammar_has_the_words_of_the_language():
    _, _, mnemonics, directives, *_ = [form.pattern for form, _ in patterns()]
    has = re.search(r"\(([a-z|]+)\)", mnemonics)[1].split("|")
    has += ["." + word for word in re.search(r"\\\.\(\?:([a-z|]+)\)", directives)[1].split("|")]
    with open(os.path.join(TOP, "crates", "statements", "src", "mnemonics.rt"), encoding="utf-8") as file:
        wanted = re.findall(r'^ +"([a-z.]+)" => Some\(Mnemonic', file.read(), re.M)
    expect(sorted(has), sorted(wanted), "mnemonics and directives")
    with tempfile.TemporaryDirectory() as folder:
        for word in has:
            path = os.path.join(folder, "word.s")
            with open(path, "w", encoding="ascii") as file:
                file.write(word + "\n")
            ran = subprocess.run([PROGRAM, "asm", path], capture_output=True, text=True, check=False)
            expect("UnknownInstruction" in ran.stderr, False, "whether %s is unknown: %s" % (word, ran.stderr))


def command():
    """The command of the adapter and its words, as VS Code finds them for Linux: a runtime without ./ is searched for on the path."""
    said = debugger()
    program, runtime = said.get("program"), said.get("runtime")
    words = [*said.get("runtimeArgs", []), *([os.path.join(FOLDER, program)] if program else []), *said.get("args", [])]
    if runtime is None:
        return words
    return [os.path.join(FOLDER, runtime) if runtime.startswith("./") else runtime, *words]


class Client:
    """An editor that writes to one stream and reads from another. events: those that came and were not waited for."""

    def __init__(self, to_it, from_it):
        self.to_it, self.from_it, self.number, self.events, self.answers = to_it, from_it, 0, [], {}

    def send(self, command, **arguments):
        """Sends a request, and answers its number."""
        self.number += 1
        body = json.dumps({"command": command, "arguments": arguments, "type": "request", "seq": self.number}).encode()
        self.to_it.write(b"Content-Length: %d\r\n\r\n%s" % (len(body), body))
        self.to_it.flush()
        return self.number

    def read(self):
        """Reads the next message."""
        header = self.from_it.readline() + self.from_it.readline()
        length = re.fullmatch(rb"Content-Length: (\d+)\r\n\r\n", header)
        expect(bool(length), True, "%r is a header" % header)
        message = json.loads(self.from_it.read(int(length[1])))
        if message["type"] == "event":
            self.events.append(message)
        else:
            self.answers[message["request_seq"]] = message

    def answer(self, number):
        while number not in self.answers:
            self.read()
        return self.answers.pop(number)

    def ask(self, command, **arguments):
        return self.answer(self.send(command, **arguments))

    def body(self, command, **arguments):
        """The body of an answer that is a success."""
        said = self.ask(command, **arguments)
        expect(said["success"], True, "%s succeeds: %s" % (command, said))
        return said.get("body")

    def event(self, name):
        """Waits for an event, and answers its body; other events before it are left."""
        while True:
            for it in self.events:
                if it["event"] == name:
                    self.events.remove(it)
                    return it.get("body")
            self.read()


@contextlib.contextmanager
def started(words, **how):
    """A process that is ended with the test, or when its time is up."""
    with subprocess.Popen(words, **how) as process:
        limit = threading.Timer(SECONDS, process.kill)
        limit.start()
        try:
            yield process
        finally:
            limit.cancel()
            process.kill()


@contextlib.contextmanager
def client():
    """An editor of the command that VS Code finds, where a folder of the path has the built program, which ends with status 0."""
    with tempfile.TemporaryDirectory() as folder:
        os.symlink(PROGRAM, os.path.join(folder, "rvdap"))
        path = folder + ":" + os.environ["PATH"]
        expect(shutil.which(command()[0], path=path), os.path.join(folder, "rvdap"), "the command that is found")
        with started(command(), env={**os.environ, "PATH": path}, stdin=subprocess.PIPE, stdout=subprocess.PIPE) as process:
            yield Client(process.stdin, process.stdout)
            process.stdin.close()
            expect(process.wait(SECONDS), 0, "the status")


def configuration(path):
    """What F5 launches a file with: the initial configuration, and what VS Code adds to it."""
    [said] = debugger()["initialConfigurations"]
    said = {word: path if value == "${file}" else value for word, value in said.items()}
    return {**said, "__configurationTarget": 6, "__sessionId": "0b6e7e37-6d2f-4f9e-a6b5-3d4a3e1f4a60"}


def launched(editor, path):
    return editor.ask("launch", **configuration(path))


def source(path):
    return {"name": os.path.basename(path), "path": path}


def configured(editor, path, lines, functions=()):
    """Sends the breakpoints as VS Code does: those of each file, those of functions, and none at instructions, without waiting between them."""
    editor.event("initialized")
    sent = [editor.send("setBreakpoints", source=source(path), lines=[it["line"] for it in lines], breakpoints=lines, sourceModified=False),
            editor.send("setFunctionBreakpoints", breakpoints=list(functions)), editor.send("setInstructionBreakpoints", breakpoints=[])]
    answers = [editor.answer(number) for number in sent]
    expect([it["success"] for it in answers], [True, True, True], "the breakpoints: %s" % answers)
    expect([it["verified"] for it in answers[1]["body"]["breakpoints"]], [True] * len(functions), "those of functions")
    editor.body("configurationDone")
    editor.body("threads")
    return answers[0]["body"]["breakpoints"]


def refreshed(editor):
    """What VS Code asks for when it is told of a stop: the reason, the frames, and the variables of the first scope."""
    reason = editor.event("stopped")["reason"]
    expect([it["id"] for it in editor.body("threads")["threads"]], [1], "the threads")
    frames = editor.body("stackTrace", threadId=1, startFrame=0, levels=20)["stackFrames"]
    scopes = editor.body("scopes", frameId=frames[0]["id"])["scopes"]
    registers = editor.body("variables", variablesReference=scopes[0]["variablesReference"])["variables"]
    editor.body("variables", variablesReference=scopes[1]["variablesReference"])
    return reason, frames, scopes, {it["name"]: it["value"] for it in registers}


def hovered(editor, word, frame):
    """The value in a hover, or None where there is none to show."""
    said = editor.ask("evaluate", expression=word, frameId=frame["id"], context="hover", line=frame["line"], column=9, source=source(SORT))
    return said["body"]["result"] if said["success"] else None


def expect_disassembly(editor, frame):
    """The view of the disassembly: 400 entries, whose addresses are numbers, with the instruction of the frame at the middle."""
    at = frame["instructionPointerReference"]
    block = {"offset": 0, "instructionOffset": -200, "instructionCount": 400, "resolveSymbols": True}
    entries = editor.body("disassemble", memoryReference=at, **block)["instructions"]
    addresses = [int(it["address"], 16) for it in entries]
    expect((len(entries), addresses[200], entries[200]["instruction"]), (400, int(at, 16), "lw t0, 4(sp)"), "the disassembly")
    expect(addresses, sorted(addresses), "the addresses")


def a_program_is_debugged_in_the_order_of_vs_code():
    with client() as editor:
        editor.body("initialize", **FLAGS)
        expect(launched(editor, SORT)["success"], True, "the launch")
        [breakpoint] = configured(editor, SORT, [{"line": 36, "condition": "[sp] == 2"}])
        expect((breakpoint["verified"], breakpoint["line"]), (True, 36), "the breakpoint")
        reason, frames, _, _ = refreshed(editor)
        expect((reason, frames[0]["line"]), ("entry", 3), "the entry")
        editor.body("continue", threadId=1)
        reason, frames, scopes, registers = refreshed(editor)
        expect((reason, [it["line"] for it in frames]), ("breakpoint", [36, 44, 44, 14]), "the stop at the breakpoint")
        expect([it["name"] for it in scopes], ["Registers", "Stack"], "the scopes")
        expect([hovered(editor, word, frames[0]) for word in ("a1", "sort", "4", "lw", "[[sp + 4]]")],
               ["0x00000002", None, "0x00000004", None, "0x00000028"], "hovers")
        expect_disassembly(editor, frames[0])
        editor.body("setVariable", variablesReference=scopes[0]["variablesReference"], name="a0", value="0x0010fff8")
        expect(hovered(editor, "a0", frames[0]), "0x0010fff8", "a register that was set")
        editor.body("next", threadId=1, granularity="instruction")
        reason, frames, _, registers = refreshed(editor)
        expect((reason, frames[0]["line"], registers["t0"]), ("step", 37, "0x0010fff8"), "after a step by an instruction")
        editor.body("stepOut", threadId=1)
        expect([it["line"] for it in refreshed(editor)[1]], [45, 44, 14], "after a step out")
        goes_back(editor)
        ends_anew(editor)


def goes_back(editor):
    """The buttons Step Back and Reverse, of a program that was changed at its breakpoint; the last has nothing to take back."""
    editor.body("next", threadId=1, granularity="instruction")
    expect(refreshed(editor)[1][0]["line"], 46, "after a step over")
    editor.body("stepBack", threadId=1, granularity="instruction")
    expect([it["line"] for it in refreshed(editor)[1]], [45, 44, 14], "after a step back")
    editor.body("reverseContinue", threadId=1)
    reason, frames, _, registers = refreshed(editor)
    expect((reason, [it["line"] for it in frames], registers["a0"]), ("breakpoint", [36, 44, 44, 14], "0x0010fff8"), "where a run back stops")
    refused = editor.ask("stepBack", threadId=1)
    expect((refused["success"], refused["message"]), (False, "noHistory"), "a step back where nothing is recorded")


def ends_anew(editor):
    """Starts the program anew, takes the breakpoint away, and lets it run to its end."""
    editor.body("restart", arguments=configuration(SORT))
    expect(refreshed(editor)[0], "entry", "a restart")
    editor.body("setBreakpoints", source=source(SORT), lines=[], breakpoints=[], sourceModified=False)
    editor.body("continue", threadId=1)
    expect(editor.event("exited"), {"exitCode": 0}, "the exit")
    editor.event("terminated")
    expect([it["body"]["output"] for it in editor.events if it["event"] == "output"], ["10\n", "20\n", "30\n", "40\n"], "what was printed")
    editor.body("disconnect", terminateDebuggee=False)


def an_instruction_breakpoint_of_the_disassembly_stops():
    with client() as editor:
        editor.body("initialize", **FLAGS)
        launched(editor, SORT)
        configured(editor, SORT, [])
        _, frames, _, _ = refreshed(editor)
        [said] = editor.body("setInstructionBreakpoints", breakpoints=[{"instructionReference": frames[0]["instructionPointerReference"],
                                                                         "offset": 8}])["breakpoints"]
        expect(said["verified"], True, "the breakpoint")
        editor.body("continue", threadId=1)
        reason, frames, _, _ = refreshed(editor)
        expect((reason, frames[0]["line"]), ("instruction breakpoint", 5), "where it stops")
        editor.body("terminate", restart=False)  # the button Stop
        editor.event("terminated")
        editor.body("disconnect", terminateDebuggee=False)


def outputs(editor, category):
    """What came of this category, and was not asked for before."""
    found = [it for it in editor.events if it["event"] == "output" and it["body"]["category"] == category]
    editor.events = [it for it in editor.events if it not in found]
    return [it["body"]["output"] for it in found]


def a_logpoint_speaks_and_a_function_breakpoint_stops():
    """Each of the three calls of `least` finds one word that is smaller than the one before it."""
    with client() as editor:
        editor.body("initialize", **FLAGS)
        launched(editor, SORT)
        [logpoint] = configured(editor, SORT, [{"line": 59, "logMessage": "a smaller word"}], [{"name": "least", "hitCondition": "3"}])
        expect((logpoint["verified"], logpoint["line"]), (True, 59), "the logpoint")
        expect(refreshed(editor)[0], "entry", "the entry")
        editor.body("continue", threadId=1)
        reason, frames, _, _ = refreshed(editor)
        expect((reason, [it["name"] for it in frames]), ("function breakpoint", ["least", "sort+28", "sort+68", "sort+68", "_start+48"]), "the stop")
        expect(outputs(editor, "console"), ["a smaller word\n"] * 2, "what was said before the third call")
        editor.body("continue", threadId=1)
        expect(editor.event("exited"), {"exitCode": 0}, "the exit")
        expect((outputs(editor, "console"), outputs(editor, "stdout")), (["a smaller word\n"], ["10\n", "20\n", "30\n", "40\n"]), "the rest")
        editor.event("terminated")
        editor.body("disconnect", terminateDebuggee=False)


def a_program_with_an_error_is_told_with_its_line():
    with client() as editor:
        editor.body("initialize", **FLAGS)
        said = launched(editor, UNDEFINED)
        error = said["body"]["error"]
        shown = re.sub(r"\{(\w+)\}", lambda it: str(error.get("variables", {}).get(it[1], it[0])), error["format"])
        expect((said["success"], shown), (False, "line 4: Undefined"), "the text of the box")
        editor.body("disconnect", restart=False)


def joined(port):
    """Joins the program at a port with the snippet's configuration, sees it at its entry, and leaves it by the button Disconnect."""
    [said] = [it["body"] for it in debugger()["configurationSnippets"] if it["body"]["request"] == "attach"]
    said = {**{name: inserted(value) for name, value in said.items()}, "debugServer": port}
    with socket.create_connection(("127.0.0.1", said["debugServer"]), timeout=SECONDS) as line:
        with line.makefile("wb") as to_it, line.makefile("rb") as from_it:
            editor = Client(to_it, from_it)
            editor.body("initialize", **FLAGS)
            editor.body("attach", **said)
            [breakpoint] = configured(editor, SORT, [{"line": 36}])
            expect(breakpoint["verified"], True, "the breakpoint")
            reason, frames, _, _ = refreshed(editor)
            expect((reason, frames[0]["line"]), ("entry", 3), "the program at the port")
            editor.body("disconnect", terminateDebuggee=False)


def a_program_at_a_port_is_joined_and_left():
    with socket.create_server(("127.0.0.1", 0)) as free:
        port = free.getsockname()[1]
    words = [PROGRAM, "--listen", "127.0.0.1:%d" % port, "--program", SORT]
    with started(words, stdin=subprocess.DEVNULL, stderr=subprocess.PIPE, text=True) as process:
        expect(process.stderr.readline(), "listening on 127.0.0.1:%d\n" % port, "what it says first")
        joined(port)
        joined(port)


def checks():
    return [("the extension of VS Code: " + check.__name__.replace("_", " "), check) for check in (
        the_manifest_has_what_it_needs, languages_and_files_are_there, the_debugger_says_what_one_may, configurations_fit_their_attributes,
        the_problem_matcher_finds_the_line, configurations_of_the_readme_fit, each_line_of_the_examples_is_coloured,
        the_grammar_has_the_words_of_the_language, a_program_is_debugged_in_the_order_of_vs_code,
        an_instruction_breakpoint_of_the_disassembly_stops, a_logpoint_speaks_and_a_function_breakpoint_stops,
        a_program_with_an_error_is_told_with_its_line,
        a_program_at_a_port_is_joined_and_left)]
