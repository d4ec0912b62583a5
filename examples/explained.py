"""What an editor shows of a debugging session: each request and each message as lines for a person."""
import base64

# The arguments of these requests that are not shown: they are the same each time.
CUSTOMARY = ("adapterID", "threadId", "source")
VARIABLES_A_LINE = 4
BYTES_A_LINE = 16


def shown(value):
    """A value of an argument, as words."""
    if isinstance(value, dict):
        return " ".join(argument(name, each) for name, each in value.items())
    if isinstance(value, list):
        return "; ".join(map(shown, value))
    return str(value).lower() if isinstance(value, bool) else str(value)


def argument(name, value):
    return "[%s]" % shown(value) if isinstance(value, list) else "%s %s" % (name, shown(value))


def request(asked):
    """A request with its arguments, in a line."""
    arguments = {name: value for name, value in asked.get("arguments", {}).items() if name not in CUSTOMARY}
    return " ".join(["> " + asked["command"], *(argument(name, value) for name, value in arguments.items())])


def of_initialize(body):
    return ["%d capabilities, as %s" % (len(body), ", ".join(sorted(body)[2:5]))]


def of_breakpoints(body):
    for entry in body["breakpoints"]:
        place = " at line %d" % entry["line"] if "line" in entry else ""
        yield ("breakpoint %d%s, %s" % (entry["id"], place, entry["instructionReference"]) if entry["verified"]
               else "no breakpoint%s: %s" % (place, entry["message"]))


def line_of(frame):
    """The text of a frame's line, without its comment, where there is one and its file can be read."""
    try:
        text = open(frame["source"]["path"], encoding="utf-8").read().split("\n")[frame["line"] - 1]
    except (KeyError, OSError, IndexError):
        return ""
    return " ".join(text.partition("#")[0].split())


def of_frames(body):
    for frame in body["stackFrames"]:
        shown = frame["id"], frame["instructionPointerReference"], frame["name"], frame["line"], line_of(frame)
        yield ("frame %d  %s  %-10s line %-3d %s" % shown).rstrip()
    yield "%d of %d frames" % (len(body["stackFrames"]), body["totalFrames"])


def of_scopes(body):
    return ["%s: variables %d" % (scope["name"], scope["variablesReference"]) for scope in body["scopes"]] or ["no scopes"]


def of_variables(body):
    cells = ["%-5s %s" % (variable["name"], variable["value"]) for variable in body["variables"]]
    for begin in range(0, len(cells), VARIABLES_A_LINE):
        yield "   ".join(cells[begin:begin + VARIABLES_A_LINE])


def of_memory(body):
    address, data = int(body["address"], 16), base64.b64decode(body["data"])
    for begin in range(0, len(data), BYTES_A_LINE):
        yield "0x%08x  %s" % (address + begin, data[begin:begin + BYTES_A_LINE].hex(" "))
    if "unreadableBytes" in body:
        yield "%d bytes that cannot be read" % body["unreadableBytes"]


def of_instructions(body):
    for entry in body["instructions"]:
        yield "%s  %-11s  %s" % (entry["address"], entry.get("instructionBytes", ""), entry["instruction"])


BODIES = {
    "initialize": of_initialize, "setBreakpoints": of_breakpoints, "setFunctionBreakpoints": of_breakpoints,
    "setInstructionBreakpoints": of_breakpoints, "stackTrace": of_frames, "scopes": of_scopes, "variables": of_variables,
    "readMemory": of_memory, "disassemble": of_instructions, "evaluate": lambda body: [body["result"]], "setVariable": lambda body: [body["value"]],
    "writeMemory": lambda body: ["%d bytes written" % body["bytesWritten"]],
}


def of_stop(body):
    hit = "".join(" %d" % number for number in body.get("hitBreakpointIds", []))
    return "stopped: %s%s%s" % (body["reason"], hit, ": " + body["text"] if "text" in body else "")


def of_output(body):
    """What a logpoint says is told apart from what the program prints."""
    return "%s: %s" % ({"console": "logged", "stdout": "printed"}[body["category"]], body["output"].rstrip("\n"))


EVENTS = {
    "initialized": lambda body: "ready for breakpoints (initialized)", "stopped": of_stop, "continued": lambda body: "it runs",
    "output": of_output, "exited": lambda body: "exited with %d" % body["exitCode"], "terminated": lambda body: "the program has ended",
}


def message(told, asked):
    """What is told after a request, as lines."""
    body = told.get("body", {})
    if told["type"] == "event":
        return [EVENTS[told["event"]](body)]
    if not told["success"]:
        return ["refused: " + body["error"]["format"]]
    return list(BODIES.get(asked["command"], lambda _: [])(body)) if body else []
