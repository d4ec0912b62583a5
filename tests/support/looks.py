"""What an editor sees of a program that stands still, as docs/PROTOCOL.md says it: frames, scopes, variables, bytes and instructions; and a
session in which it looks."""
import base64
import json

from support.debugging import INITIALIZED, PATH, Debugging
from support.machine import BASE, REGISTERS

MIB = 1 << 20
END = BASE + MIB

# Why a look is refused: the name and the number.
STALE = ("staleReference", 8)
UNKNOWN_REFERENCE = ("unknownReference", 9)
UNKNOWN_NAME = ("unknownName", 10)
BAD_VALUE = ("badValue", 11)
NOT_WRITABLE = ("notWritable", 12)
BAD_MEMORY_REFERENCE = ("badMemoryReference", 13)
OUTSIDE_MEMORY = ("outsideMemory", 14)
BAD_EXPRESSION = ("badExpression", 16)
NO_MACHINE = ("noMachine", 22)

CONTINUED = ("continued", '{"allThreadsContinued":true,"threadId":1}')


def text(value):
    """A body as it is sent."""
    return json.dumps(value, separators=(",", ":"), sort_keys=True, ensure_ascii=False)


def word(value):
    return "0x%08x" % value


def frame_at(number, address, name, line, path=PATH, column=1):
    """A frame at an address of a line."""
    return {"column": column, "id": number, "instructionPointerReference": word(address), "line": line, "name": name,
            "source": {"name": path.rpartition("/")[2], "path": path}}


def frame_of_no_line(number, address, name=None):
    """A frame at an address of no line, which is its name where it has no label."""
    return {"column": 0, "id": number, "instructionPointerReference": word(address), "line": 0, "name": name or word(address)}


def frames(entries, total):
    return text({"stackFrames": list(entries), "totalFrames": total})


def scopes(registers, stack):
    """The scopes of the newest frame, by their numbers."""
    return text({"scopes": [
        {"expensive": False, "name": "Registers", "presentationHint": "registers", "variablesReference": registers},
        {"expensive": False, "name": "Stack", "variablesReference": stack}]})


NO_SCOPES = text({"scopes": []})


def registers(pc, sp=END, **values):
    """All registers with their values, and pc; those that are not named are 0."""
    values = {"sp": sp, **values}
    return [(name, values.get(name, 0)) for name in REGISTERS] + [("pc", pc)]


def stack(*words):
    return [("sp+%d" % (4 * place), value) for place, value in enumerate(words)]


def variables(entries):
    return text({"variables": [{"name": name, "value": word(value), "variablesReference": 0} for name, value in entries]})


def memory(address, data, missing=0):
    body = {"address": word(address), "data": base64.b64encode(data).decode()}
    return text({**body, "unreadableBytes": missing} if missing else body)


def instruction(address, number, shown):
    return {"address": word(address), "instruction": shown, "instructionBytes": number.to_bytes(4, "little").hex(" ")}


def no_instruction(address):
    return {"address": word(address), "instruction": "(invalid)", "presentationHint": "invalid"}


class Looking(Debugging):
    """A session in which an editor looks into the program. Each method asks for something, and says what is answered."""

    def trace(self, entries, total=None, **arguments):
        """The frames, and how many there are: as many as are shown, if no other number is given."""
        entries = list(entries)
        body = frames(entries, len(entries) if total is None else total)
        return self.asks("stackTrace", body=body, threadId=1, **arguments)

    def scopes(self, frame, *numbers):
        """The scopes of a frame: the numbers of its registers and its stack, or none."""
        return self.asks("scopes", body=scopes(*numbers) if numbers else NO_SCOPES, frameId=frame)

    def lists(self, number, entries, **arguments):
        """The variables of a scope."""
        return self.asks("variables", body=variables(entries), variablesReference=number, **arguments)

    def sets_variable(self, number, name, value, wanted):
        """A variable is set: to this number, or refused."""
        refusal, body = (None, text({"value": word(wanted)})) if isinstance(wanted, int) else (wanted, None)
        return self.asks("setVariable", refusal, body=body, variablesReference=number, name=name, value=value)

    def evaluates(self, expression, wanted, **arguments):
        """An expression has this value, or is refused."""
        refusal, body = (None, text({"result": word(wanted), "variablesReference": 0})) if isinstance(wanted, int) else (wanted, None)
        return self.asks("evaluate", refusal, body=body, expression=expression, **arguments)

    def reads(self, reference, count, address, data, missing=0, **arguments):
        """Bytes of memory, from this address on."""
        return self.asks("readMemory", body=memory(address, data, missing), memoryReference=reference, count=count, **arguments)

    def writes(self, reference, data, wanted, **arguments):
        """Bytes are written to memory: so many of them, or none, as it is refused."""
        refusal, body = (None, text({"bytesWritten": wanted})) if isinstance(wanted, int) else (wanted, None)
        data = base64.b64encode(data).decode()
        return self.asks("writeMemory", refusal, body=body, memoryReference=reference, data=data, **arguments)

    def disassembles(self, reference, count, entries, **arguments):
        body = text({"instructions": list(entries)})
        return self.asks("disassemble", body=body, memoryReference=reference, instructionCount=count, **arguments)

    def attaches(self, *events):
        """An editor connects, joins the program that is there and says all; then it is told this."""
        self.connects().asks("initialize").asks("attach", events=[INITIALIZED])
        return self.asks("configurationDone", events=events)


def looking(file, *new, **arguments):
    """A session in which the program was begun."""
    return Looking(*new).begins(file, **arguments)


def loaded(file, *new, **arguments):
    """A session in which the program was launched, and the editor has not said all."""
    return Looking(*new).connects().asks("initialize").launches(file, **arguments)
