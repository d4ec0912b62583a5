"""Breakpoints as an editor asks for them, and what docs/PROTOCOL.md says of each."""
import json

# Why a breakpoint is not set.
UNKNOWN = "unknown source"
CONDITION = "bad condition"
HIT = "bad hit condition"
NO_CODE = "no code at or after this line"
ADDRESS = "bad address"
FUNCTION = "unknown function"

# How many a request may ask for, and how many bytes a log message may have.
MOST = 1024
LONGEST_LOG = 1024


def terms(condition, hits):
    return {**({} if condition is None else {"condition": condition}), **({} if hits is None else {"hitCondition": hits})}


def at(line, condition=None, hits=None, log=None):
    """A breakpoint at a line, as it is asked for; log: it is a logpoint, which says this."""
    return {"line": line, **terms(condition, hits), **({} if log is None else {"logMessage": log})}


def on(reference, offset=None, condition=None, hits=None):
    """A breakpoint at an address, as it is asked for."""
    return {"instructionReference": reference, **({} if offset is None else {"offset": offset}), **terms(condition, hits)}


def named(name, condition=None, hits=None):
    """A breakpoint of a function, as it is asked for."""
    return {"name": name, **terms(condition, hits)}


def is_set(number, address, line=None):
    return {"id": number, "instructionReference": "0x%08x" % address, "verified": True, **({} if line is None else {"line": line})}


def is_not(message, line=None):
    return {"message": message, "verified": False, **({} if line is None else {"line": line})}


def body_of(entries):
    """The body of a success with these entries, as it is sent."""
    return json.dumps({"breakpoints": list(entries)}, separators=(",", ":"), sort_keys=True)
