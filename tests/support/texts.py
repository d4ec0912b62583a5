"""Requests as an editor writes them, and the texts of their answers as docs/PROTOCOL.md has them."""
from support.program import frame

INITIALIZE = '{"seq":1,"type":"request","command":"initialize","arguments":{"adapterID":"rvdap"}}'
CAPABILITIES = (
    '{"body":{"supportSuspendDebuggee":true,"supportTerminateDebuggee":true,"supportsCancelRequest":true,'
    '"supportsConditionalBreakpoints":true,"supportsConfigurationDoneRequest":true,"supportsDisassembleRequest":true,'
    '"supportsEvaluateForHovers":true,"supportsFunctionBreakpoints":true,"supportsHitConditionalBreakpoints":true,'
    '"supportsInstructionBreakpoints":true,"supportsLogPoints":true,"supportsReadMemoryRequest":true,'
    '"supportsRestartRequest":true,"supportsSetVariable":true,"supportsStepBack":true,'
    '"supportsSteppingGranularity":true,"supportsTerminateRequest":true,"supportsWriteMemoryRequest":true},'
    '"command":"initialize","request_seq":%d,"seq":%d,"success":true,"type":"response"}'
)
THREADS = '{"body":{"threads":[{"id":1,"name":"hart 0"}]},"command":"threads","request_seq":%d,"seq":%d,"success":true,"type":"response"}'
CANCELLED = '{"command":"cancel","request_seq":%d,"seq":%d,"success":true,"type":"response"}'
DISCONNECTED = '{"command":"disconnect","request_seq":%d,"seq":%d,"success":true,"type":"response"}'
REFUSED = '{"body":{"error":{"format":"%s","id":%d}},"command":"%s","message":"%s","request_seq":%d,"seq":%d,"success":false,"type":"response"}'


def request(seq, command, **arguments):
    message = {"seq": seq, "type": "request", "command": command}
    if arguments:
        message["arguments"] = arguments
    return frame(message)


def refused(name, number, command, request_seq, seq):
    return frame(REFUSED % (name, number, command, name, request_seq, seq))


FIRST = frame(INITIALIZE)
FIRST_ANSWER = frame(CAPABILITIES % (1, 1))
SESSION = FIRST + request(2, "threads") + request(3, "disconnect")
ANSWERS = FIRST_ANSWER + frame(THREADS % (2, 2)) + frame(DISCONNECTED % (3, 3))
