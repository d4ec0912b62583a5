"""Sessions that launch a program: the messages that every one of them has, and how a session is held against what the program says."""
from support.files import file_of
from support.program import Talk, expect, frame
from support.texts import FIRST, FIRST_ANSWER, request

# Texts of docs/PROTOCOL.md, sections 4 and 5.
DONE = '{"command":"%s","request_seq":%d,"seq":%d,"success":true,"type":"response"}'
CONTINUED = '{"body":{"allThreadsContinued":true},"command":"continue","request_seq":%d,"seq":%d,"success":true,"type":"response"}'
FAILED = ('{"body":{"error":{"format":"%s","id":17}},"command":"launch","message":"assemblyFailed","request_seq":%d,"seq":%d,'
          '"success":false,"type":"response"}')
INITIALIZED = '{"event":"initialized","seq":%d,"type":"event"}'
STOPPED = '{"body":{"allThreadsStopped":true,"reason":"%s","threadId":1},"event":"stopped","seq":%d,"type":"event"}'
TRAPPED = ('{"body":{"allThreadsStopped":true,"reason":"exception","text":"%s","threadId":1},"event":"stopped","seq":%d,'
           '"type":"event"}')
PRINTED = r'{"body":{"category":"stdout","output":"%d\n"},"event":"output","seq":%d,"type":"event"}'
EXITED = '{"body":{"exitCode":%d},"event":"exited","seq":%d,"type":"event"}'
TERMINATED = '{"event":"terminated","seq":%d,"type":"event"}'


def frames(*bodies):
    return b"".join(map(frame, bodies))


def started(path, **arguments):
    """The requests by which a program is launched and started, and what is told of them."""
    return (FIRST + request(2, "launch", program=path, **arguments) + request(3, "configurationDone"),
            FIRST_ANSWER + frames(DONE % ("launch", 2, 2), INITIALIZED % 3, DONE % ("configurationDone", 3, 4)))


def expect_all(talk, told, what):
    """The rest of what the program says is this, and it ends well."""
    expect(talk.read(len(told)), told, what)
    expect(talk.end(), (0, b""), "the end")
    expect(talk.read_so_far + talk.process.stdout.read(), b"", "what comes after it")


def is_told(text, session):
    """Fails unless the program answers each part of a session with the file of this text as the session says."""
    with file_of(text) as path, Talk() as talk:
        for sent, told in session(path):
            expect(talk.answers(sent, told), told, "what is told after %r" % sent)
        expect_all(talk, b"", "the rest")


def is_told_however_cut(text, session):
    """Fails unless each part of a session is answered as the session says, wherever the part is cut in two."""
    with file_of(text) as path:
        for cut in (1, 15, 18, 20, 21, 22, 23, 30, 50, -2, -1):
            with Talk() as talk:
                for sent, told in session(path):
                    talk.write(sent[:cut])
                    expect(talk.answers(sent[cut:], told), told, "what is told after %r, cut at %d" % (sent, cut))
                expect_all(talk, b"", "the rest")
