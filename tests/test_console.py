"""What `rvdap debug` shows: each line of a transcript, by those in transcripts.py."""
import subprocess

from support.files import file_of
from support.program import PROGRAM, SECONDS, expect
from transcripts import TRANSCRIPTS


def played(text, lines):
    """What is shown for lines that come on standard input, and the status."""
    with file_of(text) as path:
        typed = "".join(line + "\n" for line, _ in lines).encode()
        ran = subprocess.run([PROGRAM, "debug", path], input=typed, stdout=subprocess.PIPE, stderr=subprocess.PIPE, timeout=SECONDS)
        expect(ran.stderr, b"", "standard error")
        return ran.stdout.decode(), ran.returncode


def expect_transcript(title, text, begins, lines, is_refused):
    shown = begins + "".join("(rvdap) %s\n%s" % row for row in lines)
    expect(played(text, lines), (shown, int(is_refused)), title)


def checks():
    """Each check with its name."""
    return [(row[0], lambda row=row: expect_transcript(*row)) for row in TRANSCRIPTS]
