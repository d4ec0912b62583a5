"""What `make soak` does, in little: load that is constant, and sessions at random."""
import os
import subprocess

from support.program import TOP, expect

SECONDS = 300


def a_little_of_each():
    ran = subprocess.run([os.path.join(TOP, "tests", "soak"), "connections=100", "requests=20000", "launches=3", "sessions=300", "--seed", "1"],
                         capture_output=True, text=True, timeout=SECONDS)
    expect((ran.returncode, ran.stderr), (0, ""), "the status, and standard error, after %s" % ran.stdout)
    lines = ran.stdout.splitlines()
    expect([line.split(" | ")[0] for line in lines[2:5]], ["| connections over TCP", "| requests on one connection", "| launches of 262,144 instructions"], "the table")
    expect(lines[5], "sessions at random: seed 1, from 0 on", "the seed")
    expect("none by a signal" in lines[6], True, "how the sessions ended")


def other_words_are_not_taken():
    ran = subprocess.run([os.path.join(TOP, "tests", "soak"), "fly=1"], capture_output=True, text=True, timeout=SECONDS)
    expect((ran.returncode, ran.stdout, "there is no part fly" in ran.stderr), (2, "", True), "a part that there is not")


def checks():
    """Each check with its name."""
    return [("soak: " + check.__name__.replace("_", " "), check) for check in (a_little_of_each, other_words_are_not_taken)]
