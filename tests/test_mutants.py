"""The runner of the mutants, on edits of its own: it reports each that is not refused, and why."""
import os
import subprocess

from support.program import TOP, expect

RUNNER = os.path.join(TOP, "tests", "mutants", "run")
OWN = os.path.join(TOP, "tests", "mutants", "own")
# How the line of each begins. `is_wrong` changes the function that the one of `means_the_same` calls, and is refused.
REPORTED = {
    "framing/changes_a_clause_of_a_law": "cannot be read: line 27 of src/laws.rt is of a law",
    "framing/changes_a_text_that_is_not_there": "cannot be read: its old text stands 0 times in src/unframer.rt",
    "framing/changes_no_function": "cannot be read: it changes more than functions",
    "framing/does_not_compile": "cannot be read: src/unframer.rt:",
    "framing/means_the_same": "no goal of its own is refused",
    "framing/renames_its_goals": "not judged, as its proof has answers to goals that are gone",
}


def each_mutant_that_is_not_refused_is_reported():
    ran = subprocess.run([RUNNER, "--built", "--from", OWN, "framing"], stdout=subprocess.PIPE, stderr=subprocess.STDOUT, text=True)
    lines = ran.stdout.splitlines()
    reported = dict(line.split(": ", 1) for line in lines[:-1])
    expect(sorted(reported), sorted(REPORTED), "the mutants that are reported")
    for name, why in REPORTED.items():
        expect(reported[name][:len(why)], why, name)
    expect(lines[-1].split(" (")[0], "mutants: 1 refused, 6 not", "the last line")
    expect(ran.returncode, 1, "status")


def a_name_that_is_no_mutant_is_reported():
    ran = subprocess.run([RUNNER, "--built", "--from", OWN, "framing", "is_absent"], stdout=subprocess.PIPE, stderr=subprocess.STDOUT, text=True)
    line, last = ran.stdout.splitlines()
    expect((line, last.split(" (")[0], ran.returncode), ("framing/is_absent: there is no such edit", "mutants: 0 refused, 1 not", 1), "what is said of it")


def checks():
    """Each check with its name."""
    return [(check.__name__.replace("_", " "), check) for check in (each_mutant_that_is_not_refused_is_reported, a_name_that_is_no_mutant_is_reported)]
