"""tools/wrap over files made here: where lines are broken, and that no word of any proof or clause changes."""
import glob
import os
import re
import subprocess
import tempfile

from support.program import TOP, expect

WRAP = os.path.join(TOP, "tools", "wrap")
LONG = "a_long_name_of_a_fact"
SIGNATURE = "  law : (n : ℕ) → " + " → ".join("(%s n ≡ n → %s)" % (LONG, LONG) for _ in range(4)) + " → n ≡ n"
DEFINITION = "law n = " + " ∙ ".join("ap (λ x. %s x) (by %s n)" % (LONG, LONG) for _ in range(3))
MODULE = "module _ " + " ".join("(%s%d : ℕ → ℕ → ℕ)" % (LONG, n) for n in range(5)) + " where"
RECORD = "pub record Held " + " ".join("(%s%d : ℕ)" % (LONG, n) for n in range(8)) + " : Type 0 where"
CLAUSE = "pub fn f()\n    ensures { IfOk result (λ x. %s x) %s ≡ %s }\n{}" % (LONG, LONG, " ++ ".join("(%s n)" % LONG for _ in range(2)))
CODE = "    let text = \"" + "( word " * 30 + "\";"
TEXT = "law = \"" + "( word " * 30 + "\""


def wrapped(*texts, kind="antt"):
    """What the tool makes of texts, and what it says."""
    with tempfile.TemporaryDirectory() as folder:
        paths = [os.path.join(folder, "Proof%d.%s" % (n, kind)) for n in range(len(texts))]
        for path, text in zip(paths, texts):
            with open(path, "w", encoding="utf-8") as file:
                file.write(text)
        ran = subprocess.run([WRAP, *paths], capture_output=True, text=True, timeout=60)
        expect((ran.stderr, ran.returncode), ("", 0), "tools/wrap")
        return [text_of(path) for path in paths], ran.stdout


def text_of(path):
    with open(path, encoding="utf-8") as file:
        return file.read()


def expect_broken(text, begins):
    """Fails unless the text becomes lines within the columns that begin so, with the same words."""
    (made,), said = wrapped(text)
    lines = made.split("\n")
    expect(said, "1 broken, 0 still too long\n", "what is said of %r" % text)
    expect(made.split(), text.split(), "the words of %r" % text)
    expect([line for line in lines if len(line) > 140], [], "long lines of %r" % text)
    expect([re.match(r" *\S+", line)[0] for line in lines], begins, "how the lines of %r begin" % text)


def lines_are_broken_at_arrows_definitions_and_arguments():
    expect_broken(SIGNATURE, ["  law", "      →"])
    expect_broken(DEFINITION, ["law", "    ap", "    ∙"])
    expect_broken(MODULE, ["module", "    (%s3" % LONG])
    expect_broken(RECORD, ["pub", "    (%s4" % LONG])


def a_line_without_a_place_stays():
    for text in (TEXT, "-- " + "a word " * 30, "use Rattle.a.{" + "name, " * 30 + "name}"):
        expect(wrapped(text)[0][0].split(), text.split(), "the words of a line that stays")
    expect(wrapped("short = refl\n"), (["short = refl\n"], "0 broken, 0 still too long\n"), "a short line")


def clauses_are_broken_at_operators():
    (made,), said = wrapped(CLAUSE, kind="rt")
    expect(said, "1 broken, 0 still too long\n", "what is said of a clause")
    expect(made.split(), CLAUSE.split(), "the words of a clause")
    lines = made.split("\n")
    expect([line for line in lines if len(line) > 100], [], "long lines of a clause")
    expect([re.match(r" *\S+", line)[0] for line in lines], ["pub", "    ensures", "        ≡", "{}"], "how the lines of a clause begin")
    expect(wrapped(CODE, kind="rt"), ([CODE], "0 broken, 0 still too long\n"), "a line that is no clause")


def no_word_of_a_proof_or_clause_changes():
    for kind, folder, least in (("antt", "proofs", 200), ("rt", "src", 300)):
        paths = sorted(glob.glob(os.path.join(TOP, "crates", "*", folder, "*." + kind)))
        expect(len(paths) > least, True, "there are files in " + folder)
        texts = [text_of(path) for path in paths]
        made, _ = wrapped(*texts, kind=kind)
        for path, text, new in zip(paths, texts, made):
            expect(new.split(), text.split(), "the words of " + os.path.relpath(path, TOP))
        expect(wrapped(*made, kind=kind)[0], made, "the same a second time")


def checks():
    """Each check with its name."""
    return [(check.__name__.replace("_", " "), check) for check in (
        lines_are_broken_at_arrows_definitions_and_arguments,
        a_line_without_a_place_stays,
        clauses_are_broken_at_operators,
        no_word_of_a_proof_or_clause_changes,
    )]
