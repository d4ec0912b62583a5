"""The files of editors/ and the configurations of docs/EDITORS.md: they take the lines that the built program prints of an error, they are
in their languages, and each word that they give to rvdap is one that its help lists. Emacs, Vim and Neovim load them where they are at
hand."""
import glob
import json
import os
import re
import shutil
import subprocess
import tempfile

from support.files import file_of
from support.program import PROGRAM, SECONDS, TOP, expect

# A text for each error of docs/MACHINE.md, and the line and the error that it reports.
ERRORS = (
    ("add a0,, a1\n", 1, "Syntax"),
    ("nop\nadi a0, a0, 1\n", 2, "UnknownInstruction"),
    ("nop\nnop\nlw a0, 8\n", 3, "BadOperand"),
    ("nop\n" * 11 + "addi a0, a1, 2048\n", 12, "OutOfRange"),
    ("a: nop\na: ret\n", 2, "TwiceDefined"),
    ("nop\nj end\n", 2, "Undefined"),
    (".space 1048576\nnop\n", 2, "TooLarge"),
    (b"nop\n# \xe9\n", 2, "NotUtf8"),
)
LISP = ("rvdap.el", "rvdap-dap-mode.el")


def text_of(*path):
    with open(os.path.join(TOP, *path), encoding="utf-8") as file:
        return file.read()


def said(path):
    """What `rvdap check` says of a file."""
    ran = subprocess.run([PROGRAM, "check", path], stdin=subprocess.DEVNULL, capture_output=True, timeout=SECONDS)
    expect(ran.returncode, 1, "the status of a text with an error")
    return (ran.stdout + ran.stderr).decode()


def each_error():
    """Of each error: the path of a text that has it, its line, its name, and what `rvdap check` says of it."""
    for text, line, name in ERRORS:
        with file_of(text) as path:
            yield path, line, name, said(path)


# ---- Emacs

# The form of an error that Emacs calls `gnu', as compile.el of Emacs 28 to 30 has it, without what may follow the number of a line: an optional
# program, the file, which does not begin with a blank and is not all digits, and the line.
GNU = re.compile(r"^(?:[A-Za-z][-A-Za-z0-9.]+: ?)?(?P<file>(?:[^0-9\n\t ]|[0-9]+[^0-9\n])(?:[^\n :]| [^-/\n]|:[^ \n])*?): ?(?P<line>[0-9]+):", re.M)


def emacs_takes_each_error():
    for path, line, error, words in each_error():
        found = [it.group("file", "line") for it in GNU.finditer(words)]
        expect(found, [(path, str(line))], "where the error %s is, and nothing else" % error)
    expect(GNU.findall(said("/nowhere.s")), [], "a file that cannot be read has no line")


def both_files_for_emacs_run_one_command():
    for name in LISP:
        expect(re.findall(r'concat "(.*?)"', text_of("editors", "emacs", name)), ["rvdap check "], "what %s runs before it launches" % name)


def both_files_for_emacs_go_back_by_two_requests():
    for name in LISP:
        made = re.findall(r'\(defun (rvdap-(?:step-back|reverse-continue)) .*\n.*\n.*\n.* "(\w+)"', text_of("editors", "emacs", name))
        expect(made, [("rvdap-step-back", "stepBack"), ("rvdap-reverse-continue", "reverseContinue")], "the commands of %s that go back" % name)


# ---- Vim

ITEMS = {"%f": r"(?P<file>.+?)", "%l": r"(?P<line>\d+)", "%c": r"(?P<column>\d+)", "%m": r"(?P<text>.+)", "%.%#": r".*"}


def of_vim(entry):
    """An entry of errorformat without its prefix, as a regular expression of Python."""
    parts = re.split(r"(%f|%l|%c|%m|%\.%#)", entry)
    return "".join(ITEMS.get(part, re.escape(part)) for part in parts)


def entries():
    """The entries of errorformat in the file for Vim: each one's prefix, as `%-G`, and its form."""
    value = re.search(r"^CompilerSet errorformat=(.*)$", text_of("editors", "vim", "compiler", "rvdap.vim"), re.M)[1]
    found = [re.fullmatch(r"(%[-+]G)?(.*)", entry) for entry in value.replace("\\ ", " ").split(",")]
    return [(entry[1], of_vim(entry[2])) for entry in found]


def taken(line):
    """The first entry that takes a line, as Vim chooses: its prefix, and what it found."""
    for prefix, form in entries():
        found = re.fullmatch(form, line)
        if found:
            return prefix, found.groupdict()
    return None


def vim_takes_each_error():
    for path, line, error, words in each_error():
        first, *rest = words.splitlines()
        prefix, found = taken(first)
        expect((prefix, found["file"], found["line"], found["text"].split(":")[0]), (None, path, str(line), error), "the error %s" % error)
        expect([taken(it)[0] for it in rest], ["%-G"] * len(rest), "the line itself is left out")
    prefix, found = taken(said("/nowhere.s").rstrip("\n"))
    expect((prefix, found), ("%+G", {"text": "/nowhere.s: cannot read"}), "a file that cannot be read is shown without a line")


# ---- the editors themselves, where they are

STUBS = """
(defvar dape-configs nil) (defvar dape-compile-hook nil) (defvar dape-global-map (make-sparse-keymap))
(provide 'dape) (provide 'dap-ui) (provide 'dap-mode)
(defvar seen nil) (defvar dap-output-buffer-filter nil)
(defun dap-mode (&rest _))
(defun dap--put-if-absent (conf key value) (if (plist-get conf key) conf (plist-put conf key value)))
(defun dap-register-debug-provider (_ make) (setq seen make))
(defun dap-register-debug-template (&rest _))
"""
PRINTS = """
(with-temp-buffer
  (setq buffer-file-name "/a b.s")
  (princ (format "%S\n" (list (mapcar #'car dape-configs) (rvdap-check-command)))))
(princ (format "%S\n" (mapcar (lambda (key) (lookup-key dape-global-map key)) '("N" "C"))))
(princ (format "%S\n" (funcall seen (list :program (getenv "GOOD")))))
(princ (format "%S\n" (condition-case refused (funcall seen (list :program (getenv "BAD"))) (user-error (car refused)))))
(with-temp-buffer
  (insert (getenv "LINE"))
  (compilation-mode)
  (let ((inhibit-read-only t)) (compilation-parse-errors (point-min) (point-max)))
  (goto-char (point-min))
  (let ((place (compilation--message->loc (get-text-property (point) 'compilation-message))))
    (princ (format "%S\n" (list (compilation--loc->line place) (caar (compilation--loc->file-struct place)))))))
"""


def environment(**more):
    """One in which `rvdap` is the built program."""
    return dict(os.environ, PATH=os.path.dirname(PROGRAM) + ":" + os.environ["PATH"], LC_ALL="C.UTF-8", **more)


def absent(what):
    print("test_editors: %s is not here: its files were not loaded by it" % what)


def emacs_loads_its_files():
    if not shutil.which("emacs"):
        return absent("emacs")
    good = os.path.join(TOP, "examples", "sort.s")
    with file_of("nop\nj end\n") as path:
        words = ["emacs", "-Q", "--batch", "--eval", "(progn %s)" % STUBS]
        for name in LISP:
            words += ["-l", os.path.join(TOP, "editors", "emacs", name)]
        ran = subprocess.run(words + ["--eval", "(progn %s)" % PRINTS], env=environment(LINE=said(path), BAD=path, GOOD=good),
                             capture_output=True, timeout=SECONDS)
    wanted = [r'((rvdap rvdap-tcp rvdap-attach) "rvdap check /a\\ b.s")', "(rvdap-step-back rvdap-reverse-continue)",
              '(:program "%s" :dap-server-path ("rvdap"))' % good, "user-error", '(2 "%s")' % path]
    expect(ran.stdout.decode().splitlines(), wanted, "what Emacs has after it loaded its files: %s" % ran.stderr.decode())


def found_by_vim(words, folder):
    """What is in the quickfix list of an editor after `:make` of a text with an error."""
    with file_of("nop\nj end\n") as path:
        kept = os.path.join(folder, "found")
        shows = "call writefile([json_encode(map(getqflist(), '[bufname(v:val.bufnr), v:val.lnum, v:val.text]'))], '%s')" % kept
        words = words + ["--cmd", "set rtp^=%s" % os.path.join(TOP, "editors", "vim"), "-c", "compiler rvdap", "-c", "silent! make!",
                         "-c", shows, "-c", "qall!", path]
        subprocess.run(words, env=environment(), stdin=subprocess.DEVNULL, capture_output=True, timeout=SECONDS)
        with open(kept, encoding="utf-8") as file:
            expect(json.load(file), [[path, 2, "Undefined: no line defines end"]], "the quickfix list of %s" % words[0])


def can_make(editor):
    said_of = subprocess.run([editor, "--version"], capture_output=True, timeout=SECONDS).stdout.decode()
    return editor == "nvim" or all(word in said_of for word in ("+quickfix", "+eval"))


def vim_and_neovim_load_their_file():
    for editor, words in (("vim", ["-N", "-u", "NONE", "-i", "NONE", "-es"]), ("nvim", ["-u", "NONE", "-i", "NONE", "--headless"])):
        if not shutil.which(editor) or not can_make(editor):
            absent(editor)
            continue
        with tempfile.TemporaryDirectory() as folder:
            found_by_vim([editor, *words], folder)


def neovim_loads_its_configurations():
    if not shutil.which("nvim"):
        return absent("nvim")
    stub = "lua package.preload['dap'] = function() D = {adapters = {}, configurations = {}}; return D end"
    path = os.path.join(TOP, "editors", "neovim", "rvdap.lua")
    ran = subprocess.run(["nvim", "-u", "NONE", "-i", "NONE", "--headless", "-c", stub, "-c", "luafile " + path, "-c",
                          "lua io.stdout:write(vim.fn.json_encode({D.adapters, D.configurations}))", "-c", "qall!"],
                         stdin=subprocess.DEVNULL, capture_output=True, timeout=SECONDS)
    adapters, configurations = json.loads(ran.stdout)
    named = {entry["type"] for entry in configurations["asm"]}
    expect(sorted(named), sorted(adapters), "the adapters that configurations name: %r" % ran.stderr)


# ---- what is written

def blocks(kind):
    """The blocks of one language in docs/EDITORS.md."""
    return [text for name, text in re.findall(r"^```(\w*)\n(.*?)^```$", text_of("docs", "EDITORS.md"), re.M | re.S) if name == kind]


def json_is_json():
    texts = [text_of(os.path.relpath(path, TOP)) for path in glob.glob(os.path.join(TOP, "editors", "kate", "*.json"))] + blocks("json")
    expect(len(texts) > 1, True, "there is JSON in editors/ and in docs/EDITORS.md")
    for text in texts:
        expect(isinstance(json.loads(text), dict), True, "JSON that is an object")


def toml_is_toml():
    try:
        import tomllib
    except ImportError:
        return absent("tomllib (Python 3.11)")
    paths = glob.glob(os.path.join(TOP, "editors", "helix", "*.toml"))
    expect(len(paths), 2, "files for Helix")
    for path in paths:
        debugger = tomllib.loads(text_of(os.path.relpath(path, TOP)))["language"][0]["debugger"]
        expect((debugger["command"], [entry["request"] for entry in debugger["templates"]]), ("rvdap", ["launch", "attach"]), path)
    for text in blocks("toml"):
        tomllib.loads(text)


def what_the_document_quotes_is_in_its_file():
    """A block of Lisp, Vim's language or Lua is quoted of a file, whose comments may have it."""
    files = {"elisp": "editors/emacs/*.el", "vim": "editors/vim/compiler/*.vim", "lua": "editors/neovim/*.lua"}
    expect(bool(blocks("elisp")), True, "docs/EDITORS.md quotes a file for Emacs")
    for kind, places in files.items():
        texts = [text_of(os.path.relpath(path, TOP)) for path in glob.glob(os.path.join(TOP, places))]
        for block in blocks(kind):
            for line in block.splitlines():
                expect(any(line in text for text in texts), True, "%s has the line %s" % (places, line))


def each_file_of_an_editor_is_in_the_document():
    text = text_of("docs", "EDITORS.md")
    for path in glob.glob(os.path.join(TOP, "editors", "**", "*"), recursive=True):
        name = os.path.relpath(path, TOP)
        if os.path.isfile(path) and not name.startswith("editors/vscode/"):
            expect(name in text, True, "docs/EDITORS.md names %s" % name)


# ---- the words that rvdap is given

def words_in(command):
    """The options of a command line, and what follows `rvdap` where that is a word in lower case."""
    return re.findall(r"^rvdap ([a-z]+)\b", command) + re.findall(r"(?<![\w-])--[a-z][a-z-]*", command)


def words_of_files():
    """Each word that a file of editors/ gives to rvdap, where it is an option or a command. What is a comment is read too."""
    for path in glob.glob(os.path.join(TOP, "editors", "*", "**", "*.*"), recursive=True):
        name = os.path.relpath(path, TOP)
        if not name.startswith("editors/vscode/"):
            text = text_of(name)
            yield from ((name, word) for word in re.findall(r"(?<![\w-])--[a-z][a-z-]*", text))
            yield from ((name, word) for word in re.findall(r"(?:[`\"=]rvdap\\? )([a-z]+)", text))


def words_of_the_document():
    commands = re.findall(r"`(rvdap [^`\n]*)`", text_of("docs", "EDITORS.md")) + re.findall(r"^(rvdap .*)$", "".join(blocks("")), re.M)
    expect(len(commands) > 2, True, "docs/EDITORS.md has commands")
    for text in blocks("json"):
        commands += [" ".join(json.loads(command)) for command in re.findall(r'"command": (\[[^]]*\])', text)]
    for command in commands:
        yield from (("docs/EDITORS.md", word) for word in words_in(command))


def each_word_is_one_of_the_help():
    ran = subprocess.run([PROGRAM, "--help"], capture_output=True, timeout=SECONDS, check=True).stdout.decode()
    commands = re.findall(r"^  (\w+)  ", re.search(r"^Commands:\n(.*?)\n\n", ran, re.M | re.S)[1], re.M)
    known = set(commands) | set(re.findall(r"--\w+", re.search(r"^Options:\n(.*?)\n\n", ran, re.M | re.S)[1]))
    found = list(words_of_files()) + list(words_of_the_document())
    for word in ("--listen", "--once", "--program", "check"):
        expect(word in {given for _, given in found}, True, "some configuration has the word %s" % word)
    for name, word in found:
        expect(word in known, True, "%s: rvdap --help lists %s" % (name, word))


def checks():
    found = (emacs_takes_each_error, both_files_for_emacs_run_one_command, both_files_for_emacs_go_back_by_two_requests,
             vim_takes_each_error, emacs_loads_its_files, vim_and_neovim_load_their_file, neovim_loads_its_configurations, json_is_json, toml_is_toml,
             what_the_document_quotes_is_in_its_file, each_file_of_an_editor_is_in_the_document, each_word_is_one_of_the_help)
    return [(check.__name__.replace("_", " "), check) for check in found]
