"""What `make` does where the program is built and `rt` is absent, the packages, the manual page and the completions."""
import contextlib
import functools
import gzip
import hashlib
import io
import os
import re
import shlex
import shutil
import subprocess
import sys
import tarfile
import tempfile
import zipfile
from xml.etree import ElementTree

import test_prove
from support.program import PROGRAM, SECONDS, TOP, expect

EPOCH = 1700000000
COMMANDS = ("run", "debug", "check", "labels", "convert", "asm", "watch", "replay")
COMPLETIONS = {"bash": "rvdap.bash", "zsh": "_rvdap", "fish": "rvdap.fish"}
# What `make run` and the packages need of the repository.
PARTS = ("Makefile", "README.md", "CHANGELOG.md", "docs", "editors", "examples", "packaging", "tools")
TAKEN = "make: rt is absent: build/rvdap is taken as it is\n"
# The least C library that the program may need.
GLIBC = (2, 34)


def text_of(*path):
    with open(os.path.join(TOP, *path), encoding="utf-8") as file:
        return file.read()


def said_by(*words, **how):
    return subprocess.run(words, stdout=subprocess.PIPE, text=True, check=True, timeout=SECONDS, **how).stdout


@functools.lru_cache(maxsize=None)
def version():
    return said_by(PROGRAM, "--version").split()[1]


@contextlib.contextmanager
def copied(with_program=True):
    """A copy of the repository, with the program that is built or without, as far as it is needed where there is no kit."""
    with tempfile.TemporaryDirectory() as folder:
        top = os.path.join(folder, "top")
        for name in PARTS:
            source, target = os.path.join(TOP, name), os.path.join(top, name)
            os.makedirs(top, exist_ok=True)
            (shutil.copytree if os.path.isdir(source) else shutil.copy)(source, target)
        if with_program:
            os.mkdir(os.path.join(top, "build"))
            shutil.copy(PROGRAM, os.path.join(top, "build", "rvdap"))
        yield top


def path_without_rt(folder):
    """A folder with the commands that `make` uses here, and no `rt`, for the path."""
    made = os.path.join(folder, "path")
    if not os.path.exists(made):
        os.mkdir(made)
        os.symlink(sys.executable, os.path.join(made, "python3"))
        for name in ("make", "sh", "install", "rm"):
            os.symlink(shutil.which(name), os.path.join(made, name))
    return made


def make(top, *words, path=None, **more):
    """What `make` prints on standard output and standard error, and its status."""
    where = {"PATH": path or path_without_rt(os.path.dirname(top)), "HOME": os.environ.get("HOME", "/"), **more}
    ran = subprocess.run([shutil.which("make"), *words], cwd=top, env=where, stdin=subprocess.DEVNULL, capture_output=True, text=True,
                         timeout=60, check=False)
    return ran.stdout, ran.stderr, ran.returncode


def expect_session(out, what):
    """The session over examples/sort.s, as examples/play explains it: it sorts 30, 10, 40 and 20, but for two words, since it sets a0."""
    lines = [line.strip() for line in out.splitlines()]
    wanted = ["stopped: entry", "stopped: breakpoint 1", "stopped: step", *("printed: %d" % it for it in (10, 20, 40, 30)), "exited with 0"]
    expect([line for line in lines if line.startswith(("stopped", "printed", "exited"))], wanted, what)


def make_run_takes_a_program_that_is_built():
    with copied() as top:
        out, err, status = make(top, "run")
        expect((err, status), (TAKEN, 0), "what make run says, and its status")
        expect_session(out, "what make run prints")


def without_rt_and_program_make_says_what_is_absent():
    with copied(with_program=False) as top:
        for target in ("run", "install", "dist"):
            _, err, status = make(top, target)
            said = "make: rt is absent, and so is build/rvdap: docs/INSTALL.md says how to get one of them"
            expect((err.splitlines()[0], status), (said, 2), "make %s" % target)
        for target in ("build", "test"):
            out, err, status = make(top, target)
            is_told = err.startswith("make: rt is absent: put the bin folder")
            expect((out, is_told, status), ("", True, 2), "make %s" % target)


def make_build_proves_and_keeps_the_program():
    with test_prove.repository() as top:
        shutil.copy(os.path.join(TOP, "Makefile"), top)
        where = {name: value for name, value in test_prove.environment(top).items() if "MAKE" not in name}
        out, err, status = make(top, "build", path=where.pop("PATH"), **where)
        expect((err, status, "[ 5/5] rvdap" in out), ("", 0, True), "make build, which prints %s" % out)
        expect(test_prove.text_of(top, "build", "rvdap"), "program", "the program")
        expect(make(top, "clean")[2], 0, "the status of make clean")
        left = [os.path.join(place, name) for place, folders, _ in os.walk(top) for name in folders if name in ("build", "out")]
        expect(left, [], "what make clean leaves")


def make_test_runs_the_tests():
    with test_prove.repository() as top:
        shutil.copy(os.path.join(TOP, "Makefile"), top)
        os.mkdir(os.path.join(top, "tests"))
        with open(os.path.join(top, "tests", "run"), "w", encoding="ascii") as file:
            file.write("#!/bin/sh\nls build\n")
        os.chmod(os.path.join(top, "tests", "run"), 0o755)
        os.makedirs(os.path.join(top, "build", "prove", "1"))
        out, _, status = make(top, "test", path=test_prove.environment(top)["PATH"])
        expect((out, status), ("tests/run\nprove.lock\n", 0), "make test, where copies were left")


def files_below(root):
    return sorted(os.path.relpath(os.path.join(place, name), root) for place, _, names in os.walk(root) for name in names)


def table_of_places():
    """The places below PREFIX, by docs/INSTALL.md."""
    section = text_of("docs", "INSTALL.md").partition("## What is where")[2]
    return re.findall(r"^\| `([\w/.-]+)` \|", section, re.M)


def make_install_installs_what_is_documented():
    with copied() as top:
        root = os.path.join(os.path.dirname(top), "root")
        _, err, status = make(top, "install", "DESTDIR=" + root, "PREFIX=/opt")
        expect((err, status), (TAKEN, 0), "what make install says, and its status")
        below = os.path.join(root, "opt")
        expect(files_below(root), ["opt/" + place for place in sorted(table_of_places())], "what is installed")
        expect(said_by(os.path.join(below, "bin", "rvdap"), "--version"), "rvdap %s\n" % version(), "the installed program")
        [removal] = re.findall(r"^```\n(cd /usr/local && .*?)^```", text_of("docs", "INSTALL.md"), re.M | re.S)
        subprocess.run(removal.replace("/usr/local", shlex.quote(below)), shell=True, check=True)
        expect(files_below(root), [], "what is left after the removal of docs/INSTALL.md")


@functools.lru_cache(maxsize=None)
def packages(number=1):
    """The packages by name, as a copy of the repository makes them; a number for each time that they are made."""
    with copied() as top:
        for place, _, names in os.walk(top):
            for name in names:
                os.utime(os.path.join(place, name), (number, number))
        _, err, status = make(top, "dist", SOURCE_DATE_EPOCH=str(EPOCH))
        expect((err, status), (TAKEN, 0), "what make dist says, and its status")
        made = {}
        for name in os.listdir(os.path.join(top, "build", "dist")):
            with open(os.path.join(top, "build", "dist", name), "rb") as file:
                made[name] = file.read()
        return made


def names_of_packages():
    return ["rvdap-%s-linux-x86-64.tar.gz" % version(), "rvdap_%s_amd64.deb" % version(), "rvdap-%s.vsix" % version()]


def packages_are_the_same_each_time():
    first, second = packages(), packages(2)
    expect(sorted(first), sorted(names_of_packages()), "the packages")
    expect([name for name in first if first[name] != second[name]], [], "packages that differ")


def a_time_has_to_be_known():
    with copied() as top:
        _, err, status = make(top, "dist")
        expect(("SOURCE_DATE_EPOCH is not set" in err, status), (True, 2), "make dist without git, which says %s" % err)


def members_of_ar(data):
    """The members of an ar file by name, in their order."""
    expect(data[:8], b"!<arch>\n", "how an ar file begins")
    found, place = {}, 8
    while place < len(data):
        name, size, end = data[place:place + 16].decode().strip(), int(data[place + 48:place + 58]), data[place + 58:place + 60]
        expect(end, b"`\n", "how the header of %s ends" % name)
        found[name] = data[place + 60:place + 60 + size]
        place += 60 + size + size % 2
    return found


def unpack(data, root, has_folders=True):
    """Unpacks a tar file, whose members are root's and of the one time, with its folders or without, and answers its files by path."""
    with tarfile.open(fileobj=io.BytesIO(data)) as tar:
        expect(any(it.isdir() for it in tar.getmembers()), has_folders, "whether folders are in it")
        for it in tar.getmembers():
            wanted = (0, 0, EPOCH, 0o755 if it.isdir() or it.mode & 0o100 else 0o644, True)
            expect((it.uid, it.gid, it.mtime, it.mode, it.isdir() or it.isfile()), wanted, "the owner, time, mode and kind of %s" % it.name)
            expect(".." in it.name.split("/") or it.name.startswith("/"), False, "a path that leads away: %s" % it.name)
        tar.extractall(root)
    return files_below(root)


def expect_debugs(root, documents, program):
    """Debugs an example of the package with its program, by its player of sessions."""
    player = [sys.executable, os.path.join(root, documents, "examples", "play"), "--explained", "examples/sorting.session"]
    said = said_by(*player, os.path.join(root, program), cwd=os.path.join(root, documents))
    expect_session(said, "a session with the program of the package")


def documents_of(top):
    """What belongs to the documents of a package, by the files of the repository."""
    found = [name for name in ("README.md", "CHANGELOG.md")]
    for folder in ("docs", "editors", "examples"):
        found += [os.path.join(folder, name) for name in files_below(os.path.join(top, folder)) if "__pycache__" not in name]
    return sorted([*found, "editors/vscode/rvdap-%s.vsix" % version()])


def the_tar_file_unpacks_and_debugs():
    with tempfile.TemporaryDirectory() as root:
        name = "rvdap-%s-linux-x86-64" % version()
        # It has no folders, so that those of ~/.local keep their modes.
        found = unpack(packages()[name + ".tar.gz"], root, has_folders=False)
        wanted = [*table_of_places(), *("share/doc/rvdap/" + path for path in documents_of(TOP))]
        expect(found, sorted(name + "/" + path for path in wanted), "the files")
        expect_debugs(os.path.join(root, name), "share/doc/rvdap", "bin/rvdap")


def the_document_installs_the_tar_file():
    text = text_of("docs", "INSTALL.md")
    expect([name for name in names_of_packages() if "`%s`" % name not in text], [], "packages that docs/INSTALL.md does not name")
    [command] = re.findall(r"\| `(mkdir .*?)` \|", text)
    with tempfile.TemporaryDirectory() as home:
        name = names_of_packages()[0]
        with open(os.path.join(home, name), "wb") as file:
            file.write(packages()[name])
        said_by("sh", "-c", command, cwd=home, env={**os.environ, "HOME": home})
        expect(said_by(os.path.join(home, ".local", "bin", "rvdap"), "--version"), "rvdap %s\n" % version(), "the program in ~/.local")


def debian_places():
    """Where Debian has what is installed."""
    for place in table_of_places():
        place = place.replace("zsh/site-functions", "zsh/vendor-completions")
        yield "usr/" + place + (".gz" if place.startswith("share/man/") else "")


def the_debian_package_unpacks_and_debugs():
    members = members_of_ar(packages()[names_of_packages()[1]])
    expect(list(members), ["debian-binary", "control.tar.gz", "data.tar.gz"], "the parts of the package")
    expect(members["debian-binary"], b"2.0\n", "the version of its form")
    with tempfile.TemporaryDirectory() as root:
        found = unpack(members["data.tar.gz"], root)
        wanted = [*debian_places(), "usr/share/doc/rvdap/copyright", *("usr/share/doc/rvdap/" + path for path in documents_of(TOP))]
        expect(found, sorted(wanted), "the files")
        expect_debugs(root, "usr/share/doc/rvdap", "usr/bin/rvdap")
        with gzip.open(os.path.join(root, "usr/share/man/man1/rvdap.1.gz"), "rt", encoding="utf-8") as page:
            expect(page.read(), text_of("packaging", "rvdap.1"), "the manual page")
        with open(os.path.join(root, "usr/share/doc/rvdap/copyright"), encoding="utf-8") as file:
            expect("No licence has been chosen" in file.read(), True, "the file copyright")
        expect_control(members["control.tar.gz"], root, found)


def expect_control(data, root, files):
    """The description of the package, and the sums of its files."""
    with tempfile.TemporaryDirectory() as folder:
        expect(unpack(data, folder, has_folders=False), ["control", "md5sums"], "what describes the package")
        with open(os.path.join(folder, "control"), encoding="utf-8") as file:
            fields = dict(re.findall(r"^(\S+): (.*)$", file.read(), re.M))
        wanted = {"Package": "rvdap", "Version": version(), "Architecture": "amd64", "Depends": "libc6 (>= %d.%d)" % GLIBC}
        expect({name: fields[name] for name in wanted}, wanted, "the fields")
        with open(os.path.join(folder, "md5sums"), encoding="utf-8") as file:
            sums = dict(reversed(line.split("  ", 1)) for line in file.read().splitlines())
    for path in files:
        with open(os.path.join(root, path), "rb") as file:
            expect(sums[path], hashlib.md5(file.read()).hexdigest(), "the sum of %s" % path)


def dpkg_reads_the_package():
    if not shutil.which("dpkg-deb"):
        print("left out: dpkg-deb reads the Debian package, since there is none here")
        return
    with tempfile.TemporaryDirectory() as folder:
        path, root = os.path.join(folder, "rvdap.deb"), os.path.join(folder, "root")
        with open(path, "wb") as file:
            file.write(packages()[names_of_packages()[1]])
        said = said_by("dpkg-deb", "--show", "--showformat=${Package} ${Version} ${Architecture}", path)
        expect(said, "rvdap %s amd64" % version(), "what it is")
        said_by("dpkg-deb", "-x", path, root)
        expect_debugs(root, "usr/share/doc/rvdap", "usr/bin/rvdap")


def the_extension_is_packed_whole():
    with zipfile.ZipFile(io.BytesIO(packages()[names_of_packages()[2]])) as file:
        expect(file.testzip(), None, "a file that is broken")
        packed = {name: file.read(name) for name in file.namelist()}
    manifest = ElementTree.fromstring(packed.pop("extension.vsixmanifest"))
    types = ElementTree.fromstring(packed.pop("[Content_Types].xml"))
    folder = os.path.join(TOP, "editors", "vscode")
    expect(sorted(packed), ["extension/" + name for name in files_below(folder)], "the files")
    for name, data in packed.items():
        with open(os.path.join(folder, name.removeprefix("extension/")), "rb") as file:
            expect(data, file.read(), name)
    space = "{http://schemas.microsoft.com/developer/vsx-schema/2011}"
    identity = manifest.find(space + "Metadata/" + space + "Identity").attrib
    expect(identity, {"Language": "en-US", "Id": "rvdap", "Version": version(), "Publisher": "rvdap"}, "who it is")
    assets = [it.attrib["Path"] for it in manifest.iter(space + "Asset")]
    expect([path for path in assets if path not in packed], [], "files that the list names, and that are not there")
    endings = {it.attrib["Extension"] for it in types}
    expect({os.path.splitext(name)[1] for name in packed} - endings, set(), "endings without a type")


def the_program_needs_libc_alone():
    said = said_by("objdump", "-p", PROGRAM)
    expect(re.findall(r"^ +NEEDED +(\S+)$", said, re.M), ["libc.so.6"], "the libraries that the program needs")
    versions = sorted(tuple(map(int, it.split("."))) for it in re.findall(r" GLIBC_([\d.]+)$", said, re.M))
    expect(bool(versions) and versions[-1] <= GLIBC, True, "the C library that it needs, of %s" % versions)


def the_document_names_the_c_library():
    named = re.findall(r"glibc (\d+)\.(\d+) or later", text_of("docs", "INSTALL.md"))
    expect([(int(one), int(other)) for one, other in named], [GLIBC], "the C library in docs/INSTALL.md")


def words_of_help(*words):
    """The options and commands that --help lists, or those of a command."""
    said = said_by(PROGRAM, *words, "--help")
    commands = re.findall(r"^  (\w+)  ", said.partition("Commands:\n")[2].partition("\n\n")[0], re.M)
    options = re.findall(r"(?<![\w-])--?\w[\w-]*", said.partition("Options:\n")[2].partition("\n\n")[0])
    return {*commands, *options}


def usage_of(*words):
    """The ways that --help lists, or that of a command, a line for each."""
    usage = said_by(PROGRAM, *words, "--help").partition("Usage: ")[2].partition("\n\n")[0]
    return re.sub(r"\n +\[", " [", usage).splitlines()


def words_of_commands():
    """The options of all commands."""
    return set().union(*(words_of_help(command) for command in COMMANDS))


def manual_page():
    return text_of("packaging", "rvdap.1").replace("\\-", "-")


def titles_of(section):
    """What each paragraph of a section of the manual page begins with."""
    text = re.search(r'^\.SH %s\n(.*?)(?=^\.SH|\Z)' % section, manual_page(), re.M | re.S)[1]
    return [re.sub(r'^\.\w+ |\\f.|"', "", line) for line in re.findall(r"^\.TP\n(.*)$", text, re.M)]


def the_manual_page_has_the_words_of_help():
    options = {word for title in titles_of("OPTIONS") for word in re.findall(r"--?\w[\w-]*", title)}
    commands = {title.split()[0] for title in titles_of("COMMANDS") if title[0] != "-"}
    expect(options | commands, words_of_help(), "options and commands")
    others = {word for title in titles_of("COMMANDS") for word in re.findall(r"--?\w[\w-]*", title)}
    expect(others, words_of_commands() - words_of_help(), "options of commands alone")
    used = set(re.findall(r"(?<![\w-])--\w[\w-]*", manual_page()))
    expect(used - words_of_help() - words_of_commands(), set(), "options that are named anywhere")
    errors = set(re.findall(r"^  ([A-Z]\w+)  ", said_by(PROGRAM, "asm", "--help").partition("Errors")[2], re.M))
    expect(set(titles_of("ERRORS")), errors, "errors of the assembler")
    events = said_by(PROGRAM, "watch", "--help").partition("the last says what is watched:\n")[2].partition("\n\n")[0]
    expect({title.split()[0] for title in titles_of("SCRIPTS")}, set(re.findall(r"^  (\w+)", events, re.M)), "events of a script")
    expect(re.search(r'^\.TH RVDAP 1 \S+ "(.*?)"', manual_page())[1], "rvdap " + version(), "the version")
    synopsis = re.search(r"^\.SH SYNOPSIS\n(.*?)^\.SH", manual_page(), re.M | re.S)[1]
    ways = [word or "[" + option for word, option in re.findall(r"^\.B rvdap(?: (\S+))?\n(?:\.RB \[ (\S+))?", synopsis, re.M)]
    expect(ways, [line.split()[1] for line in usage_of()], "the ways to use it")
    for command in COMMANDS:
        [usage] = usage_of(command)
        [way] = re.findall(r"^\.B rvdap %s\n(.*?)(?=^\.br|\Z)" % command, synopsis, re.M | re.S)
        way = re.sub(r"^\.\w+ ", "", way, flags=re.M)
        expect(re.findall(r"[\w.-]*\w", way), re.findall(r"[\w.-]*\w", usage.removeprefix("rvdap %s " % command)), "the way to use " + command)


def the_manual_page_is_one():
    if not shutil.which("mandoc"):
        print("left out: mandoc reads the manual page, since there is none here")
        return
    words = ["mandoc", "-T", "lint", "-W", "warning", os.path.join(TOP, "packaging", "rvdap.1")]
    ran = subprocess.run(words, capture_output=True, text=True, check=False)
    expect((ran.stdout, ran.returncode), ("", 0), "what mandoc warns of")


def completed_by_bash(*words):
    """What bash offers in place of the last of these words. A folder has the program a.s, the file b.txt and the folder c."""
    script = 'source "$1"; shift; COMP_WORDS=("$@"); COMP_CWORD=$(($# - 1)); _rvdap; printf "%s\\n" "${COMPREPLY[@]}"'
    with tempfile.TemporaryDirectory() as folder:
        for name in ("a.s", "b.txt"):
            with open(os.path.join(folder, name), "w", encoding="ascii"):
                pass
        os.mkdir(os.path.join(folder, "c"))
        file = os.path.join(TOP, "packaging", "completions", "rvdap.bash")
        said = said_by("bash", "--norc", "-c", script, "bash", file, "rvdap", *words, cwd=folder)
    return set(said.split())


def bash_completes_the_words_of_help():
    expect(completed_by_bash(""), words_of_help(), "the first word")
    expect(completed_by_bash("--l"), {"--listen"}, "a word that has begun")
    expect(completed_by_bash("--listen", "127.0.0.1:1", ""), {"--memory", "--listen", "--program", "--once", "--verbose", "--record"}, "after an option")
    for command in COMMANDS:
        expect(completed_by_bash(command, "-"), words_of_help(command), "options after " + command)
        expect(completed_by_bash(command), {command}, "the command " + command)
    for words, files in {"asm": "a.s c", "--program": "a.s c", "watch": "a.s b.txt c", "asm a.s": "", "run": "a.s c", "run --count": "a.s c", "run a.s": "a.s c",
                         "debug": "a.s c", "debug -x": "a.s b.txt c", "debug -x b.txt": "a.s c", "debug a.s": "",
                         "run --limit 7": "a.s c", "run --trace 7 a.s": "a.s c", "labels --json": "a.s c", "labels a.s": "", "check": "a.s c", "check a.s": "a.s c",
                         "check --json a.s b.s": "a.s c"}.items():
        expect(completed_by_bash(*words.split(), ""), set(files.split()), "files after " + words)
    expect(completed_by_bash("run", "a.s", "--m"), {"--memory"}, "an option after a file")
    expect(completed_by_bash("--listen", ""), {"127.0.0.1:4711"}, "an address")
    sizes = sorted(map(int, completed_by_bash("--memory", "")))
    expect([size for size in sizes if size % 4 or not 4 <= size <= 16384], [], "sizes of memory that are none")


def zsh_and_fish_have_the_words_of_help():
    zsh, fish = text_of("packaging", "completions", "_rvdap"), text_of("packaging", "completions", "rvdap.fish")
    top, rest = zsh.split("case $words[1] in\n")
    expect(options_for_zsh(top) | set(re.findall(r"(\w+)\\:\"", top)), words_of_help(), "zsh")
    for command, lines in re.findall(r"^  (\w+)\) (.*?);;", rest, re.M | re.S):
        expect(options_for_zsh(lines), words_of_help(command), "zsh, after " + command)
    expect(re.findall(r"^  (\w+)\) ", rest, re.M), list(COMMANDS), "commands that zsh completes after")
    found = {"--" + word for word in re.findall(r" -l ([\w-]+)", fish)} | {"-" + word for word in re.findall(r" -s (\w)", fish)}
    expect(found | set(re.findall(r" -a (\w+) ", fish)), words_of_help() | words_of_commands(), "fish")


def options_for_zsh(lines):
    return {*re.findall(r"^ +'(--[\w-]+)\[", lines, re.M), *(word for pair in re.findall(r"\{(-\w),(--\w+)\}", lines) for word in pair)}


def fish_completes_the_words_of_help():
    if not shutil.which("fish"):
        print("left out: fish completes the words of --help, since there is none here")
        return
    file = os.path.join(TOP, "packaging", "completions", "rvdap.fish")
    script, offered = "source $argv[1]; complete -C $argv[2]", {}
    for line in ("rvdap ", "rvdap -", *("rvdap %s -" % command for command in COMMANDS)):
        said = said_by("fish", "--no-config", "-c", script, file, line)
        offered[line] = {it.split("\t")[0] for it in said.splitlines()}
    expect(offered["rvdap "] | offered["rvdap -"], words_of_help(), "the first word")
    for command in COMMANDS:
        expect(offered["rvdap %s -" % command], words_of_help(command), "options after " + command)


def each_shell_reads_its_completions():
    for shell, name in COMPLETIONS.items():
        if not shutil.which(shell):
            print("left out: whether %s reads its completions, since there is none here" % shell)
            continue
        words = [shell, "-n", os.path.join(TOP, "packaging", "completions", name)]
        ran = subprocess.run(words, capture_output=True, text=True, check=False)
        expect((ran.stderr, ran.returncode), ("", 0), shell)


def checks():
    return [("packages: " + check.__name__.replace("_", " "), check) for check in (
        make_run_takes_a_program_that_is_built, without_rt_and_program_make_says_what_is_absent,
        make_build_proves_and_keeps_the_program, make_test_runs_the_tests, make_install_installs_what_is_documented,
        packages_are_the_same_each_time, a_time_has_to_be_known, the_tar_file_unpacks_and_debugs,
        the_document_installs_the_tar_file, the_debian_package_unpacks_and_debugs, dpkg_reads_the_package,
        the_extension_is_packed_whole, the_program_needs_libc_alone, the_document_names_the_c_library,
        the_manual_page_has_the_words_of_help, the_manual_page_is_one, bash_completes_the_words_of_help,
        zsh_and_fish_have_the_words_of_help, fish_completes_the_words_of_help, each_shell_reads_its_completions)]
