"""The documents, held against the repository and the built program: links, paths, crates, clauses, laws and transcripts."""
import glob
import os
import re
import subprocess

from support import ample
from support.players import tables
from support.program import TOP, expect

SPAN = re.compile(r"`([^`\n]+)`")
FOLDERS = ("bench", "crates", "docs", "editors", "examples", "tests")
# The sentence that is proved, word for word.
HEADLINE = (
    "For every list of events (requests cut anywhere, repeated or cancelled, slices, bytes taken, drops, connections, restarts), an editor's mirror, fed "
    "any prefix of the bytes of its connection, holds only facts that were true of the machine when the last whole message in that prefix was queued, "
    "and a reference is answered only in the stop and on the connection that issued it.")
# Folders of a crate, whose paths may be given without the crate, and without the ending of a definition's file.
PARTS = ("specs", "src", "proofs")


def text_of(*path):
    with open(os.path.join(TOP, *path), encoding="utf-8") as file:
        return file.read()


def documents():
    """The documents by name, without their blocks of code."""
    paths = [path for folder in ("", "docs", "bench") for path in sorted(glob.glob(os.path.join(TOP, folder, "*.md")))]
    names = [os.path.relpath(path, TOP) for path in paths]
    return {name: re.sub(r"^```.*?^```$", "", text_of(name), flags=re.M | re.S) for name in names}


def anchors_of(name):
    """What a link may name in a document: its headings, as a forge makes anchors of them."""
    titles = re.findall(r"^#+ (.*)$", text_of(name), re.M)
    return {re.sub(r"[^\w -]", "", title.lower()).replace(" ", "-") for title in titles}


def links_lead_to_what_is_there():
    for name, text in documents().items():
        for link in re.findall(r"\]\(([^)\s]+)\)", text):
            path, _, anchor = link.partition("#")
            if "://" in path:
                continue
            target = os.path.normpath(os.path.join(os.path.dirname(name), path)) if path else name
            expect(os.path.exists(os.path.join(TOP, target)), True, "%s: the file of the link %s" % (name, link))
            if anchor:
                expect(anchor in anchors_of(target), True, "%s: the heading of the link %s" % (name, link))


def the_headline_is_one_sentence():
    """It stands word for word in README, where it is led through, and above its law."""
    quoted = {name: [" ".join(re.sub(r"^> ?", "", block, flags=re.M).split()) for block in re.findall(r"(?:^>.*\n)+", text_of(*name.split("/")), re.M)]
              for name in ("README.md", "docs/HEADLINE.md")}
    for name, blocks in quoted.items():
        expect(blocks.count(HEADLINE), 1, "%s: the headline" % name)
    laws = text_of("crates", "session_laws", "src", "laws.rt")
    above = re.search(r"((?:^///.*\n)+)pub fn what_an_editor_concludes_was_true\(\)", laws, re.M)
    expect(" ".join(re.sub(r"^/// ?", "", above[1], flags=re.M).split()), HEADLINE, "the headline above its law")


def alternatives(path):
    """The paths that one with a list in braces stands for."""
    listed = re.match(r"(.*)\{(.*)\}(.*)$", path)
    return [listed[1] + word + listed[3] for word in listed[2].split(",")] if listed else [path]


def places_of(span):
    """Where a span that is a path may lie, as patterns of names, or nothing where it is none."""
    if "/" not in span or not re.fullmatch(r"[\w.*{},/-]+", span):
        return []
    pattern = re.sub(r"\b(test_)?(NAME|Name|CRATE)\b", "*", span)
    first, second = pattern.split("/")[:2]
    if first in FOLDERS:
        return [pattern]
    if first not in PARTS and second not in PARTS:
        return []
    pattern = "/".join(["crates", "*", pattern] if first in PARTS else ["crates", pattern])
    return [pattern, pattern + ".antt"]


def spans_of(text):
    """Each code span, a path for each name in braces. In a table a bare name after a path lies in the same folder."""
    for line in text.splitlines():
        for cell in line.split("|") if line.startswith("|") else [line]:
            folder = None
            for span in SPAN.findall(cell):
                if line.startswith("|") and folder and re.fullmatch(r"[\w.]+", span):
                    span = folder + "/" + span
                folder = os.path.dirname(span) if "/" in span and places_of(span) else None
                yield from alternatives(span)


def paths_that_are_named_are_there():
    for name, text in documents().items():
        for span in spans_of(text):
            places = places_of(span)
            if places:
                found = any(glob.glob(os.path.join(TOP, place)) for place in places)
                expect(found, True, "%s: the path %s" % (name, span))


def groups_of_crates():
    """The headings of crates.txt, each with its crates, each of these with the crates that it stands on."""
    groups = []
    for line in text_of("crates.txt").splitlines():
        crate, colon, others = line.partition(":")
        if line.startswith("# ") and not line.endswith("."):
            groups.append((line[2:], {}))
        elif colon and not line.startswith("#"):
            groups[-1][1][crate] = others.split()
    return groups


def section_of(name, title):
    return text_of(name).partition("\n## %s\n" % title)[2].partition("\n## ")[0]


def all_crates():
    return [crate for _, crates in groups_of_crates() for crate in crates]


def crates_txt_has_each_crate():
    expect(len(groups_of_crates()), 9, "crates.txt: its headings")
    expect(sorted(all_crates()), sorted(os.listdir(os.path.join(TOP, "crates"))), "crates.txt")


def the_map_has_the_crates_in_their_order():
    found = []
    table = section_of("docs/ARCHITECTURE.md", "Crates").partition("\n| Folder")[0]
    for title, crate in re.findall(r"^\| (?:\*\*(.+?)\*\*|`(\w+)`) \|", table, re.M):
        if title:
            found.append((title, []))
        else:
            found[-1][1].append(crate)
    expect(found, [(title, list(crates)) for title, crates in groups_of_crates()], "ARCHITECTURE: the crates")


def by_crate():
    """The rows of the table of crates in DEFINITIONS, each with the crates that it names."""
    rows = re.findall(r"^\| (`.*?`) \| (.*) \|$", section_of("docs/DEFINITIONS.md", "By crate"), re.M)
    return [(SPAN.findall(names), text) for names, text in rows]


def the_table_of_crates_has_each_once():
    expect(sorted(name for names, _ in by_crate() for name in names), sorted(all_crates()), "DEFINITIONS: the crates")


def the_picture_has_each_crate_above_those_it_stands_on():
    """The picture of the layers: each crate under its heading, and on a line above those that it stands on, but for those with a star."""
    picture = text_of("docs/ARCHITECTURE.md").split("```")[1]
    found, line_of, starred = [], {}, set()
    for number, line in enumerate(picture.splitlines()):
        title, names = line[:23].strip(), line[23:].split()
        if title:
            found.append((title, []))
        for name in names:
            line_of[name.strip("*")] = number
            found[-1][1].append(name.strip("*"))
        starred.update(name.strip("*") for name in names if name.endswith("*"))
    groups = groups_of_crates()[:7]
    expect({title: sorted(names) for title, names in found}, {title: sorted(crates) for title, crates in groups}, "the picture: its crates")
    stands_on = {crate: others for _, crates in groups for crate, others in crates.items()}
    wrong = [(crate, other) for crate, others in stands_on.items() for other in others
             if other in line_of and other not in starred and line_of[other] <= line_of[crate]]
    expect(wrong, [], "the picture: crates that stand on one that is not on a lower line")
    lowest = [(crate, other) for crate in sorted(starred) for other in stands_on[crate] if other in line_of]
    expect(lowest, [], "the picture: crates with a star that stand on others")


def one_name(path):
    """The name of a file of definitions or of code, so that those of one rule are equal."""
    words = re.sub(r"(?<!^)([A-Z])", r"_\1", path.split("/")[-1].removesuffix(".rt")).lower()
    return words.rstrip("_").removesuffix("s")


def each_rule_of_the_map_has_names_that_differ():
    rows = re.findall(r"^\| (.+) \| (`.+`) \| (`.+`) \|$", section_of("docs/ARCHITECTURE.md", "Rooms of a rule"), re.M)
    expect(len(rows) > 40, True, "rules have rows")
    names = {rule: [{one_name(span) for span in SPAN.findall(cell)} for cell in cells] for rule, *cells in rows}
    expect([rule for rule, (definition, code) in names.items() if definition == code], [], "ARCHITECTURE: rules that need no row")
    crates = [SPAN.findall(definition)[0].split("/")[0] for _, definition, _ in rows]
    expect(crates, sorted(crates, key=all_crates().index), "ARCHITECTURE: the rules are in the order of the crates")


def sources(crate):
    return sorted(glob.glob(os.path.join(TOP, "crates", crate, "src", "**", "*.rt"), recursive=True))


def heads_in(path):
    """The public functions of a file, each with its type, which may be empty, its name, its signature and its clauses."""
    owner = ""
    for impl, inner, name, head in re.findall(
            r"^impl(?:<[^\n]*>)? (?:[^\n]* for )?(\w+)|^( *)pub (?:const )?fn (\w+)(.*?)(?=^ *\{| \{$)", text_of(path), re.M | re.S):
        owner = impl or owner
        if name:
            signature, *clauses = re.split(r"^ *(?=ensures|requires)", head, flags=re.M)
            yield owner if inner else "", name, signature, clauses


def heads(crate):
    """The public functions of a crate, those of a type with its name, each with its signature and its clauses."""
    for path in sources(crate):
        for owner, name, signature, clauses in heads_in(path):
            yield (owner + "::" if owner else "") + name, signature, clauses


def is_offered(crate, path, name):
    """Whether a crate offers a name of one of its files."""
    library = os.path.join(TOP, "crates", crate, "src", "lib.rt")
    offers = text_of(library) if os.path.exists(library) else ""
    module = os.path.splitext(os.path.basename(path))[0]
    return f"pub mod {module};" in offers or any(name in re.findall(r"\w+", listed) for listed in re.findall(r"^pub use ([^;]*);", offers, re.M))


def private_names(path):
    """By what names a file of code cites what stands in specs/Private."""
    cited = re.findall(r"^ *ghost use Rattle\.\w+\.specs\.Private\.\w+(?:\.\{([^}]*)\}| as (\w+));", text_of(path), re.M)
    return {item.split()[-1] for listed, alias in cited for item in (alias or listed).split(",") if item.strip()}


def what_private_clauses_cite_stands_apart():
    """No clause of a function that a crate offers cites what stands in specs/Private, and no definition outside it."""
    apart = 0
    for path in sorted(glob.glob(os.path.join(TOP, "crates", "*", "specs", "**", "*.antt"), recursive=True)):
        if "/Private/" in path:
            apart += 1
        else:
            expect(re.findall(r"^(?:pub )?use .*\.specs\.Private\b.*", text_of(path), re.M), [], "%s: what it cites of specs/Private" % path)
    expect(apart > 20, True, "definitions stand in specs/Private")
    for crate in all_crates():
        for path in sources(crate):
            names = private_names(path)
            for owner, function, _, clauses in heads_in(path) if names else ():
                cited = names & set(re.findall(r"\w+", " ".join(clauses)))
                expect(bool(cited) and is_offered(crate, path, owner or function), False, "%s: %s cites %s" % (path, function, ", ".join(sorted(cited))))


def each_clause_stands_in_the_ledger():
    """Each function and each clause of it, and with each definition what it says."""
    for crate in all_crates():
        printed = subprocess.run([os.path.join(TOP, "tools", "ledger"), crate], capture_output=True, text=True, timeout=60, check=True).stdout
        rows = re.findall(r"^\| (?:`(?:\w+::)?(\w+)`)? \| ([\w –]*) \| (?:`(.*)`)? \| (.*) \|$", printed, re.M)
        expect(len(rows), len(printed.splitlines()) - 5, "the ledger of %s: its rows" % crate)
        found = {(function, clause) for function, clause, _, _ in rows}
        for function, _, clauses in heads(crate):
            named = re.findall(r"^ensures\*? (\w+) \{", "\n".join(clauses), re.M)
            absent = [clause for clause in named if (function.split("::")[-1], clause) not in found]
            expect(absent, [], "the ledger: clauses of %s of %s" % (function, crate))
        expect([definition for _, _, definition, says in rows if definition and not says.strip()], [], "the ledger of %s: definitions without a comment" % crate)


# Calls of which a clause says that they never answer that there is no memory, though their types could.
NEVER_LACK = {"Memory::half", "Memory::word", "Memory::word_bytes", "Memory::read", "Session::connect", "Session::sent", "Session::drop_connection"}


def calls_that_may_lack_memory_are_listed():
    """All of the libraries but those of `message_parts`, which are named as one: by the types of what they answer."""
    crates = [crate for crate in all_crates() if not crate.startswith(("test", "bench")) and crate != "message_parts"]
    enums = [found for crate in crates for path in sources(crate) for found in re.findall(r"^pub enum (\w+)[^{]*\{(.*?)^\}", text_of(path), re.M | re.S)]
    errors = {name for name, variants in enums if re.search(r"^ *NoMemory\b", variants, re.M)} | {"AllocError", "AsmError"}
    may_lack = {name for crate in crates for name, signature, _ in heads(crate) if errors & set(re.findall(r"\w+", signature.rpartition("->")[2]))}
    listed = {name.split(" ")[0].split("::")[-1] for names in [*ample.ROWS, *ample.WITHIN] for name in names.split(", ")}
    expect(len(may_lack) > 80, True, "calls may lack memory")
    expect(sorted(name for name in may_lack - NEVER_LACK if name.split("::")[-1] not in listed), [], "tests/support/ample.py: calls that may lack memory")


def is_defined(crate, file, name):
    path = os.path.join(TOP, "crates", crate, "specs", file + ".antt")
    kinds = r"(?:(?:abbrev|record|data|unfoldable) )*"
    return os.path.exists(path) and re.search(r"^ *%spub %s%s\b" % (kinds, kinds, name), text_of(path), re.M) is not None


def expect_defined(crate, file, name):
    expect(is_defined(crate, file, name), True, "DEFINITIONS: %s.%s of %s" % (file, name, crate))


def each_definition_of_the_table_of_crates_is_in_its_file():
    for crates, text in by_crate():
        for file, name in re.findall(r"`([A-Z]\w+)\.(\w+)`", text):
            expect(any(is_defined(crate, file, name) for crate in crates), True, "DEFINITIONS: %s.%s" % (file, name))


def rows_of_requests(name):
    """The rows of the table of requests in a document."""
    return re.search(r"^\| Request .*\n\|.*\n((?:\|.*\n)+)", text_of(name), re.M)[1].splitlines()


def files_that_name_requests():
    """The files of crates that name a command, or the body of its success, but for the rooms of that request."""
    commands = re.findall(r"^ +Command::(\w+)(?:\(_\))? => (\w+)::NAME,$", text_of("crates/protocol/src/command.rt"), re.M)
    found = set()
    for path in [path for part in PARTS for path in glob.glob(os.path.join(TOP, "crates", "*", part, "**", "*.*"), recursive=True)]:
        path = os.path.relpath(path, os.path.join(TOP, "crates"))
        text = re.sub(r"(//|--).*", "", text_of("crates", path))
        imported = " ".join(re.findall(r"\.(?:Command|ResponseBody)\.TheVariants\.\{(.*?)\}", text))
        named = set(re.findall(r"\b(?:Command::|ResponseBody::|command\.|body\.|kind\.)(\w+)", text)) | set(re.findall(r"\w+", imported))
        rooms = {part.removeprefix("Lawful").rstrip("_") for part in re.split(r"[/.]", path)}
        if any(name in named and not {name, module.rstrip("_")} & rooms for name, module in commands):
            found.add(path)
    return found


def places(name):
    """The files that tools/places prints, each with its lines: none where the file is the request's own."""
    ran = subprocess.run([os.path.join(TOP, "tools", "places"), name], capture_output=True, text=True, timeout=60, check=True)
    return {path: lines.split("\n    ")[1:] for path, lines in re.findall(r"^(\S+)((?:\n    .*)*)", ran.stdout, re.M)}


def the_places_of_requests_are_found():
    """Each file that names a request is one of those that tools/places prints for it, which the map leaves to that."""
    own = places("disassemble")
    expect((own["protocol/src/disassemble.rt"], own["session_laws/specs/Intents.antt"]), ([], ["intent_of (one.Disassemble arguments) = Other"]),
           "tools/places disassemble")
    named = files_that_name_requests()
    expect(len(named) > 30, True, "files name requests")
    expect(sorted(named - set().union(*map(places, known_requests()))), [], "files that name a request, and are not printed")


def known_requests():
    """The names of the requests that the protocol's reader knows."""
    modules = re.findall(r"^ +Command::\w+(?:\(_\))? => (\w+)::NAME,$", text_of("crates/protocol/src/command.rt"), re.M)
    return {re.search(r'NAME: &str = "(\w+)"', text_of("crates/protocol/src/%s.rt" % module))[1] for module in modules}


def each_request_has_a_row():
    requests = known_requests()
    expect(len(requests) > 10, True, "requests are known")
    for name in ("docs/DEFINITIONS.md", "docs/PROTOCOL.md"):
        named = {span for row in rows_of_requests(name) if row.startswith("| `") for span in SPAN.findall(row.split("|")[1])}
        expect(sorted(named), sorted(requests), "%s: the requests" % name)


def each_definition_of_a_request_is_in_its_file():
    for row in rows_of_requests("docs/DEFINITIONS.md"):
        for crate, cell in zip(("protocol", "handlers", "message_parts"), row.split("|")[2:]):
            for file, name in re.findall(r"`(\w+)\.(\w+)`", cell):
                expect_defined(crate, file, name)


def each_row_that_is_named_is_there():
    rows = {(table, row.name) for table, module in tables() for row in module.ROWS}
    named = [(table, name) for table, names in re.findall(r'(\w+): ((?:"[^"]+"(?:, )?)+)', "; ".join(ample.ROWS.values()))
             for name in re.findall(r'"([^"]+)"', names)]
    expect(len(named) > 10, True, "rows are named")
    expect(sorted(set(named) - rows), [], "tests/support/ample.py: the rows that no table has")


# What says the version of the program, beside the code that prints it.
SAYS_VERSION = ("CHANGELOG.md", "docs/INSTALL.md", "docs/PROTOCOL.md", "editors/vscode/README.md", "editors/vscode/package.json", "packaging/rvdap.1",
                "tests/mutants/options/has_no_version.edit", "tests/rows/options.py")


def each_version_is_that_of_the_program():
    version = re.search(r'\.version\("(.*)"\)', text_of("crates/options/src/command.rt"))[1]
    for path in SAYS_VERSION:
        said = re.findall(r'(?:\brvdap[ _-]|^## \[)(\d+\.\d+\.\d+)', text_of(path), re.M)
        said += re.findall(r'"version": "(.*)"', text_of(path)) if path.endswith(".json") else []
        expect(set(said), {version}, "%s: the version" % path)


def the_transcripts_are_what_their_commands_print():
    ran = subprocess.run([os.path.join(TOP, "docs", "transcript"), "--check"], capture_output=True, text=True, timeout=120)
    expect((ran.stdout, ran.stderr, ran.returncode), ("", "", 0), "docs/transcript --check")


def checks():
    """Each check with its name."""
    return [(check.__name__.replace("_", " "), check) for check in (
        the_headline_is_one_sentence,
        links_lead_to_what_is_there,
        paths_that_are_named_are_there,
        crates_txt_has_each_crate,
        the_map_has_the_crates_in_their_order,
        the_table_of_crates_has_each_once,
        the_picture_has_each_crate_above_those_it_stands_on,
        each_rule_of_the_map_has_names_that_differ,
        each_clause_stands_in_the_ledger,
        what_private_clauses_cite_stands_apart,
        calls_that_may_lack_memory_are_listed,
        each_definition_of_the_table_of_crates_is_in_its_file,
        the_places_of_requests_are_found,
        each_request_has_a_row,
        each_definition_of_a_request_is_in_its_file,
        each_row_that_is_named_is_there,
        each_version_is_that_of_the_program,
        the_transcripts_are_what_their_commands_print,
    )]
