#!/usr/bin/env python3
"""Makes the parts of the documents that the sources say already, between the comments `<!-- made: NAME -->` and `<!-- end: NAME -->`:
the calls of each crate (docs/PROOFS.md), the floors of the crates (docs/ARCHITECTURE.md), and the directives of the main file
(docs/MANUAL.md). It makes docs/HEADLINE.md (headline.py), holds the version and the kit to the files VERSION and KIT, and the cases
that docs/PROFILE.md cites to those of px_cases.

Run: docs/tools/make.py            writes what is stale
     docs/tools/make.py --check    writes nothing, names what is stale, and ends with 1 where something is
"""
import glob
import os
import re
import sys

sys.dont_write_bytecode = True
import headline

ROOT = os.path.dirname(os.path.dirname(os.path.dirname(os.path.abspath(__file__))))
DIRECTIVES = "crates/px_config/src/directives.rt"
PROGRAM = "crates/px_main/src/help.rt"


def read(path):
    with open(os.path.join(ROOT, path), encoding="utf-8") as file:
        return file.read()


class Stale(Exception):
    """The sources have changed their form, so that a part can't be made."""


# The crates


class Crate:
    """A crate of crates.txt: what it stands on, and what its root file says."""

    def __init__(self, name, below):
        self.name, self.below = name, below
        self.root = next(it for it in ("lib.rt", "main.rt") if os.path.isfile(self.path(f"src/{it}")))
        text = read(self.path(f"src/{self.root}"))
        self.about = first_sentence(re.findall(r"(?m)^//! ?(.*)$", text))
        self.exported = names_in(",".join(re.findall(r"(?m)^pub use ([^;]*);", text)))
        self.open_modules = set(re.findall(r"(?m)^pub mod (\w+)", text))

    def path(self, inside):
        return f"crates/{self.name}/{inside}"

    def files(self, pattern):
        return sorted(glob.glob(os.path.join(ROOT, self.path(pattern)), recursive=True))


def crates():
    """The crates, lowest first: each behind those that it stands on."""
    lines = [it.split("#")[0].split(":") for it in read("crates.txt").splitlines() if ":" in it.split("#")[0]]
    uses = {head.split()[0]: rest.split() for head, rest in lines}
    found = {}

    def add(name):
        if name not in found:
            for it in uses[name]:
                if it in uses:
                    add(it)
            found[name] = Crate(name, uses[name])

    for name in uses:
        add(name)
    return found


def floor_of(name, found, floors):
    """How many crates stand below it, one on the other."""
    if name not in floors:
        inside = [it for it in found[name].below if it in found]
        floors[name] = 1 + max((floor_of(it, found, floors) for it in inside), default=-1)
    return floors[name]


# Rattle's sources, in the layout of `rt fmt`


def names_in(text):
    """The names that `pub use` hands out."""
    parts = [it.strip() for it in re.split(r"[{},]", re.sub(r"\s+", " ", text))]
    return {it.split(" as ")[-1].split("::")[-1].strip() for it in parts if it and not it.endswith("::")}


def first_sentence(lines):
    """The first sentence of a comment's first paragraph."""
    text = "\n".join(lines).strip().split("\n\n")[0].replace("\n", " ")
    found = re.match(r"(.*?[.:!?])(?= [A-Z`]|$)", text)
    return (found[1] if found else text).strip()


# What decides where a head of a function ends: clauses and conditions have braces of their own, whatever stands between them.
HEAD_TOKEN = re.compile(r'"(?:[^"\\]|\\.)*"|//[^\n]*|\b(ensures|requires)(?: \*)?(?: (\w+))? \{|[()\[\]{};]')
BRACE = re.compile(r'"(?:[^"\\]|\\.)*"|[{}]')


def closing(text, at):
    """The place of the brace that closes the one at this place."""
    depth = 0
    for found in BRACE.finditer(text, at):
        depth += {"{": 1, "}": -1}.get(found[0], 0)
        if depth == 0:
            return found.start()
    raise Stale(f"docs/tools/make.py finds no end of the clause {text[at : at + 60]!r}")


def head_parts(text):
    """The conditions and clauses of the function that begins there, each with its word, its label (or nothing) and its text."""
    at, depth = 0, 0
    while True:
        found = HEAD_TOKEN.search(text, at)
        if not found or depth == 0 and found[0] in ("{", ";"):
            return
        at = found.end()
        if found[1]:
            end = closing(text, at - 1)
            yield found[1], found[2], " ".join(text[at:end].split())
            at = end + 1
        depth += (found[0] in ("(", "[")) - (found[0] in (")", "]"))


class Function:
    """A function: its name, with its type's for a method, the first sentence of its comment, and its conditions and clauses, each with
    its label and its text."""

    def __init__(self, name, comment, text):
        self.name, self.about = name, first_sentence(comment)
        parts = list(head_parts(text))
        self.conditions, self.clauses = ([it[1:] for it in parts if it[0] == word] for word in ("requires", "ensures"))


def block_of(line):
    """What a line at the left edge begins: the name that its functions stand under, and whether they are public by it."""
    found = re.match(r"(?:pub )?trait (\w+)", line)
    if found:
        return found[1], line.startswith("pub "), True
    found = re.match(r"impl\b.*? for ", line)
    if found:
        return None, False, False
    found = re.match(r"impl(?:<.*?>)? (\w+)", line)
    return (found[1], True, False) if found else (None, True, False)


def functions(text):
    """The public functions of a file, and under which type or trait each stands."""
    lines, comment, under, is_public, is_trait = text.split("\n"), [], None, True, False
    for at, line in enumerate(lines):
        if line.startswith("#[cfg(test)]"):
            return
        if line and not line.startswith((" ", "}", "/", "#", ")")):
            under, is_public, is_trait = block_of(line)
        said = re.match(r"\s*/// ?(.*)", line)
        found = re.match(r"( *)(pub )?fn (\w+)", line)
        if said:
            comment.append(said[1])
        elif found and (found[2] or is_trait and is_public):
            name = f"{under}::{found[3]}" if found[1] else found[3]
            if not found[1] or under:
                yield under if found[1] else found[3], Function(name, comment, "\n".join(lines[at:]))
        if not said and not re.match(r"\s*#\[", line):
            comment = []


def calls_of(crate):
    """The functions that a crate hands out, in the order of its files."""
    for path in crate.files("src/**/*.rt"):
        module = os.path.splitext(os.path.basename(path))[0]
        for owner, function in functions(read(os.path.relpath(path, ROOT))):
            if owner in crate.exported or module in crate.open_modules or os.path.basename(path) == "lib.rt":
                yield function


def edit_line(path):
    """A wrong body that must be refused, with the clause that refuses it where the edit names that."""
    first = read(os.path.relpath(path, ROOT)).split("\n", 1)[0]
    name = os.path.splitext(os.path.basename(path))[0]
    return f"`{name}`" + (f" ({first[4:].strip()})" if first.startswith("why:") else "")


# The parts


def cell(text):
    return text.replace("|", "\\|")


def calls():
    """docs/PROOFS.md: each crate with its calls, their conditions and clauses, and its wrong bodies."""
    out = []
    for crate in crates().values():
        out += [f"### {crate.name}", "", crate.about, ""]
        rows = [call_row(it) for it in calls_of(crate)]
        out += (["| Call | What it does | Conditions | Clauses |", "|---|---|---|---|", *rows, ""]) if rows else []
        edits = [edit_line(it) for it in crate.files("must-fail/*.edit")]
        out += [f"Wrong bodies: {', '.join(edits)}.", ""] if edits else []
    return "\n".join(out).rstrip("\n")


def call_row(function):
    conditions = ", ".join(f"`{label or text}`" for label, text in function.conditions)
    return f"| `{function.name}` | {cell(function.about)} | {cell(conditions)} | {clauses_text(function.clauses)} |"


def clauses_text(clauses):
    """The labels of the clauses, and how many have none."""
    named = [f"`{label}`" for label, _ in clauses if label]
    many = len(clauses) - len(named)
    unnamed = ["its clause" if many == 1 and not named else f"{many} without a name"] if many else []
    return ", ".join(named + unnamed)


def floors():
    """docs/ARCHITECTURE.md: the crates by floors, the program on top."""
    found, by_name = crates(), {}
    for name in found:
        floor_of(name, found, by_name)
    out = ["```"]
    for floor in range(max(by_name.values()), -1, -1):
        out.append(f"{floor:2}  " + "  ".join(sorted(it for it in by_name if by_name[it] == floor)))
    out += ["```", "", "| Crate | What it is for | Stands on |", "|---|---|---|"]
    for crate in found.values():
        own = [it for it in crate.below if it in found]
        hidden = {low for it in own for low in all_below(it, found)}
        stands = [it for it in own if it not in hidden] + [f"*{it}*" for it in crate.below if it not in found]
        out.append(f"| {crate.name} | {cell(crate.about)} | {', '.join(stands)} |")
    return "\n".join(out)


def all_below(name, found):
    below = {it for it in found[name].below if it in found}
    return below | {low for it in below for low in all_below(it, found)}


def directives():
    """docs/MANUAL.md: a row for each directive that the program reads: its names and its value from
    there, the rest as it stands."""
    text = read(DIRECTIVES)
    body = re.search(r"enum Directive \{(.*?)\n\}", text, re.S)
    if not body:
        raise Stale(f"{DIRECTIVES} has no enum Directive: docs/tools/make.py is to read the directives elsewhere")
    rows, taken = {}, []
    for comment in re.findall(r"/// (`.*)", body[1]):
        names, value = re.findall(r"`([\w-]+)`", comment), comment.rpartition("`")[2].lstrip(":, ").rstrip(".")
        taken += names
        if value != "refused":
            rows.update({it: value for it in names})
    known = set(re.findall(r'Directive::\w+ => "([\w-]+)"', text))
    if known != set(taken):
        raise Stale(f"{DIRECTIVES}: the comments of Directive name {sorted(set(taken) ^ known)} otherwise than its code")
    return directive_rows(rows)


def directive_rows(rows):
    stands = dict(re.findall(r"(?m)^\| `([\w-]+)` \|[^|]*\|(.*)\|$", part("docs/MANUAL.md", "directives")))
    if set(stands) != set(rows):
        differ = sorted(set(stands) ^ set(rows))
        raise Stale(
            f"docs/MANUAL.md: the table of directives has {differ} otherwise than {DIRECTIVES}:"
            " write such a row, its second cell empty"
        )
    out = ["| Directive | Value | Without it | If it stands twice |", "|---|---|---|---|"]
    return "\n".join(out + [f"| `{it}` | {cell(rows[it])} |{stands[it]}|" for it in stands])


PARTS = [
    ("docs/PROOFS.md", "calls", calls),
    ("docs/ARCHITECTURE.md", "floors", floors),
    ("docs/MANUAL.md", "directives", directives),
]


# The cases that docs/PROFILE.md cites: a file of px_cases, and behind it their first lines
CITED = re.compile(r'`(\w+/\w+)`((?:,? "[^"]+")+)')


def check_cases():
    """Refuses a cited case that doesn't stand in its file."""
    for file, titles in CITED.findall(read("docs/PROFILE.md")):
        lines = read(f"crates/px_cases/data/{file}.case").split("\n")
        for title in re.findall('"([^"]+)"', titles):
            if f"case {title}" not in lines:
                raise Stale(f"docs/PROFILE.md cites a case that {file}.case doesn't have: {title}")


def span(text, path, name):
    start, end = f"<!-- made: {name} -->\n", f"\n<!-- end: {name} -->"
    if text.count(start) != 1 or text.count(end) != 1:
        raise Stale(f"{path} has no place for the part {name}: the comments {start.strip()} and {end.strip()}")
    return text.index(start) + len(start), text.index(end)


def part(path, name):
    text = read(path)
    start, end = span(text, path, name)
    return text[start:end]


def write(path, text, checks):
    """Writes a file that is stale, or only says so; whether it was."""
    if text == read(path):
        return False
    if checks:
        print(f"stale: {path}: run docs/tools/make.py")
    else:
        with open(os.path.join(ROOT, path), "w", encoding="utf-8") as file:
            file.write(text)
        print(f"written: {path}")
    return checks


def main():
    checks = sys.argv[1:] == ["--check"]
    if sys.argv[1:] and not checks:
        sys.exit(__doc__)
    stale = False
    try:
        for path, name, make in PARTS:
            text, (start, end) = read(path), span(read(path), path, name)
            stale |= write(path, text[:start] + make() + text[end:], checks)
        check_cases()
        version = f'VERSION: &[u8] = b"helmthread {read("VERSION").strip()}\n";'
        stale |= write(PROGRAM, re.sub(r'VERSION: &\[u8\] = b"[^"]*";', lambda _: version, read(PROGRAM)), checks)
        kit = f"`{read('KIT').strip()}`"
        stale |= write(headline.PATH, headline.headline(), checks)
        stale |= write("README.md", re.sub(r"`rattle-kit-[^`]*`", lambda _: kit, read("README.md")), checks)
    except Stale as why:
        print(why)
        stale = True
    sys.exit(1 if stale else 0)


main()
