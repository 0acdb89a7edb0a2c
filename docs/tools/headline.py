"""Makes docs/HEADLINE.md: the clauses that say the headline, and the definitions on which they rest, in reading order. docs/tools/make.py
calls it."""
import glob
import os
import re

ROOT = os.path.dirname(os.path.dirname(os.path.dirname(os.path.abspath(__file__))))
PATH = "docs/HEADLINE.md"
# The calls whose clauses say it, each with its file and the definition that its clause names.
CALLS = [
    ("serve_connection", "px_serve/src/sessions.rt", ("px_serve.Sessions", "ServesFitting")),
    ("run_tool", "px_commands/src/commands.rt", ("px_commands.Commands", "RunsTool")),
    ("run_proxy", "px_serve_command/src/proxies.rt", ("px_serve_command.Proxies", "RunsProxy")),
]
# The crates of a session: their definitions stand here whole.
WHOLE = ["px_serve", "px_ends", "px_exchange", "px_judging", "px_sending", "px_pumps", "px_base"]
OPENING = re.compile(r"(?:(?:abbrev|unfoldable|pub|record|data) )+([^\s:({]+)")
USE = re.compile(r"use Rattle\.(\w+)\.specs\.([\w.]+)(?:\.\{(.*)\}| as (\w+))$")
WORD = re.compile(r"[A-Za-z_][\w'-]*(?:\.[\w'-]+)?")
HEAD = """# The headline, and what it rests on

*For every stream of client bytes and every origin's answer, however either is cut into reads, the bytes sent on and returned are, request by
request, the profile's function of them, the client's address and tags, the moment and one whole published configuration, none older than its
predecessor; a fault leaves a stated template or prefix, and comes only where its own device's count rose.*

This page is made from the sources by docs/tools/headline.py, and the gate holds it to them. First stand the clauses that say the sentence
above; then the definitions of a session, from the top, each behind the one that names it first; then the names of those below, by crate, each
with what its comment says. docs/PROOFS.md says in words what is proved, and what isn't.
"""


class Definition:
    """A definition of specs/: its text, and its comment without the dashes."""

    def __init__(self, lines, comment):
        self.lines, self.comment = lines, comment

    def text(self):
        return "\n".join(["-- " + it for it in self.comment] + self.lines)

    def words(self):
        return WORD.findall("\n".join(it for it in self.lines if not it.strip().startswith("--")))


def read(path):
    with open(os.path.join(ROOT, path), encoding="utf-8") as file:
        return file.read()


def module_of(path):
    """The definitions of a file of specs/ by their names, and what it imports: a name's module and its name there."""
    found, imported, comment, now = {}, {}, [], None
    for line in path.read().split("\n"):
        use = USE.match(line)
        opening = OPENING.match(line)
        if use:
            place = f"{use[1]}.{use[2]}"
            for name in (use[3] or "").split(","):
                parts = name.strip().split(" as ")
                imported[parts[-1].strip()] = (place, parts[0].strip())
            if use[4]:
                imported[use[4]] = (place, None)
        elif line.startswith("--"):
            comment, now = comment + [line[2:].strip()], None
        elif not line.strip():
            comment, now = [], None
        elif opening and not line.startswith(" "):
            now = opening[1]
            found.setdefault(now, Definition([], comment)).lines.append(line)
            comment = []
        elif now:
            found[now].lines.append(line)
    return found, imported


def modules():
    """All files of specs/, as CRATE.FILE."""
    found = {}
    for path in sorted(glob.glob(os.path.join(ROOT, "crates/*/specs/*.antt"))):
        name = os.path.basename(path)[: -len(".antt")]
        if name != "Lib":
            with open(path, encoding="utf-8") as file:
                found[f"{path.split('/')[-3]}.{name}"] = module_of(file)
    return found


def named_by(key, every):
    """The definitions that a definition names, in its order."""
    place, name = key
    found, imported = every[place]
    for word in found[name].words():
        first, _, rest = word.partition(".")
        if first in found:
            yield (place, first)
        elif first in imported:
            other, there = imported[first]
            yield (other, there if there is not None else rest)


def resting_on(key, every, seen):
    """Adds a definition and those that it rests on, each behind the one that names it first."""
    waiting = [key]
    while waiting:
        now = waiting.pop()
        if now in seen or now[0] not in every or now[1] not in every[now[0]][0]:
            continue
        seen.append(now)
        waiting += reversed([it for it in named_by(now, every)])


def clause(name, path):
    """A call's text in the sources, up to its body."""
    text = read(f"crates/{path}")
    start = text.index(f"pub fn {name}<")
    return text[start : text.index("\n{\n", start)]


def crate_of(key):
    return key[0].split(".")[0]


def order_of(seen):
    """The crates of definitions, in the order in which they are met."""
    return list(dict.fromkeys(map(crate_of, seen)))


def headline():
    """The text of docs/HEADLINE.md."""
    every = modules()
    session, seen = [], []
    resting_on(CALLS[0][2], every, session)
    for _, _, key in CALLS:
        if key[0] not in every or key[1] not in every[key[0]][0]:
            raise KeyError(f"docs/tools/headline.py: {key[0]} has no {key[1]}")
        resting_on(key, every, seen)
    out = [HEAD, "## The clauses", ""]
    for name, path, _ in CALLS:
        out += [f"`{name}` (crates/{path}):", "", "```rust", clause(name, path), "```", ""]
    for crate in [it for it in WHOLE if it in order_of(session)]:
        texts = [every[it[0]][0][it[1]].text() for it in session if crate_of(it) == crate]
        out += [f"## {crate}", "", "```antt", "\n\n".join(texts), "```", ""]
    rest = [it for it in seen if it not in session or crate_of(it) not in WHOLE]
    out += ["## Below and above a session", ""]
    for crate in order_of(rest):
        out += [f"### {crate}", ""]
        for place, name in [it for it in rest if crate_of(it) == crate]:
            said = " ".join(every[place][0][name].comment)
            file = place.split(".", 1)[1]
            out.append(f"- `{name}` ({file}.antt)" + (f": {said}" if said else ""))
        out.append("")
    return "\n".join(out)
