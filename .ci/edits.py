#!/usr/bin/env python3
"""Holds the wrong bodies of the gate, crates/*/must-fail/*.edit, against the sources.

Each begins with a line `why: CLAUSE of FUNCTION`: the clause that refuses it, by the label of the `ensures` (`result` where it
has none), and the function that owes it, a method as `Type::method`. An `ensures` of a trait is owed by each method that
implements it. In place of an `ensures` may stand the label of a ghost clause of a structure, `CLAUSE of Type`; `ends`, which
every function owes without a clause, since no call may run for ever; or a `requires` of a function that the wrong body calls.

A crate has at most four, no two of one clause; a wrong body that docs/PROOFS.md names stands besides, and its line ends with
`(named)`. What an edit changes stands once in its file.

Run at the root: .ci/edits.py. It prints what is wrong, a line each, and then how many edits there are.
"""
import re
import sys
from pathlib import Path

MOST = 4
WHY = re.compile(r"why: (\w+) of ((?:\w+::)?\w+)( \(named\))?")
FUNCTION = re.compile(r"^( *)(?:pub(?:\(\w+\))? )?(?:const |unsafe )*fn (\w+)", re.M)
STRUCTURE = re.compile(r"^(?:pub(?:\(\w+\))? )?struct (\w+)[^;{]*\{(.*?)^\}", re.M | re.S)
OWNER = re.compile(r"^(?:unsafe )?(impl|trait|pub trait|pub\(crate\) trait)\b(.*)$")
CLAUSE = re.compile(r"^\s*(ensures|requires)(?: (\w+))? \{", re.M)
GHOST = re.compile(r"\bghost (\w+): \{")


def without_parameters(text):
    """The text without what stands between `<` and `>`."""
    depth, kept = 0, []
    for at, letter in enumerate(text):
        if letter == "<":
            depth += 1
        elif letter == ">" and text[at - 1] != "-":
            depth -= 1
        elif depth == 0:
            kept.append(letter)
    return "".join(kept)


def owner_of(line):
    """The type of an `impl` and the trait that it implements, or the trait that is declared, of its first line."""
    kind, rest = OWNER.match(line).groups()
    words = re.findall(r"\w+", re.sub(r"\b\w+::", "", without_parameters(rest).split(" where ")[0].split(":")[0]))
    if "for" in words:
        return words[words.index("for") + 1], words[words.index("for") - 1]
    return (words[0], None) if words else ("", None)


def functions_of(text):
    """Each function: its type or none, its name, the trait that it implements or none, and its clauses."""
    owners, owner = {}, (None, None)
    for number, line in enumerate(text.split("\n")):
        if OWNER.match(line):
            owner = owner_of(line)
        elif line and not line[0].isspace() and not line.startswith(("}", "where", "//", "{")):
            owner = (None, None)
        owners[number] = owner
    for found in FUNCTION.finditer(text):
        indent, name = found.groups()
        body = re.compile(rf"^{indent}\{{|\{{\}}?$|;$", re.M)
        head = text[found.start():]
        for end in body.finditer(head):
            last = head[:end.end()].rsplit("\n", 1)[-1]
            if end.group().strip() != "{" or not re.search(r"\b(ensures|requires)\b", last):
                head = head[:end.end()]
                break
        clauses = {(kind, label or "result") for kind, label in CLAUSE.findall(head)}
        kind, trait = owners[text.count("\n", 0, found.start())] if indent else (None, None)
        yield kind, name, trait, clauses


class Sources:
    """The clauses of the functions and structures of every crate."""

    def __init__(self, root):
        self.crates, self.traits = {}, {}
        for crate in sorted(path.parent for path in root.glob("crates/*/src")):
            owed = self.crates[crate.name] = {}
            for path in sorted(crate.glob("src/**/*.rt")):
                text = path.read_text(encoding="utf-8")
                for kind, name, trait, clauses in functions_of(text):
                    key = f"{kind}::{name}" if kind else name
                    owed.setdefault(key, []).append((trait, name, clauses))
                    if kind and not trait:
                        self.traits.setdefault((kind, name), set()).update(clauses)
                for name, body in STRUCTURE.findall(text):
                    labels = {("ensures", label) for label in GHOST.findall(body)}
                    owed.setdefault(name, []).append((None, name, labels))

    def clauses(self, crate, function):
        """The clauses of a function of the crate, with those of the trait that it implements; none where it isn't there."""
        if function not in self.crates[crate]:
            return None
        found = set()
        for trait, name, clauses in self.crates[crate][function]:
            found |= clauses | (self.traits.get((trait, name), set()) if trait else set())
        return found

    def has(self, crate, clause, function):
        """Whether a function of the crate owes the clause or asks for it, or one of another crate asks for it."""
        own = self.clauses(crate, function)
        if own is not None:
            return clause == "ends" or ("ensures", clause) in own or ("requires", clause) in own
        asked = (self.clauses(other, function) or set() for other in self.crates if other != crate)
        return any(("requires", clause) in clauses for clauses in asked)


def changes(text):
    """The file and the old text of each change of an edit."""
    path = None
    for line in text.split("\n"):
        if line.startswith("file: "):
            path = line[len("file: "):].strip()
        elif line.startswith("old: "):
            yield path, line[len("old: "):]


def faults_of(sources, crate, edits):
    """What is wrong with the edits of a crate, each with its file."""
    counted, owners = 0, {}
    for edit in edits:
        text = edit.read_text(encoding="utf-8")
        why = WHY.fullmatch(text.split("\n", 1)[0])
        if not why:
            yield edit, "its first line isn't `why: CLAUSE of FUNCTION` or `why: CLAUSE of FUNCTION (named)`"
            continue
        clause, function, named = why.groups()
        if not sources.has(crate.name, clause, function):
            yield edit, f"no `{clause}` of `{function}` stands in the sources"
        if not named:
            counted += 1
            if (clause, function) in owners:
                yield edit, f"`{clause}` of `{function}` refuses {owners[clause, function]} too"
            owners[clause, function] = edit.name
        for path, old in changes(text):
            source = crate / path if path else None
            count = source.read_text(encoding="utf-8").count(old) if source and source.is_file() else 0
            if count != 1:
                yield edit, f"`{old.strip()}` stands in {path} {count} times, and not once"
    if counted > MOST:
        yield crate / "must-fail", f"{counted} edits besides the named ones, and at most {MOST} are wanted"


def main():
    root = Path(__file__).resolve().parent.parent
    sources, edits_seen, wrong = Sources(root), 0, 0
    for folder in sorted(root.glob("crates/*/must-fail")):
        edits = sorted(folder.glob("*.edit"))
        edits_seen += len(edits)
        for path, fault in faults_of(sources, folder.parent, edits):
            print(f"{path.relative_to(root)}: {fault}")
            wrong += 1
    print(f"edits.py: {edits_seen} edits, {wrong} faults")
    return 1 if wrong or not edits_seen else 0


if __name__ == "__main__":
    sys.exit(main())
