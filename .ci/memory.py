#!/usr/bin/env python3
"""Says of which public call that can answer want of memory no test shows another answer.

No clause ties want of memory to a refused growth, so a call that always answered it would be proved. `.ci/memory.tsv` names for
each such call a file of cases or of tests in which it answers something else. A call is listed as `CRATE CALL`, a method as
`Type::method`; these are the functions and methods that a crate hands out and whose result may say `Mem` or `NoMemory`, by
itself, in an enumeration or in a structure. One that
is handed such an answer, and neither an allocator nor a reference, only passes it on, and isn't listed.

Run at the root: .ci/memory.py. It prints each call without a file, each line of the table that is no call any more, and each
file that isn't there, and then how many calls there are.
"""
import re
import sys
from pathlib import Path

sys.path.insert(0, str(Path(__file__).resolve().parent))
from edits import OWNER, owner_of  # noqa: E402

TYPE = re.compile(r"^pub (?:enum|struct) (\w+)[^;{]*\{(.*?)^\}", re.M | re.S)
WANT = re.compile(r"^    (?:Mem|NoMemory)\b", re.M)
CALL = re.compile(r"^( *)(pub )?(?:const )?fn (\w+)([^;{]*?)(?=^\1\{|\{$|^ +requires|^ +ensures|^where|;$)", re.M | re.S)
USE = re.compile(r"^pub use [\w:]+::(?:\{([^}]*)\}|(\w+));", re.M)
OWN = re.compile(r"^pub (?:fn|struct|enum|trait) (\w+)", re.M)


def sources(crate):
    return [path.read_text(encoding="utf-8") for path in sorted(crate.glob("src/**/*.rt"))]


def wanting_types(texts):
    """The types that may say that memory was wanting: by a variant, or by a part of such a type."""
    parts = {}
    for text in texts:
        for name, body in TYPE.findall(text):
            body = re.sub(r"^ *(?:///?|pub ghost|ghost).*$", "", body, flags=re.M)
            held = re.sub(r"^    [A-Z]\w*", "", body, flags=re.M)  # without the names of variants
            parts[name] = {"Mem"} if WANT.search(body) else set(re.findall(r"\b[A-Z]\w+", held))
    wanting = {"Mem"}
    while True:
        more = {name for name, words in parts.items() if words & wanting} - wanting
        if not more:
            return wanting
        wanting |= more


def handed_out(crate):
    """The names that the crate's root hands out."""
    text = (crate / "src/lib.rt").read_text(encoding="utf-8")
    names = {name for group in USE.findall(text) for part in group for name in re.findall(r"\w+", part)}
    return names | set(OWN.findall(text))


def calls_of(crate, wanting):
    """The calls that a crate hands out and that can answer want of memory."""
    names = handed_out(crate)
    for text in sources(crate):
        owner, owners = (None, None), {}
        for number, line in enumerate(text.split("\n")):
            if OWNER.match(line):
                owner = owner_of(line)
            elif line and not line[0].isspace() and not line.startswith(("}", "where", "//", "{")):
                owner = (None, None)
            owners[number] = owner
        for indent, public, name, signature in CALL.findall(text):
            at = text.index(f"fn {name}{signature}")
            kind, trait = owners[text.count("\n", 0, at)] if indent else (None, None)
            said = set(re.findall(r"\w+", signature.rpartition("->")[2])) if "->" in signature else set()
            is_own = (kind or name) in names and (public or trait or (kind and f"pub trait {kind}" in text))
            given = signature.rpartition("->")[0]
            passes_on = not re.search(r"&|\bGlobal\b", given) and set(re.findall(r"\w+", given)) & wanting
            if is_own and trait is None and said & wanting and not passes_on:
                yield f"{kind}::{name}" if kind else name


def main():
    root = Path(__file__).resolve().parent.parent
    crates = [path.parent.parent for path in sorted(root.glob("crates/*/src/lib.rt")) if path.parent.parent.name not in ("px_leaf_rows", "px_part_tests", "px_tests")]
    wanting = wanting_types([text for crate in crates for text in sources(crate)])
    wanted = {(crate.name, call) for crate in crates for call in calls_of(crate, wanting)}
    table, wrong = {}, 0
    for line in (root / ".ci/memory.tsv").read_text(encoding="utf-8").splitlines():
        crate, call, file = (line.split("\t") + ["", ""])[:3]
        table[crate, call] = file
    for crate, call in sorted(wanted - table.keys()):
        print(f"{crate} {call}: no file in which it answers something else than want of memory")
        wrong += 1
    for crate, call in sorted(table.keys() - wanted):
        print(f"{crate} {call}: stands in .ci/memory.tsv and is no such call")
        wrong += 1
    for (crate, call), file in sorted(table.items()):
        if not file or not (root / file).is_file():
            print(f"{crate} {call}: there is no file {file}")
            wrong += 1
    print(f"memory.py: {len(wanted)} calls, {wrong} faults")
    return 1 if wrong or not wanted else 0


if __name__ == "__main__":
    sys.exit(main())
