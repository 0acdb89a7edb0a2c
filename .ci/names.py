#!/usr/bin/env python3
"""Says which public names have more than one home.

A definition of specs/ and a type of Rust are public where they are declared so. A reader who meets a name finds it in one place,
so each has one crate and one file. What only a case or a lemma uses has no such name.

Run at the root: .ci/names.py. It prints each name with its homes, and then how many names there are.
"""
import re
import sys
from collections import defaultdict
from pathlib import Path

# A definition of specs/, by itself or in a module with parameters, and a record or a datatype.
DEFINED = re.compile(r"^\s*(?:(?:abbrev|unfoldable|pattern)\s+pub|pub\s+(?:record|data))\s+([^\s(:{]+)", re.M)
# A type or a trait of Rust, within its crate or outside.
TYPE = re.compile(r"^pub (?:struct|enum|trait|type) (\w+)", re.M)


def homes(root):
    """The homes of each name: of definitions and of types, which are apart."""
    found = {"definition": defaultdict(set), "type": defaultdict(set)}
    for kind, pattern, rule in (("definition", "specs/**/*.antt", DEFINED), ("type", "src/**/*.rt", TYPE)):
        for path in sorted(root.glob(f"crates/*/{pattern}")):
            for name in rule.findall(path.read_text(encoding="utf-8")):
                found[kind][name].add(str(path.relative_to(root / "crates")))
    return found


def main():
    found = homes(Path(__file__).resolve().parent.parent)
    twice = [(kind, name, places) for kind, names in found.items() for name, places in sorted(names.items()) if len(places) > 1]
    for kind, name, places in twice:
        print(f"{kind} {name}: {', '.join(sorted(places))}")
    count = sum(len(names) for names in found.values())
    print(f"names.py: {count} public names, {len(twice)} with two homes")
    return 1 if twice or not count else 0


if __name__ == "__main__":
    sys.exit(main())
