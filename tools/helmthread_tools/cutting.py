"""Cuts files that are over a limit: into parts, or by the last hosts that they block."""
from dataclasses import dataclass

from . import tables
from .lines import FILE_LIMIT, logical

ALIAS, HEADING, PATTERN, OTHER = "alias", "heading", "pattern", "other"


class TooLarge(Exception):
    """A file can't be cut so that each part fits."""


@dataclass
class Entry:
    """A logical line of an actions file: its physical lines, what it is, the physical lines of the
    heading that it stands below, and whether that section only blocks."""

    raw: list
    kind: str
    heading: list
    blocks: bool


class Sections:
    """Goes through an actions file."""

    def __init__(self, data):
        self.aliases, self.heading, self.block, self.blocks = {}, [], None, False
        self.entries = [self.entry(line) for line in logical(data)]

    def entry(self, line):
        kind = OTHER
        if line.text.startswith("{"):
            kind = self.begin(line)
        elif line.text and self.block == "alias":
            kind = ALIAS
            self.alias(line.text)
        elif line.text and self.block == "section":
            kind = PATTERN
        kind = ALIAS if self.block == "alias" else kind
        return Entry(line.raw, kind, self.heading, self.blocks)

    def begin(self, line):
        """A line that begins a block or a section."""
        named = line.text.startswith("{{")
        self.block = line.text.strip("{} \t").lower() if named else "section"
        self.heading = [] if self.block == "alias" else line.raw
        names = [tables.parted(word)[:2] for word in self.effective(line.text[1:-1])]
        routes = any(name.lower() == "forward-override" for _, name in names)
        self.blocks = not named and ("+", "block") in names and not routes
        return HEADING

    def alias(self, text):
        name, _, rest = text.partition("=")
        self.aliases.setdefault(name.strip(" \t").lower(), self.effective(rest))

    def effective(self, text):
        words = tables.words_of(text)
        return [new for word in words for new in self.aliases.get(word.lower(), [word])]

    def alias_lines(self):
        return [raw for entry in self.entries if entry.kind == ALIAS for raw in entry.raw]


def as_bytes(lines):
    return "".join(line + "\n" for line in lines).encode("latin-1")


def size_of(lines):
    return sum(len(line) + 1 for line in lines)


def count_patterns(data):
    """How many patterns an actions file has."""
    return sum(1 for entry in Sections(data).entries if entry.kind == PATTERN)


def packed(pieces, limit):
    """The pieces' lines in parts that fit. A piece is its lines, and those that a part begins with
    where it begins with this piece."""
    parts, size = [], 0
    for lines, head in pieces:
        if not parts or size + size_of(lines) > limit:
            parts.append(list(head) if parts else [])
            size = size_of(parts[-1])
        if size + size_of(lines) > limit:
            raise TooLarge("it can't be cut into parts of %d bytes" % limit)
        parts[-1] += lines
        size += size_of(lines)
    return [as_bytes(part) for part in parts]


def actions_parts(data, limit=FILE_LIMIT):
    """An actions file in parts that fit, each with the aliases."""
    if len(data) <= limit:
        return [data]
    sections = Sections(data)
    aliases = sections.alias_lines()
    pieces = []
    for entry in sections.entries:
        heading = [] if entry.kind == HEADING else entry.heading
        pieces.append((entry.raw, aliases + heading if entry.kind != ALIAS else []))
    return packed(pieces, limit)


def filter_parts(data, limit=FILE_LIMIT):
    """A filter file in parts that fit, each filter whole."""
    if len(data) <= limit:
        return [data]
    pieces = []
    for line in logical(data):
        kind, colon, _ = line.text.partition(":")
        if not pieces or colon and kind in tables.READ_KINDS + tables.UNREAD_KINDS:
            pieces.append(([], []))
        pieces[-1][0].extend(line.raw)
    return packed(pieces, limit)


def without_last(data, many):
    """An actions file without the last `many` patterns of its sections that only block, and these
    as an actions file of their own; fewer where there aren't so many."""
    sections = Sections(data)
    taken = [at for at, it in enumerate(sections.entries) if it.kind == PATTERN and it.blocks]
    left = set(taken[max(len(taken) - many, 0) :])
    out = sections.alias_lines()
    heading = None
    for at in sorted(left):
        entry = sections.entries[at]
        out += entry.heading if entry.heading is not heading else []
        heading = entry.heading
        out += entry.raw
    kept = [raw for at, it in enumerate(sections.entries) if at not in left for raw in it.raw]
    return as_bytes(kept), as_bytes(out), len(left)
