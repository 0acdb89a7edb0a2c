"""How lines of the main file, of actions files and of filter files are written. Text is a str of
bytes (Latin-1).
"""
from dataclasses import dataclass, field

LINE_LIMIT = 8192
FILE_LIMIT = 1048576
# How many files of a kind a main file may name.
MOST_FILES = 16
# How many patterns all actions files may have, and how many at most `pattern-limit` may allow.
PATTERN_LIMIT, MOST_PATTERNS = 20000, 40000


@dataclass
class Line:
    """A logical line: the number of its first physical line, its text without comments, and its
    physical lines as they stand."""

    number: int
    text: str
    raw: list = field(default_factory=list)


def physical(data):
    """The physical lines of a file, without their ends."""
    text = data.decode("latin-1")
    if text.startswith("\xef\xbb\xbf"):
        text = text[3:]
    lines = text.split("\n")
    if lines and lines[-1] == "":
        lines.pop()
    return [line[:-1] if line.endswith("\r") else line for line in lines]


def uncommented(line):
    """The line without its comment; `\\#` is a `#`."""
    out, at = [], 0
    while True:
        found = line.find("#", at)
        if found < 0:
            return "".join(out) + line[at:]
        if found > 0 and line[found - 1] == "\\" and found > at:
            out.append(line[at : found - 1] + "#")
            at = found + 1
            continue
        return "".join(out) + line[at:found]


def logical(data):
    """All logical lines of a file, empty ones too."""
    lines, at = physical(data), 0
    out = []
    while at < len(lines):
        start, text = at, ""
        while True:
            line = lines[at]
            goes_on = line.endswith("\\")
            text += uncommented(line[:-1] if goes_on else line)
            at += 1
            if not goes_on or at == len(lines):
                break
        out.append(Line(start + 1, text.strip(" \t"), lines[start:at]))
    return out


def escaped(text):
    """A text as it is written in a file, where a `#` begins a comment."""
    return text.replace("#", "\\#")


def is_utf8(text):
    try:
        text.encode("latin-1").decode("utf-8")
        return True
    except UnicodeDecodeError:
        return False


def recoded(text):
    """The text in UTF-8, read as Windows-1252 where it isn't UTF-8; still a str of bytes."""
    if is_utf8(text):
        return text
    data = text.encode("latin-1")
    try:
        return data.decode("cp1252").encode("utf-8").decode("latin-1")
    except UnicodeDecodeError:
        return text.encode("utf-8").decode("latin-1")


def shown(text):
    """A str of bytes for people to read."""
    return text.encode("latin-1").decode("utf-8", "replace")
