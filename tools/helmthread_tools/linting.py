"""Finds mistakes in a configuration, and says of each the file, the line, the word, what is wrong
and what to write.
"""
import os
import re

from . import jobs, tables
from .expressions import Reader, Unread
from .lines import (
    FILE_LIMIT,
    LINE_LIMIT,
    MOST_PATTERNS,
    PATTERN_LIMIT,
    is_utf8,
    logical,
    shown,
)
from .linting_actions import ActionLints
from .linting_patterns import PatternLints
from .linting_templates import TemplateLints
from .nearness import near
from .scanning import scan
from .letters import is_digits

# So many directives that Privoxy alone has mean that the main file is one of Privoxy's.
MANY_OTHERS = 3


class Linter(ActionLints, PatternLints, TemplateLints):
    """Goes through a configuration and collects complaints."""

    def __init__(self, config):
        self.config, self.complaints, self.cut = config, [], set()
        # The main file's own name, and the folder of the pages where there is one.
        self.main, self.pages_folder = os.path.basename(config), None
        # The lines that are comments alone.
        self.comments = set()
        self.templates, self.filters, self.folder = None, {}, os.path.dirname(config) or "."
        self.most_patterns, self.tags = PATTERN_LIMIT, set()
        self.patterns, self.too_many, self.named, self.aliases, self.listens = (
            0,
            False,
            {"actionsfile": [], "filterfile": [], "host-list": []},
            {},
            0,
        )

    def say(self, name, line, word, what, write):
        text = "%s:%d: %s: %s. %s" % (
            name,
            line,
            "`%s`" % shown(word) if word else "the file",
            what,
            write,
        )
        if text not in self.complaints:
            self.complaints.append(text)

    # Files.

    def data_of(self, path, name, wanted):
        """The file's bytes, or None, with a complaint."""
        try:
            with open(path, "rb") as file:
                data = file.read()
        except IsADirectoryError:
            self.say(
                name,
                0,
                path,
                "it is a folder",
                "Name the file in it, as `%s`" % os.path.join(path, "config"),
            )
            return None
        except ValueError:
            self.say(name, 0, path, "no file has such a name", wanted)
            return None
        except OSError as error:
            self.say(
                name,
                0,
                path,
                "looked for there, and %s" % (error.strerror or "it can't be read").lower(),
                wanted,
            )
            return None
        if len(data) > FILE_LIMIT:
            self.say(
                name,
                0,
                name,
                "it has %d bytes, and a file has at most %d" % (len(data), FILE_LIMIT),
                "Part it into two files",
            )
            return None
        if data[:2] in (b"\xff\xfe", b"\xfe\xff"):
            self.say(
                name, 1, "", "it is UTF-16", "Write it as UTF-8: iconv -f utf-16 -t utf-8 %s" % name
            )
            return None
        return data

    def lines_of(self, data, name):
        """The logical lines that aren't empty."""
        lines = logical(data)
        for line in lines:
            if line.raw[0].lstrip().startswith("#"):
                self.comments.add((name, line.number))
            for at, raw in enumerate(line.raw):
                if not is_utf8(raw):
                    word = next(part for part in re.findall(r"[^ \t]+", raw) if not is_utf8(part))
                    self.say(
                        name,
                        line.number + at,
                        word.encode("latin-1")
                        .decode("cp1252", "replace")
                        .encode("utf-8")
                        .decode("latin-1"),
                        "it isn't UTF-8",
                        "iconv -f windows-1252 -t utf-8 %s > NEW" % name,
                    )
            if len(line.text) > LINE_LIMIT:
                self.say(
                    name,
                    line.number,
                    line.text[:20],
                    "the line has more than %d bytes" % LINE_LIMIT,
                    "Part it into two",
                )
            if re.search(r"\\[ \t]+$", line.raw[-1]) and "#" not in line.raw[-1]:
                self.cut.add((name, line.number))
                self.say(
                    name,
                    line.number + len(line.raw) - 1,
                    "\\ ",
                    "white space stands behind the `\\`, so the line doesn't go on",
                    "Take the white space away",
                )
        return [line for line in lines if line.text]

    # The main file.

    def run(self):
        data = self.data_of(
            self.config,
            self.main,
            "Name the main file of a configuration, as conf/config",
        )
        if data is None:
            return self.complaints
        lines = self.lines_of(data, self.main)
        found = [(line.number, *self.parted(line.text)) for line in lines]
        self.privoxys(found)
        self.folders(found)
        for number, name, value in found:
            self.directive(number, name, value)
        if not os.path.isdir(self.folder):
            return self.complaints
        for number, value in self.named["host-list"]:
            self.list_file(number, value)
        for number, value in self.named["filterfile"]:
            self.filter_file(number, value)
        for number, value in self.named["actionsfile"]:
            self.actions_file(number, value)
        if self.pages_folder:
            self.pages()
        if self.too_many:
            self.say(
                self.too_many[0],
                self.too_many[1],
                "",
                "all actions files together have more than %d patterns" % self.most_patterns,
                "Leave hosts of block lists out; helmthread-from-hosts stops there by itself",
            )
        return self.complaints

    def privoxys(self, found):
        """Whether it is a main file of Privoxy's as it is, with a complaint where it is."""
        others = [
            (number, name, value)
            for number, name, value in found
            if name.lower() in tables.ELSEWHERE
            or name.lower() == "confdir" and value == tables.PRIVOXYS_FOLDER
        ]
        if len(others) >= MANY_OTHERS or any(value == tables.PRIVOXYS_FOLDER for _, _, value in others):
            folder = os.path.dirname(self.config) or "."
            self.say(
                self.main,
                *others[0][:2],
                "this is a configuration of Privoxy's, and most of it does nothing as it is",
                "helmthread-from-privoxy %s TO makes one of it that works here" % folder,
            )

    def parted(self, text):
        name, *rest = re.split(r"[ \t]+", text, maxsplit=1)
        return name, rest[0] if rest else ""

    def folders(self, found):
        """confdir and templdir."""
        set_by = {
            name.lower(): (number, value)
            for number, name, value in found
            if name.lower() in ("confdir", "templdir")
        }
        if "confdir" in set_by:
            number, self.folder = set_by["confdir"]
            if not os.path.isdir(self.folder):
                self.say(
                    self.main,
                    number,
                    self.folder,
                    "confdir names no folder",
                    "The folder of your files, or nothing: then it is that of this file",
                )
                return
        number, templates = set_by.get("templdir", (0, os.path.join(self.folder, "templates")))
        if not os.path.isdir(templates):
            self.templates = templates
            if number:
                self.no_templates(number)
            return
        self.pages_folder = templates
        if not os.path.isfile(os.path.join(templates, "image-pattern")):
            self.say(
                self.main,
                number,
                templates,
                "no image-pattern stands in this folder, so blocked images are broken; it may be Privoxy's",
                "templdir and the folder `templates` that came with Helmthread",
            )

    def no_templates(self, number):
        self.say(
            self.main,
            number,
            self.templates,
            "the templates are looked for there, and it is no folder; pages will be plain texts, and blocked "
            "images broken",
            "templdir and the folder `templates` that came with Helmthread",
        )
        self.templates = None

    def directive(self, number, name, value):
        low = name.lower()
        if low in tables.SOCKS4:
            self.say(
                self.main,
                number,
                name,
                "SOCKS4 servers aren't known",
                "forward-socks5 PATTERN HOST:PORT . where the server knows SOCKS5 too",
            )
        elif low not in tables.DIRECTIVES:
            guess = near(re.split(r"[=:]", low)[0], tables.DIRECTIVES)
            if low not in tables.ELSEWHERE:
                self.say(
                    self.main,
                    number,
                    name,
                    "there is no such directive; the line is passed over",
                    "%s%s"
                    % (
                        guess,
                        " and its value, with a space between"
                        if guess and re.search("[=:]", name)
                        else "",
                    )
                    if guess
                    else "One of " + ", ".join(tables.DIRECTIVES),
                )
        elif value == "":
            self.say(
                self.main,
                number,
                name,
                "it has no value",
                {"toggle": "toggle 1"}.get(low, name + " and its value, on one line"),
            )
        else:
            getattr(self, low.replace("-", "_"), lambda *_: None)(number, value)

    def file_name(self, kind, number, value, ending, other):
        self.named[kind].append((number, value))
        if value[:1] in "\"'":
            self.say(
                self.main,
                number,
                value,
                "quotes are part of a name here",
                kind + " " + value.strip("\"'"),
            )
        elif value.startswith("~"):
            self.say(
                self.main,
                number,
                value,
                "`~` isn't replaced",
                "The whole folder, as /home/you" + value[1:],
            )
        elif value.endswith(ending):
            self.named[kind].pop()
            self.say(
                self.main,
                number,
                value,
                "a file of this name belongs to %s" % other,
                "%s %s" % (other, value),
            )
        elif len(self.named[kind]) == 17:
            self.say(
                self.main,
                number,
                value,
                "it is the seventeenth, and there may be 16",
                "Put two files into one",
            )

    def actionsfile(self, number, value):
        self.file_name("actionsfile", number, value, ".filter", "filterfile")

    def filterfile(self, number, value):
        self.file_name("filterfile", number, value, ".action", "actionsfile")

    def host_list(self, number, value):
        name, _, reason = value.partition(" ")
        if reason.strip():
            self.file_name("host-list", number, name, ".action", "actionsfile")
        else:
            self.say(
                self.main,
                number,
                value,
                "the reason is missing for which its hosts are blocked",
                "host-list %s It is on a list" % value,
            )

    def list_file(self, number, name):
        """A list of hosts is looked for alone: `check` says what in it names no host."""
        path = name if name.startswith("/") else os.path.join(self.folder, name)
        if not os.path.isfile(path):
            self.say(
                self.main,
                number,
                name,
                "there is no such file",
                "%sCopy the list there, or put a # before this line" % self.meant(path),
            )

    def listen_address(self, number, value):
        self.listens += 1
        right, here = tables.listens_here(value)
        if not right:
            self.say(
                self.main,
                number,
                value,
                "it isn't HOST:PORT with a port from 1 to 65535",
                "listen-address 127.0.0.1:8118",
            )
        elif not here:
            self.say(
                self.main,
                number,
                value,
                "it isn't an address of this machine alone",
                "listen-address 127.0.0.1:8118",
            )
        elif self.listens > 1:
            self.say(
                self.main,
                number,
                value,
                "it listens at the first listen-address alone",
                "Nothing; take this line away",
            )

    def buffer_limit(self, number, value):
        if not (is_digits(value) and int(value) <= 16384):
            digits = re.match(r"\d*", value)[0]
            size = {"m": 1024, "k": 1}.get(value[len(digits) :].strip()[:1].lower(), 1) * int(
                digits or 4096
            )
            self.say(
                self.main,
                number,
                value,
                "it is a number of kilobytes, 0 to 16384",
                "buffer-limit %d" % min(size, 16384),
            )

    def pattern_limit(self, number, value):
        if is_digits(value) and int(value) <= MOST_PATTERNS:
            self.most_patterns = int(value)
        else:
            self.say(
                self.main,
                number,
                value,
                "it is a number of patterns, 0 to %d" % MOST_PATTERNS,
                "pattern-limit %d" % MOST_PATTERNS,
            )

    def switch(self, number, value, name):
        if value not in ("0", "1"):
            meant = "0" if value.lower() in ("off", "no", "false") else "1"
            self.say(self.main, number, value, "it is 0 or 1", "%s %s" % (name, meant))

    def toggle(self, number, value):
        self.switch(number, value, "toggle")

    def link_reuse(self, number, value):
        self.switch(number, value, "link-reuse")

    def access_log(self, number, value):
        self.switch(number, value, "access-log")

    def handle_as_empty_doc_returns_ok(self, number, value):
        self.switch(number, value, "handle-as-empty-doc-returns-ok")

    def client_specific_tag(self, number, value):
        self.tags.update(value.split()[:1])
        if len(value.split()) < 2:
            self.say(
                self.main,
                number,
                value,
                "a description is missing",
                "client-specific-tag %s What it is for" % value,
            )

    def forward(self, number, value):
        words = value.split()
        if len(words) != 2:
            self.say(
                self.main,
                number,
                value,
                "it is a pattern and a parent",
                "forward / HOST:PORT, or forward / . for none",
            )
            return
        self.url_pattern(self.main, number, words[0])
        self.parent(number, words[1], "forward %s %%s" % words[0])

    def forward_socks5(self, number, value):
        words = value.split()
        if len(words) != 3:
            self.say(
                self.main,
                number,
                value,
                "it is a pattern, a SOCKS server and a parent",
                "forward-socks5 / HOST:PORT . where the server itself connects to the site",
            )
            return
        self.url_pattern(self.main, number, words[0])
        if not tables.is_parent(words[1]):
            self.say(
                self.main,
                number,
                words[1],
                "a SOCKS server with a password can't be used"
                if "@" in words[1]
                else "a SOCKS server is HOST:PORT",
                "forward-socks5 %s HOST:PORT %s" % (words[0], words[2]),
            )
        self.parent(number, words[2], "forward-socks5 %s %s %%s" % (words[0], words[1]))

    forward_socks5t = forward_socks5

    def parent(self, number, word, line):
        if tables.is_parent(word):
            return
        plain = re.sub(r"^\w+://|/+$", "", word)
        if "@" in plain:
            self.say(
                self.main,
                number,
                word,
                "a parent with a password can't be used",
                "A parent that asks for none: HOST:PORT",
            )
        else:
            self.say(
                self.main,
                number,
                word,
                "a parent is HOST:PORT, or `.`",
                line % (plain if tables.is_parent(plain) else "HOST:PORT"),
            )

    def place(self, number, value, what):
        """Where a named file is, and its data."""
        path = value if value.startswith("/") else os.path.join(self.folder, value)
        why = "" if value.startswith("/") else " (confdir is %s)" % self.folder
        data = self.data_of(
            path,
            value,
            "%sNamed in line %d of %s%s; make the file, or put a # before that line"
            % (self.meant(path), number, self.main, why),
        )
        return None if data is None else self.lines_of(data, value)

    def meant(self, path):
        """The file that was surely meant, where there is none of this name."""
        folder, name = os.path.split(path)
        if os.path.exists(path) or not os.path.isdir(folder):
            return ""
        there = [it for it in os.listdir(folder) if os.path.isfile(os.path.join(folder, it))]
        whole = [name + ending for ending in (".action", ".filter") if name + ending in there]
        # (endings alone make no two names alike)
        stem = os.path.splitext(name)[0]
        alike = [it for it in there if near(stem, [os.path.splitext(it)[0]], 0.6)]
        guess = whole[0] if whole else near(name, alike)
        return "Did you mean `%s`? " % guess if guess else ""

    # Filter files.

    def filter_file(self, number, name):
        told, seen = None, set()
        for line in self.place(number, name, "filterfile") or []:
            kind, colon, rest = line.text.partition(":")
            if colon and kind in tables.READ_KINDS + tables.UNREAD_KINDS:
                words = rest.split()
                told = kind
                if not words:
                    self.say(
                        name,
                        line.number,
                        kind + ":",
                        "the filter has no name",
                        kind + ": NAME What it does",
                    )
                elif (kind, words[0]) in seen and kind in tables.READ_KINDS:
                    self.say(
                        name,
                        line.number,
                        words[0],
                        "a filter of this kind and name stands above",
                        "Another name",
                    )
                seen.add((kind, words[0] if words else ""))
                self.filters.setdefault(kind, set()).add(words[0] if words else "")
            elif (
                colon
                and kind.strip().isidentifier() is False
                and near(kind.strip(), [k.lower() for k in tables.READ_KINDS])
                and not line.text.startswith("s")
                or colon
                and kind.strip().upper() in tables.READ_KINDS
            ):
                guess = near(kind.strip(), [k.lower() for k in tables.READ_KINDS]).upper()
                self.say(name, line.number, kind + ":", "no filter begins so", guess + ":" + rest)
                told = guess
            elif (
                colon
                and line.text[:1].isupper()
                and near(kind, [k.lower() for k in tables.READ_KINDS])
            ):
                guess = near(kind, [k.lower() for k in tables.READ_KINDS]).upper()
                self.say(name, line.number, kind + ":", "no filter begins so", guess + ":" + rest)
                told = guess
            elif told is None:
                self.say(
                    name,
                    line.number,
                    line.text[:30],
                    "a job stands before the first filter",
                    "FILTER: NAME What it does, in a line above",
                )
            elif told in tables.READ_KINDS:
                self.job(name, line.number, line.text)

    def job(self, name, number, text):
        """One job. What is wrong with it leaves it out."""
        left = "the job is left out"
        try:
            job = jobs.split(text)
        except Unread as reason:
            write = "s@PATTERN@SUBSTITUTE@FLAGS"
            if text.startswith("s") and len(text) > 2 and "ends before" in str(reason):
                write = "A third `%s` at the end, or `\\#` where the text has a #" % text[1]
            self.say(name, number, text[:40], "%s; %s" % (reason, left), write)
            return
        bad = [flag for flag in job.flags if flag not in jobs.FLAGS]
        if bad:
            self.say(
                name,
                number,
                job.flags,
                "`%s` is no flag; %s" % (bad[0], left),
                "Of the flags g i m s x U T D o",
            )
            return
        if "D" not in job.flags:
            for part, what, write in scan(job.pattern):
                self.say(name, number, part, "%s isn't read; %s" % (what, left), write)
        if "T" not in job.flags:
            self.substitute(name, number, job)

    def substitute(self, name, number, job):
        groups = Reader(job.pattern).total
        for found in re.finditer(r"\\.|\$(\d)", job.substitute):
            digit = found[1]
            if digit == "0":
                self.say(name, number, "$0", "these are two characters here", "$&")
            elif digit and int(digit) > groups and "D" not in job.flags:
                self.say(
                    name,
                    number,
                    "$" + digit,
                    "the expression has %d groups, so it stands for nothing" % groups,
                    "A ( ) round what it is to be",
                )
