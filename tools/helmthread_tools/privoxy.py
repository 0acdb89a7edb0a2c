"""Makes files of Privoxy's configuration into ones of Helmthread's, one function a kind of file."""
from dataclasses import dataclass, field

from . import jobs, rewriting, tables
from .expressions import Unread, is_read_as_it_is, parse, write
from .lines import LINE_LIMIT, escaped, logical, recoded, shown
from .letters import is_alnum, is_digits
from .telling import Told

ROUTE = "forward-override"

# Kinds of what is left out or written otherwise, as the report counts them.
FILTERS_LEFT = "filters without a name, or with the name of another one"
KINDS_LEFT = "filters of kinds that have no effect here"
JOBS_LEFT = "jobs before the first filter"
FILES_LEFT = "files that aren't there, or can't be taken over"
LINES_LEFT = "lines before the first section"
BLOCKS_LEFT = "blocks of an unknown name"
ALIASES_LEFT = "aliases that can't be read, or stand twice"
ACTIONS_LEFT = "actions that aren't known here, or whose value isn't taken"
PATTERNS_LEFT = "patterns that have no form here"
TAGS_LEFT = "client tags that stand twice"
IN_FRONT = "patterns with look-around stand in front of their file, with a section {-block} behind them"
NEW_VALUES = "values became ones that are taken here"
IDLE = "sections without a pattern became comments"
PARTED = "patterns behind a `}` became lines of their own"


class Untaken(Exception):
    """A file can't be taken over, with the reason."""


def as_it_stands(line):
    """A logical line's physical lines, in UTF-8."""
    return [recoded(raw) for raw in line.raw]


def out_of_use(line):
    """The line as a comment."""
    return ["#" + recoded(raw[:-1] if raw.endswith("\\") else raw) for raw in line.raw]


def joined(lines):
    """The bytes of a file of these lines."""
    return "".join(text + "\n" for text in lines).encode("latin-1")


# Filter files.


def filter_file(data, name, report):
    """The converted file's bytes."""
    out, told, seen, skipping = [], None, set(), False
    for line in logical(data):
        place = "%s:%d" % (name, line.number)
        kind, colon, rest = line.text.partition(":")
        if colon and kind in tables.READ_KINDS + tables.UNREAD_KINDS:
            words = rest.split()
            key = (kind, words[0] if words else "")
            unread = kind in tables.UNREAD_KINDS
            skipping = not words or not unread and key in seen
            if skipping:
                report.leave(
                    place,
                    "a filter without a name" if not words else "a second filter %s" % words[0],
                    FILTERS_LEFT,
                )
                out += out_of_use(line)
                continue
            seen.add(key)
            told = None
            if unread:
                why = "%s %s: filters of this kind have no effect" % (kind, words[0])
                report.leave(place, why, KINDS_LEFT)
            else:
                told = Told(kind, words[0])
                report.filters.append(told)
            out += as_it_stands(line)
        elif line.text == "" or told is None and not skipping and seen:
            out += as_it_stands(line)
        elif skipping or told is None:
            if told is None and not skipping:
                report.leave(place, "a job before the first filter", JOBS_LEFT)
            out += out_of_use(line)
        else:
            out += filter_job(line, told)
    return joined(out)


def filter_job(line, told):
    """The lines that stand for one job."""
    told.before += 1
    try:
        made = jobs.convert(line.text, told.kind == "FILTER")
        written = [escaped(recoded(jobs.write_job(job))) for job in made.jobs]
        if any(len(text) > LINE_LIMIT for text in written):
            raise Unread("written anew it is longer than %d bytes" % LINE_LIMIT)
    except Unread as reason:
        told.left.append("line %d: %s" % (line.number, reason))
        return out_of_use(line)
    told.after += 1
    told.nearly += ["line %d: %s" % (line.number, note) for note in made.nearly]
    return written


# Patterns.


@dataclass
class Patterns:
    """What a pattern became: patterns, and ones that take back a block where the first ones match
    too much."""

    patterns: list
    taken_back: list = field(default_factory=list)


def without_look(text, anchored):
    """An expression that only asks for a match, without look-around: (expression, or None; what is
    to be taken back)."""
    tree = parse(text, "i")
    for number in rewriting.references(tree.top):
        rewriting.expand(tree.top, number, False)
    try:
        made = rewriting.Resolver([], True, anchored).alt(
            rewriting.flattened(tree.top, set()), True, True
        )
        return write(rewriting.flattened(made, set())), None
    except Unread:
        tree = parse(text, "i")
    looks = [node for node in rewriting.nodes(tree.top) if isinstance(node, rewriting.Look)]
    last = (
        tree.top.branches[0][-1] if len(tree.top.branches) == 1 and tree.top.branches[0] else None
    )
    if len(looks) != 1 or looks[0] is not last or not (last.ahead and last.negative):
        raise Unread("look-around in this place has no form here")
    front = write(rewriting.Alt([tree.top.branches[0][:-1]]))
    return front, front + "(?:" + write(last.body) + ")"


def host_expression(text):
    """A pattern whose host is an expression. Privoxy 3.0.34 binds it to the end of the host alone, so
    `.*` stands for what may come before."""
    host, slash, path = text.partition("/")
    if host:
        if not (is_read_as_it_is(host) and readable(host)):
            host, back = without_look(host, False)
            if back is not None:
                raise Unread("look-around in this place has no form here")
        if not host.startswith("^") or len(parse(host, "i").top.branches) > 1:
            host = ".*(?:%s$).*" % host
    front = tables.HOST_EXPRESSION + host
    if not slash or is_read_as_it_is(path) and readable(path):
        return Patterns([front + slash + path])
    made, back = without_look(slash + path, True)
    return Patterns([front + made], [] if back is None else [front + back])


def pattern(text):
    """A pattern of a section."""
    word = next((word for word in tables.TAG_WORDS if text.startswith(word)), None)
    if word:
        expression = text[len(word) :]
        if is_read_as_it_is(expression) and readable(expression):
            return Patterns([text])
        made, back = without_look(expression, False)
        if back is not None:
            raise Unread("look-around in this place has no form here")
        return Patterns([word + made])
    if text.startswith(tables.HOST_EXPRESSION):
        return host_expression(text[len(tables.HOST_EXPRESSION) :])
    for prefix in ("http://", "https://"):
        if text.lower().startswith(prefix):
            text = text[len(prefix) :]
    host, slash, path = text.partition("/")
    if not slash or is_read_as_it_is(path) and readable(path):
        return Patterns([text])
    made, back = without_look(slash + path, True)
    return Patterns([host + made], [] if back is None else [host + back])


def readable(expression):
    parse(expression, "i")
    return True


# Actions files.


class ActionsFile:
    """Converts one actions file."""

    def __init__(self, data, name, report):
        self.lines, self.name, self.report = logical(data), name, report
        self.aliases, self.out, self.front, self.front_at = {}, [], [], None
        self.block, self.words = "none", []

    def convert(self):
        """The converted file's bytes."""
        for at, line in enumerate(self.lines):
            if line.text == "":
                self.out += as_it_stands(line)
            elif self.is_idle(at):
                self.report.note(self.place(line), "%s has no pattern" % shown(line.text), IDLE)
                self.out += out_of_use(line)
            elif line.text.startswith("{"):
                self.heading(line)
            elif self.block == "alias":
                self.alias(line)
            elif self.block == "section":
                self.pattern(line)
            elif self.block == "none":
                self.report.leave(
                    self.place(line), "a line before the first section", LINES_LEFT
                )
                self.out += out_of_use(line)
            else:
                self.out += as_it_stands(line)
        if self.front:
            at = len(self.out) if self.front_at is None else self.front_at
            head = [
                "# Patterns with look-around, each without it, and a section that takes back what it left out."
            ]
            self.out[at:at] = head + self.front + [""]
        return joined(self.out)

    def is_idle(self, at):
        """Whether a section begins in this line, and another one right below it."""
        pair = [line.text for line in self.lines[at : at + 2]]
        return (
            len(pair) == 2
            and all(text.startswith("{") for text in pair)
            and not pair[0].startswith("{{")
            and tables.heading_end(pair[0]) == len(pair[0]) - 1
        )

    def place(self, line):
        return "%s:%d" % (self.name, line.number)

    def heading(self, line):
        end = tables.heading_end(line.text)
        if end != len(line.text) - 1:
            if end > 0 and not line.text.startswith("{{"):
                self.report.note(
                    self.place(line), "what stood behind `}` is a pattern of its own line", PARTED
                )
                self.section(line, line.text[: end + 1])
                self.pattern(
                    type(line)(
                        line.number, line.text[end + 1 :].strip(" \t"), [line.text[end + 1 :]]
                    )
                )
                return
            raise Untaken("its braces don't balance in line %d" % line.number)
        inner = line.text[1:-1]
        if inner.startswith("{"):
            name = inner.strip("{} \t").lower()
            self.block = name if name in ("alias", "settings", "description") else "unknown"
            if self.block == "unknown":
                self.report.leave(self.place(line), "a block {{%s}}" % name, BLOCKS_LEFT)
                self.out += out_of_use(line)
            else:
                self.out += as_it_stands(line)
            return
        self.section(line, line.text)

    def section(self, line, text):
        self.block = "section"
        if self.front_at is None:
            self.front_at = self.comments_before()
        words = tables.words_of(text[1:-1])
        self.words = [new for word in words for new in self.word(word, line, self.aliases)]
        if self.words == words and text == line.text:
            self.out += as_it_stands(line)
        else:
            self.out.append(recoded(escaped("{%s}" % " ".join(self.words))))
        for word in self.effective(self.words):
            sign, name, value = tables.parted(word)
            if sign == "+":
                self.report.used.setdefault(name.lower(), set()).add(value)

    def comments_before(self):
        """Where the comment directly before the present line begins."""
        at = len(self.out)
        while at > 0 and self.out[at - 1].startswith("#"):
            at -= 1
        return at

    def effective(self, words):
        """The words with aliases replaced."""
        return [new for word in words for new in self.aliases.get(word.lower(), [word])]

    def alias(self, line):
        name, equals, rest = line.text.partition("=")
        name = name.strip(" \t")
        if (
            not equals
            or not name
            or any(c in " \t{}" for c in name)
            or name.lower() in self.aliases
        ):
            self.unread_alias(line, rest)
            return
        words = tables.words_of(rest)
        made = [new for word in words for new in self.word(word, line, self.aliases)]
        self.aliases[name.lower()] = [
            new for word in made for new in self.aliases.get(word.lower(), [word])
        ]
        self.out += (
            as_it_stands(line)
            if made == words
            else [recoded(escaped("%s = %s" % (name, " ".join(made))))]
        )

    def unread_alias(self, line, rest):
        """An alias that isn't read. One that says which way requests go stays in use."""
        if self.is_route(tables.words_of(rest)):
            self.report.keep(self.place(line), line.text, 20, "an alias of this name stands above")
            self.out += as_it_stands(line)
        else:
            why = "an alias that can't be read, or stands twice"
            self.report.leave(self.place(line), why, ALIASES_LEFT)
            self.out += out_of_use(line)

    def is_route(self, words):
        """Whether the words say which way requests go."""
        return any(tables.parted(it)[1].lower() == ROUTE for it in self.effective(words))

    def word(self, word, line, aliases):
        """The words that stand for a word of a section or of an alias."""
        if word.lower() in aliases:
            return [word]
        sign, name, value = tables.parted(word)
        key = "hide-referrer" if name.lower() == "hide-referer" else name.lower()
        if not sign or key not in tables.ACTIONS:
            self.report.leave(
                self.place(line), "`%s`: no such action" % shown(word), ACTIONS_LEFT
            )
            return []
        shape, rule = tables.ACTIONS[key]
        if shape == tables.FLAG:
            return [word] if value is None else [sign + name]
        if sign == "-":
            return [word] if value is None or shape == tables.LIST else [sign + name]
        if key == ROUTE:
            return [self.route(word, name, value or "", line)]
        return self.valued(word, name, key, value, rule, line)

    def route(self, word, name, value, line):
        """A word that says which way requests go. It stays, whatever its value is."""
        words = value.split()
        if words[:1] and words[0].lower() == "forward":
            words[0] = "forward"
        if tables.value_is_allowed(ROUTE, " ".join(words)):
            return "+%s{%s}" % (name, " ".join(words))
        why = "this action takes `forward HOST:PORT` and `forward .` alone"
        if words[:1] and words[0].lower() in tables.SOCKS5:
            why += "; lines as `%s PATTERN %s` in config do the same for a section's patterns" % (
                words[0].lower(),
                " ".join(words[1:]),
            )
        self.report.keep(self.place(line), word, 15, why)
        return word

    def valued(self, word, name, key, value, rule, line):
        """A word with `+` of an action that takes a value."""
        place = self.place(line)
        if value is None:
            if rule == "any":
                return ["+%s{}" % name]
            if key == "fast-redirects":
                return ["+%s{simple-check}" % name]
            self.report.leave(place, "`%s` without a value" % shown(word), ACTIONS_LEFT)
            return []
        if (
            key in tables.FIXED_WORDS
            and value not in tables.FIXED_WORDS[key]
            and value.lower() in tables.FIXED_WORDS[key]
        ):
            return ["+%s{%s}" % (name, value.lower())]
        if key == "redirect" and len(value) > 2 and value[0] == "s" and not is_alnum(value[1]):
            return self.redirect(word, name, value, place)
        if not tables.value_is_allowed(key, value):
            mended = {"fast-redirects": "simple-check"}.get(key)
            if rule == "ports":
                mended = (
                    value.replace("0-", "-") if tables.is_ports(value.replace("0-", "-")) else None
                )
            if mended:
                self.report.note(place, "`%s` became {%s}" % (shown(word), mended), NEW_VALUES)
                return ["+%s{%s}" % (name, mended)]
            why = "`%s`: a value that isn't taken here" % shown(word)
            if rule == "ports":
                self.report.way(place, why + "; without it tunnels may go to all ports")
            else:
                self.report.leave(place, why, ACTIONS_LEFT)
            return []
        return [word]

    def redirect(self, word, name, value, place):
        try:
            made = jobs.convert(value, False)
            if len(made.jobs) != 1:
                raise Unread("it would take several jobs")
            text = jobs.write_job(made.jobs[0])
            if text == "s%s(?-u)%s" % (value[1], value[2:]):
                return [word]
            text = text.replace("(?-u)", "", 1)
            if not tables.balanced(text):
                raise Unread("its braces don't balance")
            return ["+%s{%s}" % (name, text)]
        except Unread as reason:
            self.report.leave(place, "`%s`: %s" % (shown(word), reason), ACTIONS_LEFT)
            return []

    def pattern(self, line):
        if self.is_route(self.words) and line.text.startswith(tables.REQUEST_TAGS):
            self.tagged(line)
        try:
            made = pattern(line.text)
        except Unread as reason:
            self.unread(line, reason)
            return
        if made.taken_back:
            self.pair(line, made)
        elif made.patterns == [line.text]:
            self.out += as_it_stands(line)
        else:
            self.out += [recoded(escaped(text)) for text in made.patterns]

    def tagged(self, line):
        """A pattern for a tag of a request, in a section that says which way requests go."""
        if line.text.startswith(tables.CLIENT_TAG):
            why = "this way is taken only while a client has put such a tag on, and a start begins without"
            self.report.way(self.place(line), "`%s`: %s" % (shown(line.text), why))
        else:
            self.report.tagged.append(self.place(line))

    def unread(self, line, reason):
        """A pattern that has no form. In a section that says which way requests go it stays in
        use."""
        if self.is_route(self.words):
            self.report.keep(self.place(line), line.text, 6, reason)
            self.out += as_it_stands(line)
        else:
            why = "the pattern `%s`: %s" % (shown(line.text), reason)
            self.report.leave(self.place(line), why, PATTERNS_LEFT)
            self.out += out_of_use(line)

    def pair(self, line, made):
        """The pattern without look-around and a section that takes it back, before all other
        sections."""
        words = self.effective(self.words)
        if self.is_route(words) or not any(tables.parted(it)[:2] == ("+", "block") for it in words):
            self.unread(line, "look-around in a section that doesn't only block")
            return
        self.front += [
            recoded(escaped(text))
            for text in [
                "{%s}" % " ".join(self.words),
                *made.patterns,
                "{-block}",
                *made.taken_back,
            ]
        ]
        self.report.note(
            self.place(line),
            "the pattern `%s` stands in front of the file, with a section {-block} behind it"
            % shown(line.text),
            IN_FRONT,
        )
        self.out += out_of_use(line)


# The main file.


@dataclass
class Lost:
    """A named file that isn't taken over: why, and whether it may say which way requests go."""

    why: str
    may_lead: bool


class MainFile:
    """Converts a main file."""

    def __init__(self, data, report):
        self.lines, self.report, self.listens, self.tags = logical(data), report, False, set()
        self.kept = {"actionsfile": [], "filterfile": []}

    def names(self):
        """The files that are named, in order, and confdir, as written."""
        folder = None
        for line in self.lines:
            directive, value = self.parted(line)
            if directive in self.kept and value:
                self.kept[directive].append(value)
            elif directive == "confdir" and value:
                folder = value
        return folder, self.kept

    def convert(self, folder, renamed, first, limit):
        """The converted file's bytes. `renamed` maps a name as written to its new names, or to a
        `Lost`; `first` is an actions file that is read before all others; `limit` is the
        pattern-limit that is needed, or None."""
        out, done = [], False
        for line in self.lines:
            directive, value = self.parted(line)
            if directive == "actionsfile" and not done:
                out += ["# Read first: what holds for all pages.", "actionsfile %s" % first]
                done = True
            if directive in self.kept:
                out += self.file_line(line, directive, value, renamed)
            elif line.text == "":
                out += as_it_stands(line)
            else:
                out += self.directive(line, directive, value)
        if not done:
            out.append("actionsfile %s" % first)
        if limit:
            out += ["", "# So many patterns stand in the actions files.", "pattern-limit %d" % limit]
        out += [
            "",
            "# Where these files stand, and Helmthread's own pages.",
            "confdir " + folder,
            "templdir " + folder + "/templates",
        ]
        return joined(out)

    def parted(self, line):
        """A line's directive, in small letters, and its value."""
        name, *rest = line.text.split(None, 1)[:2] or [""]
        return name.lower(), rest[0] if rest else ""

    def file_line(self, line, directive, value, renamed):
        place = "config:%d" % line.number
        new = renamed.get(value, Lost("it names no file", False))
        if isinstance(new, Lost):
            if new.may_lead:
                why = "%s, and it may say which way requests go" % new.why
                self.report.keep(place, line.text, 32, why)
                # (by its last name, so that no file elsewhere is read for it)
                return ["%s %s" % (directive, value.rpartition("/")[2])]
            self.report.leave(place, "%s %s: %s" % (directive, shown(value), new.why), FILES_LEFT)
            return out_of_use(line)
        if new == [value]:
            return as_it_stands(line)
        return ["%s %s" % (directive, name) for name in new]

    def directive(self, line, name, value):
        place = "config:%d" % line.number
        if name == "confdir":
            return out_of_use(line)
        if name in tables.SOCKS4:
            return self.kept_line(line, place, "SOCKS4 servers aren't known")
        if name not in tables.DIRECTIVES:
            self.without_effect(line, name, value, place)
            return out_of_use(line)
        return getattr(self, name.replace("-", "_"))(line, value, place)

    def without_effect(self, line, name, value, place):
        why = tables.ELSEWHERE.get(name, "no such directive")
        if name in tables.WHO_IS_SERVED and value != "0":
            self.report.way(place, "`%s` has no effect: %s" % (shown(line.text), why))
        else:
            self.report.without_effect(place, name, why)

    def templdir(self, line, value, place):
        self.report.way(
            place, "`templdir %s`: Helmthread's pages stand in the place of these" % shown(value)
        )
        return out_of_use(line)

    def listen_address(self, line, value, place):
        right, here = tables.listens_here(value)
        if self.listens:
            self.report.way(
                place,
                "`listen-address %s`: it listens at the first address alone, and this line is a comment; "
                "who comes by this one gets no connection" % shown(value),
            )
            return out_of_use(line)
        self.listens = True
        if right and here:
            return as_it_stands(line)
        port = value.rpartition(":")[2]
        new = "127.0.0.1" + (":" + port if is_digits(port) and 0 < int(port) < 65536 else "")
        self.report.way(
            place,
            "`listen-address %s` became %s: this machine alone is served, others get no connection"
            % (shown(value), new),
        )
        return ["listen-address " + new]

    def buffer_limit(self, line, value, place):
        return self.number(line, value, place, "buffer-limit", 16384)

    def pattern_limit(self, line, value, place):
        return self.number(line, value, place, "pattern-limit", 40000)

    def number(self, line, value, place, name, most):
        """A line whose value is a number up to `most`."""
        if is_digits(value) and int(value) <= most:
            return as_it_stands(line)
        why = "`%s %s` became %d, which is the most" % (name, shown(value), most)
        self.report.note(place, why, NEW_VALUES)
        return ["%s %d" % (name, most)]

    def forward(self, line, value, place):
        words = value.split()
        if len(words) == 2 and tables.is_parent(words[1]):
            return self.forward_line(line, words, place)
        return self.kept_line(line, place, "a parent is a host, or host:port, without a password")

    def forward_line(self, line, words, place):
        """A line that says which way requests go, with a pattern and right places."""
        if tables.has_protocol(words[0]):
            return self.kept_line(line, place, "a pattern has no http:// in front", 3)
        if words[0].startswith(tables.HOST_EXPRESSION):
            return self.kept_line(line, place, "an expression for a host isn't known here", 4)
        try:
            made = pattern(words[0])
        except Unread as reason:
            return self.kept_line(line, place, reason, 6)
        if made.patterns == words[:1]:
            return as_it_stands(line)
        if made.taken_back or len(made.patterns) != 1:
            return self.kept_line(line, place, "look-around in a pattern has no form here", 6)
        directive = line.text.split(None, 1)[0]
        return [recoded(escaped(" ".join([directive, made.patterns[0], *words[1:]])))]

    def kept_line(self, line, place, why, fault=29):
        """A line that `check` refuses and that stays: without it requests would go another way."""
        self.report.keep(place, line.text, fault, why)
        return as_it_stands(line)

    def forward_socks5(self, line, value, place):
        words = value.split()
        if len(words) == 3 and all(map(tables.is_parent, words[1:])):
            return self.forward_line(line, words, place)
        why = "it is a pattern, a SOCKS server and a parent, both HOST:PORT without a password"
        return self.kept_line(line, place, why)

    forward_socks5t = forward_socks5

    def switch(self, line, value, place):
        if value in ("0", "1"):
            return as_it_stands(line)
        self.report.note(place, "`%s` became 1" % shown(line.text), NEW_VALUES)
        return [line.text.split()[0] + " 1"]

    toggle = switch
    handle_as_empty_doc_returns_ok = switch

    def link_reuse(self, line, value, place):
        if value in ("0", "1"):
            return as_it_stands(line)
        self.report.note(place, "`%s` became 0" % shown(line.text), NEW_VALUES)
        return ["link-reuse 0"]

    def client_specific_tag(self, line, value, place):
        words = value.split(None, 1)
        if not words or words[0] in self.tags:
            self.report.leave(
                place, "`client-specific-tag %s` stands twice" % shown(value), TAGS_LEFT
            )
            return out_of_use(line)
        self.tags.add(words[0])
        self.report.way(
            place,
            "`client-specific-tag %s`: a start of `serve` begins without it; a client puts it on at %s and takes it "
            "off at %s, for all who come from his address"
            % (shown(words[0]), *(tables.tag_link(switch, words[0]) for switch in ("on", "off"))),
        )
        return (
            as_it_stands(line)
            if len(words) == 2
            else ["client-specific-tag %s %s" % (words[0], words[0])]
        )

