"""What the conversion of a configuration of Privoxy's has to tell, and how it is told: first what
changes who is served and by which way, then one line a kind, then line by line.
"""
import os
from dataclasses import dataclass, field

from .lines import shown

# What stands for a filter of Debian's that may have nothing left, among the filters of
# conf/default.filter.
STANDS_FOR = {
    "all-popups": "same-window and quiet-windows",
    "banners-by-size": "banner-sizes",
    "jumping-windows": "still-windows",
    "no-ping": "no-pings",
    "refresh-tags": "no-reload",
    "unsolicited-popups": "quiet-windows",
    "webbugs": "tiny-images",
}

# What holds otherwise where an action is used. An action, a test on its values, and a sentence.
OTHERWISE = [
    ("deanimate-gifs", None, "deanimate-gifs: pictures stay as they are."),
    ("delay-response", None, "delay-response: there are no delays."),
    ("external-filter", None, "external-filter: no programs are run."),
    ("client-body-filter", None, "client-body-filter: what browsers send isn't changed."),
    ("client-body-tagger", None, "client-body-tagger: what browsers send isn't looked at."),
    (
        "https-inspection",
        None,
        "https-inspection: https is a tunnel; hosts can be blocked, pages can't be filtered.",
    ),
    (
        "session-cookies-only",
        None,
        "session-cookies-only also drops max-age, and a moment in the past by which a server deletes a cookie.",
    ),
    (
        "limit-cookie-lifetime",
        None,
        "limit-cookie-lifetime: max-age is capped too, and session-cookies-only beats it.",
    ),
    ("hide-user-agent", None, "hide-user-agent leaves fields that begin with UA- alone."),
    (
        "overwrite-last-modified",
        "randomize",
        "overwrite-last-modified{randomize}: the field stays as it is.",
    ),
    (
        "hide-if-modified-since",
        "minutes",
        "hide-if-modified-since with minutes: the field stays as it is.",
    ),
    (
        "fast-redirects",
        "check-decoded-url",
        "fast-redirects{check-decoded-url} takes the address to the end of the path.",
    ),
    (
        "redirect",
        None,
        "redirect: of redirect and fast-redirects the first that gives an address is taken.",
    ),
    (
        "downgrade-http-version",
        None,
        "downgrade-http-version: the request is HTTP/1.0, the answer isn't.",
    ),
    (
        "client-header-filter",
        None,
        "client-header-filter sees neither Host nor Connection nor Content-Length; Host follows the request line.",
    ),
    ("limit-connect", None, "limit-connect: a tunnel elsewhere gets the page connect-denied."),
]

SAME, NEARLY, NOTHING = "the same", "nearly the same", "nothing left"
# How many places a line of a kind names.
PLACES = 6


@dataclass
class Told:
    """What is told of one filter: its kind and name, jobs of before and of now, what differs, what
    was left out."""

    kind: str
    name: str
    before: int = 0
    after: int = 0
    nearly: list = field(default_factory=list)
    left: list = field(default_factory=list)

    def outcome(self):
        if self.before and not self.after:
            return NOTHING
        return NEARLY if self.left or self.nearly else SAME

    def lines(self):
        """The report's lines on it."""
        outcome, head = self.outcome(), "%s %s: " % (self.kind.lower(), self.name)
        if outcome == NOTHING:
            stands = STANDS_FOR.get(self.name)
            more = ["in Helmthread's default.filter stands for it: " + stands] if stands else []
            return [head + NOTHING] + ["  " + text for text in self.left + more]
        left = self.before - self.after
        counts = " (%d of %d jobs left out)" % (left, self.before) if left else ""
        return [head + outcome + counts] + ["  " + shown(it) for it in self.left + self.nearly]


@dataclass
class Report:
    """What the whole conversion has to tell. `kept` has the lines that stay though `check` refuses
    them, `ways` what else changes who is served and by which way; `left`, `notes` and `idle` have
    (place, text) for each kind. `used` has the actions of all sections and the values that they
    were given, `tagged` the places whose way hangs on a tag of a request."""

    filters: list = field(default_factory=list)
    kept: list = field(default_factory=list)
    ways: list = field(default_factory=list)
    left: dict = field(default_factory=dict)
    notes: dict = field(default_factory=dict)
    idle: dict = field(default_factory=dict)
    used: dict = field(default_factory=dict)
    tagged: list = field(default_factory=list)

    def keep(self, place, text, fault, why):
        """A line that says which way requests go, and has no form here. It stays, since `check`
        refuses it then; without it nothing would be said of the other way."""
        self.kept.append(
            "%s: `%s` is kept, and `check` refuses it (%d): %s. Without it these requests would go "
            "directly, or by another line that matches them" % (place, shown(text), fault, why)
        )

    def way(self, place, text):
        self.ways.append("%s: %s" % (place, text))

    def note(self, place, text, kind):
        self.notes.setdefault(kind, []).append((place, text))

    def leave(self, place, text, kind):
        self.left.setdefault(kind, []).append((place, text))

    def without_effect(self, place, name, why):
        self.idle.setdefault(why, []).append((place, "`%s`" % name))


def indented(lines, otherwise):
    return ["  " + text for text in lines or [otherwise]]


def way_lines(report):
    """What changes who is served, and by which way."""
    lines = report.kept + report.ways
    taggers = [it.name for it in report.filters if it.kind.endswith("TAGGER") and it.left]
    if taggers and report.tagged:
        lines.append(
            "%s: the way hangs on a tag, and jobs of taggers are left out (%s): see to it that the "
            "tag is still made" % (", ".join(report.tagged), ", ".join(taggers))
        )
    return lines


def counted(kind, found):
    places = [place for place, _ in found]
    more = " and %d more" % (len(places) - PLACES) if len(places) > PLACES else ""
    return "%d %s: %s%s" % (len(found), kind, ", ".join(places[:PLACES]), more)


def kind_lines(report):
    """One line for each kind of what was left out, written otherwise, or has no effect."""
    by_outcome = {it: [told for told in report.filters if told.outcome() == it] for it in (SAME, NEARLY, NOTHING)}
    counts = "%d filters: " % len(report.filters)
    counts += ", ".join("%d %s" % (len(found), it) for it, found in by_outcome.items())
    lines = [counts]
    lines += ["left out: " + counted(kind, found) for kind, found in report.left.items()]
    lines += ["otherwise: " + counted(kind, found) for kind, found in report.notes.items()]
    for why, found in report.idle.items():
        lines.append("without effect: %s (%s)" % (", ".join(dict(map(reversed, found))), why))
    return lines


def otherwise_lines(report):
    """What no longer does what it did, of the actions in use."""
    lines = ["Pages over compressed connections come plain now: servers are asked for them so."]
    for name, value, text in OTHERWISE:
        values = report.used.get(name)
        if values and (
            value is None or value in values or value == "minutes" and values - {"block"}
        ):
            lines.append(text)
    return lines + ["Chapter 12 of the manual has the rest."]


def single_lines(report):
    """Line by line what was left out or written otherwise."""
    lines = []
    for one in report.filters:
        lines += one.lines() if one.outcome() != SAME else []
    for found in [*report.left.values(), *report.notes.values()]:
        lines += ["%s: %s" % pair for pair in found]
    return lines


def report_lines(report, to):
    """The whole report."""
    parts = [
        ("First: who is served, and by which way", indented(way_lines(report), "as before")),
        ("One line a kind", indented(kind_lines(report), "")),
        ("No longer does what it did", indented(otherwise_lines(report), "")),
        ("Line by line", indented(single_lines(report), "nothing")),
    ]
    lines = [line for head, found in parts for line in [head, *found, ""]]
    config = os.path.join(to, "config")
    if report.kept:
        lines.append(
            "`check` refuses %d of the lines until you have decided on them; they stand first above."
            % len(report.kept)
        )
    lines.append("Lines are counted in Privoxy's files.")
    return lines + ["Now try: helmthread check " + config]
