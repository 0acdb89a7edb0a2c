"""Reads the hosts of a list: hosts files, names alone, lists for Adblock, and lists for dnsmasq, for
unbound and for response policy zones (RPZ).
"""
import ipaddress
import re
from dataclasses import dataclass

OWN_NAMES = {
    "localhost",
    "localhost.localdomain",
    "local",
    "localdomain",
    "broadcasthost",
    "ip6-localhost",
    "ip6-loopback",
    "ip6-localnet",
    "ip6-mcastprefix",
    "ip6-allnodes",
    "ip6-allrouters",
    "ip6-allhosts",
    "0.0.0.0",
}
NOWHERE = {"0.0.0.0", "127.0.0.1", "::", "::1", "0", "255.255.255.255"}
LABEL = re.compile(r"[a-z0-9_]([a-z0-9_-]{0,61}[a-z0-9_])?\Z")
LAST_LABEL = re.compile(r"[a-z][a-z0-9-]*[a-z0-9]\Z")
# A line of a list for Adblock that is a name alone means that host; other words are pieces of
# addresses.
PLAIN_NAME = re.compile(r"[a-z0-9]([a-z0-9-]*[a-z0-9])?(\.[a-z0-9]([a-z0-9-]*[a-z0-9])?)+\Z", re.I)
FILE_ENDINGS = set("asp aspx cgi css gif htm html jpeg jpg js json jsp php png svg swf webp xml".split())

ADBLOCK_LIST = re.compile(r"^(\[Adblock|(@@)?\|\|\S+\^)", re.M)
ADBLOCK_RULE = re.compile(r"(@@)?\|\|([^/^$|*]+)\^(?:\$(.*))?\Z")
HIDING = ("##", "#@#", "#?#", "#$#", "#%#")
# Conditions of Adblock by which the host itself is blocked, and those that say by whom it is asked.
WHOLE_HOST = {"important", "all", "doc", "document", "popup"}
THIRD_PARTY = {"third-party", "3p"}

DNSMASQ = re.compile(r"(address|server|local)=/(.*)/([^/\s]*)(\s+#.*)?\Z")
UNBOUND_ZONE = re.compile(r"""local-zone:\s*["']?([^"'\s]+)["']?\s+["']?(\w+)["']?""")
UNBOUND_DATA = re.compile(r"""local-data:\s*(?:"([^"]*)"|'([^']*)')""")
CLOSED_ZONES = set(
    "deny refuse static redirect inform_deny inform_redirect always_refuse always_nxdomain "
    "always_nodata always_deny always_null".split()
)
OPEN_ZONES = {"transparent", "typetransparent", "always_transparent", "inform"}
# Zones that may also hold data, by which their hosts are led elsewhere.
DATA_ZONES = {"static", "redirect", "inform_redirect"}
RECORD = re.compile(
    r"(\S*)\s+(?:(?:\d\w*|IN)\s+){0,2}(SOA|NS|CNAME|DNAME|A|AAAA|TXT|MX|PTR|SRV)\s+(\S.*)\Z", re.I
)
RPZ_ADDRESSES = (".rpz-ip", ".rpz-client-ip", ".rpz-nsip", ".rpz-nsdname")
RPZ_BLOCKS = {".", "*.", "rpz-drop."}

NO_HOSTS = "names that are no hosts"
ELSEWHERE = "lines that lead a host elsewhere"
OTHER_FORM = "lines of another form"
PIECES = "rules of Adblock for addresses within a host"


@dataclass(frozen=True)
class Entry:
    """A host as a pattern has it, whether all below it is meant, whether it is let through, and
    whether that holds above entries that aren't important."""

    host: str
    below: bool
    allows: bool = False
    important: bool = False


class Left:
    """What was left out, by reason, with the first line of each."""

    def __init__(self):
        self.reasons = {}

    def add(self, reason, number):
        count, first = self.reasons.get(reason, (0, number))
        self.reasons[reason] = (count + 1, first)

    def lines(self):
        return [
            "left out: %d %s (first in line %d)" % (count, reason, first)
            for reason, (count, first) in self.reasons.items()
        ]


def host_of(name):
    """A host as a pattern has it, or None. A host has a dot, and isn't digits at its end."""
    name = name.rstrip(".").lower()
    if not name.isascii():
        try:
            name = name.encode("idna").decode("ascii")
        except UnicodeError:
            return None
    labels = name.split(".")
    if len(name) > 253 or len(labels) < 2 or not LAST_LABEL.match(labels[-1]):
        return None
    return name if all(LABEL.match(label) for label in labels) else None


def address(text):
    try:
        return ipaddress.ip_address(text.partition("%")[0])
    except ValueError:
        return None


def is_nowhere(text):
    return text in NOWHERE or str(address(text)) in NOWHERE


def pattern_of_address(found):
    return str(found) if found.version == 4 else "<%s>" % found


class Reader:
    """Reads one list. `left` says what was left out."""

    def __init__(self, text, below, third_party):
        self.lines = [line.rstrip().lstrip("\ufeff") for line in text.splitlines()]
        self.below, self.third_party, self.left = below, third_party, Left()
        self.is_adblock = ADBLOCK_LIST.search(text) is not None
        # Of an RPZ: the zone, the name behind those without a dot at the end, the last owner, and
        # whether a bracket of a record is open.
        self.zone, self.origin, self.owner, self.is_open = "", "", "", False
        # The names that data of unbound lead elsewhere.
        self.led = {name for name, led in map(self.unbound_data, self.lines) if led}

    def entries(self):
        for number, line in enumerate(self.lines, 1):
            yield from self.line(line, number)

    def line(self, line, number):
        text = line.strip()
        if not text or text[0] in "#!;" or text.startswith("[Adblock"):
            return []
        if self.is_open or text[0] == "$" and not self.is_adblock:
            return self.zone_line(text)
        record = None if self.is_adblock else RECORD.match(line.partition(";")[0].rstrip())
        if record and address(record[1]) is None:
            return self.record(*record.groups(), number)
        if DNSMASQ.match(text):
            return self.dnsmasq(*DNSMASQ.match(text).groups()[:3], number)
        if re.match(r"local-(zone|data)|server:\s*(#.*)?\Z", text):
            return self.unbound(text, number)
        if text.startswith(("|", "@@", "/")) or "^" in text or is_hiding(text):
            return self.adblock(text, number)
        return self.names(text.split("#")[0].split(), number)

    def leave(self, reason, number):
        self.left.add(reason, number)
        return []

    # Hosts files, and names alone.

    def names(self, words, number):
        if not words:
            return []
        found = address(words[0])
        if len(words) > 1 and (found is not None or words[0] in NOWHERE):
            return self.hosts_line(words, found, number)
        if len(words) > 1:
            return self.leave(OTHER_FORM, number)
        if self.is_adblock and not is_plain_name(words[0]):
            return self.leave(PIECES, number)
        return self.name(words[0], number)

    def hosts_line(self, words, found, number):
        if not is_nowhere(words[0]):
            is_own = found.is_link_local or found.is_multicast
            return [] if is_own else self.leave(ELSEWHERE, number)
        return [entry for name in words[1:] for entry in self.name(name, number)]

    def name(self, name, number, below=False, allows=False):
        """The entry for one name."""
        if name.lower() in OWN_NAMES:
            return []
        found = address(name.strip("[]"))
        if found is not None:
            return [Entry(pattern_of_address(found), False, allows)]
        host = host_of(name.lstrip("*").lstrip("."))
        if host is None:
            return self.leave(NO_HOSTS, number)
        return [Entry(host, below or self.below or name.startswith(("*.", ".")), allows)]

    # Lists for Adblock.

    def adblock(self, line, number):
        if is_hiding(line):
            return self.leave("rules of Adblock that hide parts of a page", number)
        found = ADBLOCK_RULE.match(line)
        if not found:
            allows = "that allow addresses within a host" if line.startswith("@@") else None
            return self.leave("rules of Adblock " + allows if allows else PIECES, number)
        conditions = set(found[3].lower().split(",")) if found[3] else set()
        known = {"important"} if found[1] else WHOLE_HOST | THIRD_PARTY
        if conditions - known:
            what = "that allow something on conditions" if found[1] else "with conditions"
            return self.leave("rules of Adblock " + what, number)
        if conditions & THIRD_PARTY and not self.third_party:
            why = "rules of Adblock for third parties alone (--third-party takes them)"
            return self.leave(why, number)
        allows, important = bool(found[1]), "important" in conditions
        host = address(found[2].strip("[]"))
        if host is not None:
            return [Entry(pattern_of_address(host), False, allows, important)]
        host = host_of(found[2])
        if host is None:
            return self.leave(NO_HOSTS, number)
        return [Entry(host, True, allows, important)]

    # Lists for dnsmasq. A name means all below it, too.

    def dnsmasq(self, word, names, value, number):
        allows = word == "server" and value == "#"
        is_blocked = not value or word == "address" and (value == "#" or is_nowhere(value))
        if not (allows or is_blocked):
            return self.leave(ELSEWHERE, number)
        found = [name for name in names.split("/") if name]
        return [entry for name in found for entry in self.name(name, number, True, allows)]

    # Lists for unbound.

    def unbound(self, line, number):
        zone = UNBOUND_ZONE.match(line)
        if zone:
            return self.unbound_zone(zone[1].rstrip("."), zone[2].lower(), number)
        if line.startswith("server:"):
            return []
        name, led = self.unbound_data(line)
        if name is None:
            return self.leave(OTHER_FORM, number)
        return self.leave(ELSEWHERE, number) if led else self.name(name, number)

    def unbound_zone(self, name, kind, number):
        if kind in DATA_ZONES and any(("." + it).endswith("." + name.lower()) for it in self.led):
            return self.leave(ELSEWHERE, number)
        if kind not in CLOSED_ZONES | OPEN_ZONES:
            return self.leave(OTHER_FORM, number)
        return self.name(name, number, True, kind in OPEN_ZONES)

    def unbound_data(self, line):
        """(the name, whether it is led elsewhere) of a line with data; (None, False) of others."""
        found = UNBOUND_DATA.match(line.strip())
        record = RECORD.match((found[1] or found[2] or "").strip()) if found else None
        if not record:
            return None, False
        is_address = record[2].upper() in ("A", "AAAA")
        return record[1].rstrip(".").lower(), not (is_address and is_nowhere(record[3].strip()))

    # Response policy zones.

    def zone_line(self, text):
        """A line that is no record: `$TTL`, `$ORIGIN`, or one within brackets."""
        words = text.split()
        if self.is_open:
            self.is_open = ")" not in text
        elif words[0].upper() == "$ORIGIN" and len(words) > 1:
            self.origin = self.whole(words[1])
            self.zone = self.zone or self.origin
        return []

    def whole(self, owner):
        """An owner's name from the root, without the last dot."""
        if owner == "@":
            return self.origin
        if owner.endswith(".") or not self.origin:
            return owner.rstrip(".").lower()
        return owner.lower() + "." + self.origin

    def record(self, owner, kind, value, number):
        self.owner = self.whole(owner) if owner else self.owner
        kind, name = kind.upper(), self.owner
        self.is_open = "(" in value and ")" not in value
        if kind == "SOA":
            self.zone = name
        if kind in ("SOA", "NS", "TXT") or name == self.zone:
            return []
        if self.zone and name.endswith("." + self.zone):
            name = name[: -len(self.zone) - 1]
        if name.endswith(RPZ_ADDRESSES):
            return self.leave("rules of RPZ for addresses and servers of names", number)
        value = value.split()[0].lower()
        is_blocked = value in RPZ_BLOCKS if kind == "CNAME" else is_nowhere(value)
        if is_blocked or kind == "CNAME" and value == "rpz-passthru.":
            return self.name(name, number, allows=not is_blocked)
        return self.leave(ELSEWHERE, number)


def is_hiding(line):
    """Whether it is a rule of Adblock that hides parts of a page."""
    return any(it in line.split()[0] for it in HIDING)


def is_plain_name(word):
    ending = word.rpartition(".")[2].lower()
    return PLAIN_NAME.match(word) is not None and ending not in FILE_ENDINGS


# What a source that is no list looks like: its first bytes, a name, and what makes a list of it.
OTHER_FORMS = (
    (b"\x1f\x8b", "a file packed by gzip", "gzip -dc"),
    (b"\xfd7zXZ\0", "a file packed by xz", "xz -dc"),
    (b"BZh", "a file packed by bzip2", "bzip2 -dc"),
    (b"\x28\xb5\x2f\xfd", "a file packed by zstd", "zstd -dc"),
    (b"PK\3\4", "a zip archive", "unzip -p"),
    (b"7z\xbc\xaf\x27\x1c", "a 7z archive", "7z x -so"),
    (b"\xff\xfe", "a text in UTF-16", "iconv -f utf-16 -t utf-8"),
    (b"\xfe\xff", "a text in UTF-16", "iconv -f utf-16 -t utf-8"),
)
HTML = re.compile(rb"\s*(<!--.*?-->\s*)*<(!doctype\s+html|html|head|body)\b", re.I | re.S)
TITLE = re.compile(rb"<title[^>]*>\s*([^<]{1,80})", re.I)


def kind_of(data):
    """What a source surely is, where that is no list; or None."""
    for begins, what, _ in OTHER_FORMS:
        if data.startswith(begins):
            return what
    page = data[3:] if data.startswith(b"\xef\xbb\xbf") else data
    if HTML.match(page):
        title = TITLE.search(page)
        told = " with the title `%s`" % title[1].decode("utf-8", "replace").strip() if title else ""
        return "an HTML page%s, perhaps of an error" % told
    if b"\0" in data[:65536]:
        return "bytes that are no text"
    return None


def looks_like(data, name):
    """What a source surely is, where that is no list, and what to do; or None."""
    kind = kind_of(data)
    for begins, _, command in OTHER_FORMS:
        if data.startswith(begins):
            how = "%s %s | helmthread-from-hosts - TO" % (command, name)
            return "%s. Make a text of it: %s" % (kind, how)
    return kind + ". Fetch the list itself" if kind else None


def without_hosts(data):
    """What a source looks like in which no host was found."""
    text = data.strip()
    if not text:
        return "an empty file"
    if text[:1] == b"<":
        return "a page in XML or HTML"
    if text[:1] in (b"{", b"[") and text[-1:] in (b"}", b"]") and not text.startswith(b"[Adblock"):
        return "JSON"
    return "a text in which no line names a host"
