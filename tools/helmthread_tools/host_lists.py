"""Which hosts a list names, read as `host-list` reads it. The rules stand in docs/MANUAL.md,
chapter 4, and in crates/px_host_lists.
"""
import functools
import io
import re
from dataclasses import dataclass, field

# What all lists of a main file may have together.
MOST_HOSTS, MOST_BYTES = 2000000, 67108864

FRONT_MARK = b"\xef\xbb\xbf"
WORD = re.compile(rb"[^ \t\r\n]+")
# Labels with a dot between them, and not digits and dots alone.
HOST = re.compile(rb"(?=.{1,253}\Z)(?![0-9.]+\Z)[\w-]{1,63}(?:\.[\w-]{1,63})+\Z")
# A rule `||host^`, with options that leave it for the whole of a host.
OPTION = rb"(?:important|all|document|doc|popup)"
RULE = re.compile(rb"\|\|([^^]*)\^(?:\$" + OPTION + rb"(?:," + OPTION + rb")*)?\Z", re.I)
OWN_NAME = b"localhost.localdomain"


@dataclass
class HostList:
    """What a list has: its hosts in small letters, each once; how many it names, those that it
    names again too; on how many lines something else stands, and the first of these."""

    hosts: set = field(default_factory=set)
    taken: int = 0
    passed: int = 0
    first_passed: int = 0


def read_list(data):
    out, lines = HostList(), io.BytesIO(data)
    lines.seek(len(FRONT_MARK) if data.startswith(FRONT_MARK) else 0)
    for number, line in enumerate(lines, 1):
        hosts = hosts_on(line)
        named = [host for host in hosts if host is not None]
        out.hosts.update(named)
        out.taken += len(named)
        if len(named) < len(hosts):
            out.passed += 1
            out.first_passed = out.first_passed or number
    return out


def hosts_on(line):
    """The hosts of a line, and None in the place of each word that is none."""
    words = WORD.findall(line)
    if b"#" in line or b"!" in line:
        words = words[: next((at for at, word in enumerate(words) if word[0] in b"#!"), None)]
    if not words:
        return []
    if is_address(words[0]):
        return [host_named(word) for word in words[1:]] or [None]
    return [rule_host(words[0]) if len(words) == 1 else None]


def host_named(name):
    """The host that a name is, if it is one."""
    host = name.lower()
    return host if HOST.match(host) and host != OWN_NAME else None


def rule_host(word):
    """The host for which a word alone stands: `||h^`, `*.h`, `.h` or `h`."""
    if word.startswith(b"||"):
        found = RULE.match(word)
        return host_named(found[1]) if found else None
    if word.startswith(b"*."):
        return host_named(word[2:])
    return host_named(word[1:] if word.startswith(b".") else word)


# (nearly all lines of a hosts file have the same address)
@functools.lru_cache(maxsize=64)
def is_address(word):
    if word.count(b":") >= 2:
        return re.fullmatch(rb"[0-9a-fA-F:.]+", word) is not None
    octets = word.split(b".")
    return len(octets) == 4 and all(it.isdigit() and int(it) <= 255 for it in octets)
