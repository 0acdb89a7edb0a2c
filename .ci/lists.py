#!/usr/bin/env python3
"""Lists of hosts. Runs tools/helmthread-update-lists against a server of its own, which answers
rightly and in wrong ways, and kills it. Then `serve` of the built programs has two made lists, and
what it answers to GET and CONNECT is held against plain sets; it names the lines of the lists, and
serves on while they are replaced.

Usage: lists.py [--hosts N] [--asked N] [PROGRAM]..

The lists have N hosts together (20000), and N hosts are asked for (2000). Says what failed, and
ends with 1 where something did.
"""
import argparse
import contextlib
import gzip
import http.client
import http.server
import importlib.machinery
import importlib.util
import io
import itertools
import os
import random
import re
import socket
import subprocess
import sys
import tempfile
import threading
import time
from concurrent.futures import ThreadPoolExecutor

from origins import WAIT, Server, comes, free_port, wait_for

HERE = os.path.dirname(os.path.abspath(__file__))
TOOLS = os.path.join(HERE, "..", "tools")
SCRIPT = os.path.join(TOOLS, "helmthread-update-lists")
ROWS = os.path.join(HERE, "..", "crates/px_cases/data/leaves/lists.tsv")
sys.dont_write_bytecode = True
sys.path.insert(0, TOOLS)
from helmthread_tools.host_lists import MOST_BYTES, read_list  # noqa: E402

passed, failed = 0, []
counting = threading.Lock()


def check(what, right, said=""):
    global passed
    with counting:
        if right:
            passed += 1
        else:
            failed.append("%s: %s" % (what, said))
            print("lists.py: failed: %s: %s" % (what, str(said)[:600]), flush=True)


# Which hosts a list names: the script's reader has the rows of the program's.


def unescaped(cell):
    """The bytes of a cell, as docs/TESTS.md has them."""
    cell = re.sub(r"\\\{(\d+) ([^}]*)\}", lambda it: it[2] * int(it[1]), cell)
    marks = {"n": "\n", "r": "\r", "t": "\t", "\\": "\\"}
    text = re.sub(r"\\(x(..)|.)", lambda it: chr(int(it[2], 16)) if it[2] else marks[it[1]], cell)
    return text.encode("latin-1")


def is_named(hosts, host):
    """Whether a set has a host without one dot at its end, or a host above it."""
    host = host.lower()
    labels = (host[:-1] if host.endswith(b".") else host).split(b".")
    return any(b".".join(labels[at:]) in hosts for at in range(len(labels)))


def reader():
    with open(ROWS, encoding="utf-8") as file:
        rows = [line.rstrip("\n").split("\t") for line in file if not line.startswith("#")][1:]
    check("the rows of lists", len(rows) > 10, len(rows))
    for text, asked, gives, shows in rows:
        found = read_list(b"\n".join(map(unescaped, text.split(" | "))))
        told = "%d hosts" % found.taken
        if found.passed:
            told += " | %d passed, first %d" % (found.passed, found.first_passed)
        names = [unescaped(it) for it in asked.split(" | ")]
        lines = gives.split(" | ")[: len(names)]
        right = [is_named(found.hosts, name) for name in names] == [it != "-" for it in lines]
        check("the reader, " + shows, right and gives.endswith(" | " + told), told)


# The script that fetches lists.

FORMER = b"0.0.0.0 a.example b.example\n||c.example^\n"
NEXT = b"# new\nb.example\nc.example\nd.example\ne.example\n"
HTML = b"<!doctype html><html><head><title>Gone</title></head><body>\n%s</body></html>\n" % FORMER
# How many times the script is killed, each at another moment of the first so many seconds.
KILLS, KILL_SECONDS = 12, 0.6


class ListServer(http.server.BaseHTTPRequestHandler):
    """Answers by the path; notes the fields of each request."""

    protocol_version = "HTTP/1.1"
    etag, modified, text = "", "", NEXT
    asked = []
    goes_on = threading.Event()

    def log_message(self, *_):
        pass

    def do_GET(self):
        type(self).asked.append(self.headers)
        getattr(self, "answer_" + self.path.strip("/"))()

    def send(self, body, status=200, length=None, **fields):
        self.send_response(status)
        for name, value in fields.items():
            self.send_header(name.replace("_", "-"), value)
        self.send_header("Content-Length", str(len(body) if length is None else length))
        self.end_headers()
        self.wfile.write(body)

    def answer_list(self):
        """The list, unless the client has it by what it says."""
        known = self.headers["If-None-Match"], self.headers["If-Modified-Since"]
        if self.etag and known[0] == self.etag or self.modified and known[1] == self.modified:
            self.send_response(304)
            self.end_headers()
            return
        fields = {"ETag": self.etag, "Last_Modified": self.modified}
        self.send(self.text, **{name: value for name, value in fields.items() if value})

    def answer_packed(self):
        """The list, packed on its way where the client takes that."""
        takes = "gzip" in (self.headers["Accept-Encoding"] or "")
        self.send(gzip.compress(NEXT), Content_Encoding="gzip") if takes else self.send(b"", 406)

    def answer_moved(self):
        self.send(b"moved", 302, Location="/list")

    def answer_missing(self):
        self.send(HTML, 404)

    def answer_broken(self):
        self.send(b"a.example\n", 500)

    def answer_page(self):
        self.send(HTML)

    def answer_gz(self):
        self.send(gzip.compress(NEXT))

    def answer_empty(self):
        self.send(b"")

    def answer_other(self):
        self.send(b"address=/a.example/0.0.0.0\n")

    def answer_short(self):
        self.send(b"a.example\n")

    def answer_cut(self):
        self.send(NEXT, length=len(NEXT) + 1000)
        self.close_connection = True

    def answer_slow(self):
        """The first half, and the other one when the test says so."""
        self.send(NEXT[:10], length=len(NEXT))
        self.wfile.flush()
        self.goes_on.wait(WAIT)
        self.wfile.write(NEXT[10:])

    def answer_pieces(self):
        """The list, byte by byte."""
        self.send(b"", length=len(self.text))
        for byte in self.text:
            self.wfile.write(bytes([byte]))
            time.sleep(KILL_SECONDS / len(self.text))

    def answer_loop(self):
        self.send(b"", 302, Location="/loop")

    def answer_long(self):
        self.send(b"", length=MOST_BYTES + 1)
        self.close_connection = True

    def answer_endless(self):
        """More bytes than may come, without a length."""
        self.send_response(200)
        self.send_header("Connection", "close")
        self.end_headers()
        for _ in range(MOST_BYTES // (1 << 20) + 1):
            self.wfile.write(b"a.example\n" * ((1 << 20) // 10) + b"\n" * 6)


class Folder:
    """A folder with a file of lists, which names one, and that list's file."""

    def __init__(self, folder, port, path="list", former=FORMER):
        self.folder, self.list = folder, os.path.join(folder, "ads.hosts")
        line = "# lists\n\nads.hosts http://127.0.0.1:%d/%s  # ads\n" % (port, path)
        self.write("lists", line.encode())
        if former is not None:
            self.write("ads.hosts", former)
        ListServer.asked, ListServer.etag, ListServer.modified, ListServer.text = [], "", "", NEXT

    def write(self, name, data):
        with open(os.path.join(self.folder, name), "wb") as file:
            file.write(data)

    def read(self):
        with open(self.list, "rb") as file:
            return file.read()

    def run(self, *words):
        """The status, the output and the errors."""
        words = [sys.executable, SCRIPT, *(words or ["lists"])]
        ran = subprocess.run(words, cwd=self.folder, capture_output=True, text=True, timeout=600)
        return ran.returncode, ran.stdout, ran.stderr

    def start(self):
        words = [sys.executable, SCRIPT, "lists"]
        return subprocess.Popen(words, cwd=self.folder, stdout=subprocess.DEVNULL)

    def look(self):
        found = os.stat(self.list)
        return found.st_ino, found.st_mtime_ns

    def left(self):
        return sorted(it for it in os.listdir(self.folder) if it.endswith(".new"))


@contextlib.contextmanager
def folder_of(*words, **more):
    with tempfile.TemporaryDirectory() as folder:
        yield Folder(folder, *words, **more)


def renewed(port):
    """A list that is new, one that has changed, and what stays of its file."""
    with folder_of(port, former=None) as it:
        got = it.run()
        check("a new list", got == (0, "ads.hosts: new, 4 hosts\n", "") and it.read() == NEXT, got)
    with folder_of(port) as it:
        owner = (1234, 1235) if os.geteuid() == 0 else (os.geteuid(), os.getegid())
        os.chmod(it.list, 0o640)
        os.chown(it.list, *owner)
        got = it.run()
        told = "ads.hosts: 4 hosts, before 3; 2 added, 1 removed\n"
        check("a changed list", got == (0, told, "") and it.read() == NEXT, got)
        found = os.stat(it.list)
        kept = found.st_mode & 0o7777, found.st_uid, found.st_gid
        check("its mode and owner", kept == (0o640, *owner), kept)
        check("nothing is left", it.left() == [], it.left())
    for path in ("moved", "packed"):
        with folder_of(port, path) as it:
            got = it.run()
            check("a list that is " + path, got[0] == 0 and it.read() == NEXT, got)


def unchanged(port):
    """A list isn't fetched again as long as its server says that it is the same, and its file is
    the one that was put there."""
    date = "Tue, 01 Dec 2026 10:00:00 GMT"
    for kind, field, value in (
        ("etag", "If-None-Match", '"x-1"'),
        ("modified", "If-Modified-Since", date),
    ):
        with folder_of(port) as it:
            setattr(ListServer, kind, value)
            first, look = it.run(), it.look()
            got = it.run()
            right = first[0] == 0 and got == (0, "ads.hosts: unchanged\n", "")
            check("unchanged by %s" % kind, right and it.look() == look, (first, got))
            sent = [fields[field] for fields in ListServer.asked]
            check("what is asked by %s" % kind, sent == [None, value], sent)
            it.write("ads.hosts", FORMER)
            got = it.run()
            check("changed by hand, %s" % kind, got[0] == 0 and it.read() == NEXT, got)
    with folder_of(port, former=NEXT) as it:
        look, got = it.look(), it.run()
        right = got == (0, "ads.hosts: unchanged\n", "") and it.look() == look
        check("the same bytes", right, got)


# What a server does by which a list is kept, and words of what is said of it.
KEPT = [
    ("missing", "404"),
    ("broken", "500"),
    ("page", "an HTML page with the title `Gone`"),
    ("gz", "a file packed by gzip"),
    ("empty", "has not one host"),
    ("other", "helmthread-from-hosts reads lists of other forms"),
    ("short", "1 hosts, less than half of the former 3"),
    ("cut", "1000 bytes remaining"),
    ("slow", "timed out"),
    ("loop", "redirects"),
    ("long", "more than 67,108,864 bytes"),
    ("endless", "more than 67,108,864 bytes"),
]


def kept(port):
    """Where something fails the former list stays, byte by byte, and a line says which and why."""
    for path, word in KEPT:
        with folder_of(port, path) as it:
            look = it.look()
            status, out, err = it.run("--seconds", "2" if path == "slow" else "60", "lists")
            begins = err.startswith("lists:3: ads.hosts stays as it was: ")
            right = (status, out, err.count("\n")) == (1, "", 1) and begins and word in err
            check("the fault %s" % path, right, (status, out, err))
            stays = it.read() == FORMER and it.look() == look and not it.left()
            check("the list behind the fault %s" % path, stays, it.left())
    for what, at, path, former, word in (
        ("a server that isn't there", free_port(), "list", FORMER, "Failed to connect"),
        ("no list yet", port, "missing", None, "ads.hosts isn't there yet: "),
        ("another kind of file", port, "list", b"{+block{x}}\n/path\n", "another kind of file"),
    ):
        with folder_of(at, path, former) as it:
            got = it.run()
            check(what, got[0] == 1 and word in got[2], got)
            stays = it.read() == former if former else not os.path.exists(it.list)
            check("what stays: " + what, stays)


def chosen(port):
    """What the words do."""
    with folder_of(port) as it:
        got = it.run("--check", "lists")
        told = "ads.hosts: 4 hosts, before 3; 2 added, 1 removed\n"
        check("--check", got == (0, told, "") and it.read() == FORMER, got)
        names = sorted(os.listdir(it.folder))
        check("what --check leaves", names == ["ads.hosts", "lists"], names)
    with folder_of(port, "short") as it:
        got = it.run("lists", "--smaller", "ads.hosts")
        check("--smaller", got[0] == 0 and it.read() == b"a.example\n", got)
    with folder_of(port) as it:
        for words in (["--help"], ["-h"]):
            got = it.run(*words)
            check(words[0], got[0] == 0 and "usage: helmthread-update-lists" in got[1], got)
        seconds = [["--seconds", number, "lists"] for number in ("0", "x")]
        for words in (["--bad", "lists"], ["--check"], *seconds):
            got = it.run(*words)
            check("wrong words", got[0] == 2 and got[2].startswith("usage: "), got)
        got = it.run("lists", "b.hosts")
        check("a name that isn't there", got[0] == 1 and "names no list `b.hosts`" in got[2], got)
        got = it.run("nothing")
        check("no file of lists", got[0] == 1 and "nothing: No such file" in got[2], got)
        it.write("lists", b"# none\n")
        check("no list", it.run() == (0, "lists names no list\n", ""), it.run())


# Lines of a file of lists that aren't right, and a word of what is said of each.
WRONG_LINES = [
    ("a.hosts", "the address is missing"),
    ("a.hosts http://127.0.0.1/ x", "`x`"),
    ("../a.hosts http://127.0.0.1/", "`../a.hosts`"),
    (".a.hosts http://127.0.0.1/", "`.a.hosts`"),
    ("lists http://127.0.0.1/", "`lists`"),
    ("user.action http://127.0.0.1/", "`user.action`"),
    ("a.hosts file:///etc/hosts", "`file:///etc/hosts`"),
    ("a.hosts -o/tmp/x", "`-o/tmp/x`"),
    ("ads.hosts http://127.0.0.1/", "stands in line 1 too"),
]


def wrong_lines(port):
    """A line that isn't right is named, and the others are fetched."""
    with folder_of(port) as it:
        right = "ads.hosts http://127.0.0.1:%d/list\n" % port
        it.write("lists", (right + "".join(line + "\n" for line, _ in WRONG_LINES)).encode())
        status, out, err = it.run()
        right = status == 1 and out.startswith("ads.hosts: 4 hosts") and it.read() == NEXT
        check("the list beside wrong lines", right, (status, out))
        told = err.splitlines()
        for number, ((line, word), said) in enumerate(zip(WRONG_LINES, told), 2):
            check("the line " + line, said.startswith("lists:%d: " % number) and word in said, said)
        check("as many lines are named", len(told) == len(WRONG_LINES), err)


def script():
    """The script as a module."""
    loader = importlib.machinery.SourceFileLoader("update_lists", SCRIPT)
    made = importlib.util.module_from_spec(importlib.util.spec_from_loader("update_lists", loader))
    loader.exec_module(made)
    return made


# A limit, a value of it, and whether the list below comes within it beside the other one.
LIMITS = [("MOST_HOSTS", 5, False), ("MOST_HOSTS", 6, True)]
LIMITS += [("MOST_BYTES", 73, False), ("MOST_BYTES", 74, True)]


def limits(port):
    """All lists together have no more than the program reads; here with small limits."""
    for name, most, holds in LIMITS:
        with folder_of(port) as it:
            it.write("b.hosts", b"x.example\ny.example # again\n")
            lists = "ads.hosts http://127.0.0.1:%d/list\nb.hosts http://127.0.0.1:1/\n" % port
            module, said = script(), io.StringIO()
            setattr(module, name, most)
            words = module.words_of([os.path.join(it.folder, "lists"), "ads.hosts"])
            with contextlib.redirect_stdout(said), contextlib.redirect_stderr(said):
                status = module.run(lists, words)
            right = (status, it.read()) == ((0, NEXT) if holds else (1, FORMER))
            is_told = "all lists together have 6 hosts and 74 bytes" in said.getvalue()
            check("%s %d" % (name, most), right and is_told != holds, said.getvalue())


def killed(port):
    """A script that is killed leaves a whole list, and the next run goes on."""
    with folder_of(port, "slow") as it:
        ListServer.goes_on.clear()
        run = it.start()
        check("the script is in the midst", comes(WAIT, lambda: it.left() and ListServer.asked))
        second = it.run()
        check("a second run", second[0] == 1 and "another run" in second[2], second)
        run.kill()
        run.wait()
        ListServer.goes_on.set()
        right = it.read() == FORMER and it.left() == [".ads.hosts.new"]
        check("the list behind a kill", right, it.left())
        got = it.run()
        check("the run behind a kill", got[0] == 0 and it.read() == NEXT and not it.left(), got)
    dice = random.Random(1)
    with folder_of(port, "pieces") as it:
        for number in range(KILLS):
            ListServer.text = (FORMER, NEXT)[number % 2]
            run = it.start()
            time.sleep(dice.uniform(0, 2 * KILL_SECONDS))
            run.kill()
            run.wait()
            check("the list behind kill %d" % number, it.read() in (FORMER, NEXT), it.read())


def update():
    port = Server(ListServer).start()
    for part in (renewed, unchanged, kept, chosen, wrong_lines, limits, killed):
        part(port)


# Lists through `serve`.

REASONS = {"first.hosts": "On the first list.", "second.hosts": "On the second list."}
LET_THROUGH = 20
# How many clients ask at once; how many hosts `show` is asked for, and the page that says the same.
CLIENTS, SHOWN, PAGES = 8, 2, 100
# How many connections are made over lists that stay; so many seconds behind a change a look tells
# that a file is the same; the bytes of a file that has more aren't kept.
CONNECTIONS, SETTLED, MOST_KEPT = 20, 4, 1 << 20
# How many times a list is replaced under load.
RELOADS = 6
# What stands on lines that name no host.
OTHERS = ["# %s", "! %s", "%s##.ad", "@@||%s^", "||%s/path^", "/%s/", "||%s^$third-party"]
OTHERS += ["", "0.0.0.0 localhost", "0.0.0.0"]
# And what stands for a host.
FORMS = ["0.0.0.0 %s", "127.0.0.1\t%s # x", ":: %s", "%s", " %s ", "%s\r"]
FORMS += ["||%s^", "||%s^$important,all", "*.%s", ".%s"]
HEAD = b"HTTP/1.1 200 OK\r\nContent-Type: application/json\r\nContent-Length: 6\r\n\r\n"


class Net(http.server.BaseHTTPRequestHandler):
    """A parent that stands for all hosts; a tunnel ends at once."""

    protocol_version = "HTTP/1.1"

    def log_message(self, *_):
        pass

    def do_GET(self):
        self.wfile.write(HEAD + b"passed")

    def do_CONNECT(self):
        self.wfile.write(b"HTTP/1.1 200 Passed\r\n\r\n")
        self.close_connection = True


def made_host(dice, words):
    """A host of few words, so that many stand above others."""
    labels = [dice.choice(words) for _ in range(dice.choice((1, 1, 2, 2, 3)))]
    return ".".join([*labels, dice.choice(("example", "test"))])


def made_list(dice, many, words):
    """The lines of a list with so many hosts, and the first line of each host."""
    lines, first = [], {}
    while len(first) < many:
        if dice.random() < 0.1:
            other = dice.choice(OTHERS)
            lines.append(other % made_host(dice, words) if "%s" in other else other)
            continue
        several = dice.randrange(2, 5) if dice.random() < 0.05 else 1
        hosts = [made_host(dice, words) for _ in range(several)]
        for host in hosts:
            first.setdefault(host.lower(), len(lines) + 1)
        form = "0.0.0.0 %s" if several > 1 else dice.choice(FORMS)
        lines.append(form % " ".join(hosts))
    return lines, first


def names_of(host):
    """The host and those above it, the longest first, without capitals and a dot at the end."""
    host = host.lower()
    labels = (host[:-1] if host.endswith(".") else host).split(".")
    return [".".join(labels[at:]) for at in range(len(labels))]


class Expected:
    """What is blocked, by plain sets: each list by its name, with the first line of each host, and
    what is let through."""

    def __init__(self, lists, let_through):
        self.lists, self.let_through = lists, let_through

    def reason(self, host):
        names = names_of(host)
        if any(name in self.let_through for name in names):
            return None
        blocks = [it for it, first in self.lists.items() if any(name in first for name in names)]
        return REASONS[blocks[-1]] if blocks else None

    def lines(self, host):
        """The lines of lists that name a host: of each list that of the longest name."""
        out = []
        for it, first in self.lists.items():
            found = [first[name] for name in names_of(host) if name in first]
            out += ["%s:%d" % (it, line) for line in found[:1]]
        return out


def made_asked(dice, many, listed, words):
    """Hosts to ask for: listed ones, below and above such, ones that end alike, and others; some
    with capitals or a dot at the end."""
    out = []
    for _ in range(many):
        host, other = dice.choice(listed), made_host(dice, words)
        above = host.partition(".")[2]
        near = (host, "x." + host, "x" + host, above if "." in above else "www." + above)
        host = dice.choice((*near, other, "w-" + other))
        out.append(dice.choice((host, host, host, host.upper(), host + ".")))
    return out


class Proxy:
    """`serve` over two lists and a user.action, and what it is asked."""

    def __init__(self, program, folder, lists, let_through):
        self.program, self.folder, self.port = program, folder, free_port()
        self.config = os.path.join(folder, "config")
        net = Server(Net).start()
        for name, lines in lists.items():
            self.put(name, lines)
        main = ["listen-address 127.0.0.1:%d" % self.port, "forward / 127.0.0.1:%d" % net]
        main += ["host-list %s %s" % it for it in REASONS.items()]
        self.write("config", [*main, "actionsfile user.action"])
        self.write("user.action", ["{-block}", *("." + host for host in let_through)])
        words = [program, "serve", self.config, "32"]
        self.process = subprocess.Popen(words, stderr=subprocess.DEVNULL)
        check("the proxy listens", wait_for(self.port, self.process))

    def write(self, name, lines):
        with open(os.path.join(self.folder, name), "w", encoding="utf-8", newline="") as file:
            file.write("".join(line + "\n" for line in lines))

    def put(self, name, lines):
        """Writes a list beside its name, and puts it in place."""
        self.write(name + ".new", lines)
        os.replace(os.path.join(self.folder, name + ".new"), os.path.join(self.folder, name))

    def end(self):
        self.process.kill()
        self.process.wait()


class Client:
    """A client that keeps its connection for as long as the proxy does, and then makes another."""

    def __init__(self, port):
        self.link = http.client.HTTPConnection("127.0.0.1", port, timeout=WAIT)

    def reason(self, host, method="GET"):
        """The reason for which a host is blocked, or None where it isn't. All else is a fault."""
        self.link.request(method, "http://%s/" % host if method == "GET" else host + ":443")
        answer = self.link.getresponse()
        body = answer.read()
        if (answer.status, body) == (200, b"passed" if method == "GET" else b""):
            return None
        found = re.fullmatch(rb"<html><body>blocked: (.*)</body></html>\n", body)
        if answer.status == 403 and found:
            return found[1].decode()
        raise ValueError("%s %s: %d %r" % (method, host, answer.status, body[:200]))


def reasons(port, hosts, method):
    """The reasons of hosts, over the connections of one client."""
    client = Client(port)
    try:
        return [client.reason(host, method) for host in hosts]
    finally:
        client.link.close()


def asked(proxy, expected, hosts):
    """Each host is blocked for the reason for which the plain sets say so, and else isn't."""
    parts = [hosts[at::CLIENTS] for at in range(CLIENTS)]
    for method in ("GET", "CONNECT"):
        with ThreadPoolExecutor(CLIENTS) as pool:
            found = list(pool.map(lambda part: reasons(proxy.port, part, method), parts))
        pairs = [it for part, them in zip(parts, found) for it in zip(part, them)]
        wrong = [it for it in pairs if it[1] != expected.reason(it[0])]
        right = len(pairs) == len(hosts) and not wrong
        check("%d hosts by %s" % (len(pairs), method), right, wrong[:5])
    kinds = {expected.reason(host) for host in hosts}
    check("each reason is among them, and none", kinds == {None, *REASONS.values()}, kinds)


def sections(text):
    """The lines of lists among the sections that `show` names."""
    found = re.search(r"^sections:\n((?:.*\n)*?)actions:$", text, re.MULTILINE)
    lines = found[1].splitlines() if found else [text]
    return [it for it in lines if not it.startswith("user.action:")]


def shown(proxy, expected, hosts):
    """`show`, and the page that says the same, name the lists and the lines."""
    hosts = [host for host in hosts if expected.lines(host)]
    for host in hosts[:SHOWN]:
        words = [proxy.program, "show", proxy.config, "http://%s/" % host]
        ran = subprocess.run(words, capture_output=True, text=True, timeout=600)
        right = sections(ran.stdout) == expected.lines(host)
        check("show %s" % host, right, (expected.lines(host), ran.stdout, ran.stderr))
    link, wrong = http.client.HTTPConnection("127.0.0.1", proxy.port, timeout=WAIT), []
    for host in hosts[:PAGES]:
        # (a connection that the last page has closed is made anew)
        link.request("GET", "http://p.p/show-url-info?url=http://%s/" % host)
        text = link.getresponse().read().decode()
        if sections(text) != expected.lines(host):
            wrong.append((host, expected.lines(host), text))
    link.close()
    check("the page on %d hosts" % len(hosts[:PAGES]), not wrong, wrong[:2])


def bytes_read(process):
    """How many bytes a process has read so far, of files and of sockets."""
    with open("/proc/%d/io" % process.pid, encoding="ascii") as file:
        return int(re.search(r"rchar: (\d+)", file.read())[1])


def unread(proxy, hosts):
    """No connection reads a list that stays as it is, though it is too long to be kept."""
    size = os.path.getsize(os.path.join(proxy.folder, "first.hosts"))
    time.sleep(SETTLED)
    reasons(proxy.port, hosts[:1], "GET")
    before = bytes_read(proxy.process)
    for host in hosts[:CONNECTIONS]:
        reasons(proxy.port, [host], "GET")
    more = bytes_read(proxy.process) - before
    right = size > MOST_KEPT and more < size
    check("%d connections read no list again" % CONNECTIONS, right, (size, more))


def keep_asking(proxy, expected, hosts, until, count):
    """Asks over connections of its own, one for each host, until it is told to end; counts answers,
    and gives the wrong ones."""
    wrong = []
    for host in itertools.cycle(hosts):
        if until.is_set():
            break
        try:
            reason = reasons(proxy.port, [host], "GET")[0]
            if reason != expected.reason(host):
                wrong.append((host, reason))
        except (OSError, http.client.HTTPException, ValueError) as fault:
            wrong.append((host, repr(fault)))
        count.append(1)
    return wrong


def reloaded(proxy, expected, lines, hosts):
    """A list is replaced under load: no request fails, and the next connection has the new list."""
    count, until = [], threading.Event()
    words = proxy, expected, hosts, until, count
    with ThreadPoolExecutor(CLIENTS) as pool:
        clients = [pool.submit(keep_asking, *words) for _ in range(CLIENTS)]
        try:
            for number in range(RELOADS):
                replaced(proxy, lines, "new-%d.reload.example" % number)
                before = len(count)
                check("requests go on", comes(WAIT, lambda: len(count) > before + CLIENTS))
        finally:
            until.set()
        wrong = [it for client in clients for it in client.result()]
    check("%d requests while a list is replaced" % len(count), not wrong, wrong[:5])


def replaced(proxy, lines, host):
    """A list with a further host takes the place of another, and that one its."""
    for more, reason in (([host], REASONS["second.hosts"]), ([], None)):
        proxy.put("second.hosts", lines + more)
        got = reasons(proxy.port, ["x." + host], "GET")
        check("the next connection behind a change", got == [reason], got)


def served(program, many, many_asked):
    dice = random.Random(2)
    words = ["w%d" % number for number in range(max(many // 8, 20))]
    words += ["ad-s", "Tracker", "a_b", "xn--bcher-kva", "1", "22"]
    made = {name: made_list(dice, many // 2, words) for name in REASONS}
    made["first.hosts"][0].extend(["# " + "-" * 1000] * (MOST_KEPT // 1000))
    listed = [host for _, first in made.values() for host in first]
    let_through = set(dice.sample(listed, LET_THROUGH))
    expected = Expected({name: first for name, (_, first) in made.items()}, let_through)
    hosts = made_asked(dice, many_asked, listed, words) + ["y." + host for host in let_through]
    with tempfile.TemporaryDirectory() as folder:
        lists = {name: lines for name, (lines, _) in made.items()}
        proxy = Proxy(program, folder, lists, let_through)
        try:
            asked(proxy, expected, hosts)
            shown(proxy, expected, hosts)
            unread(proxy, hosts)
            reloaded(proxy, expected, lists["second.hosts"], hosts)
        finally:
            proxy.end()


def main():
    plain = argparse.RawDescriptionHelpFormatter
    parser = argparse.ArgumentParser(description=__doc__, formatter_class=plain)
    parser.add_argument("--hosts", type=int, default=20000)
    parser.add_argument("--asked", type=int, default=2000)
    parser.add_argument("programs", nargs="*", metavar="PROGRAM")
    words = parser.parse_args()
    reader()
    update()
    for program in map(os.path.abspath, words.programs):
        served(program, words.hosts, words.asked)
    print("lists.py: %d passed, %d failed" % (passed, len(failed)))
    for text in failed:
        print("lists.py: failed: " + text[:600])
    return 1 if failed else 0


if __name__ == "__main__":
    sys.exit(main())
