#!/usr/bin/env python3
"""Converts configurations of Privoxy's that lead requests another way with tools/helmthread-from-privoxy, runs the program over what is
made, and looks at where requests go: at an origin and a DNS of its own, which must see nothing of them.

Usage: ways.py PROGRAM..

It works in a network of its own that has the loopback alone, as `unshare` of Linux makes it; skipped, with the reason, where that can't
be had. Says which row failed, and ends with 1 then.
"""
import contextlib
import fcntl
import http.server
import os
import socket
import socketserver
import struct
import subprocess
import sys
import tempfile
import threading
import time

HERE = os.path.dirname(os.path.abspath(__file__))
SCRIPT = os.path.join(HERE, "..", "tools", "helmthread-from-privoxy")
INSIDE = "--inside"
PORT = 8118
WAIT = 60
HOSTS = ("shop.onion", "www.hidden.test")
TOR = "127.0.0.1:9050"
# Privoxy's files that send these hosts another way than directly, and the place and the number of the fault by which `check` refuses
# what they become. None: nothing leads them, so they must be seen.
ROWS = [
    ("nothing leads them", {"u.action": "{+block{x}}\nads.test\n"}, None),
    (
        "SOCKS by an action",
        {"u.action": "{+forward-override{forward-socks5 %s .}}\n.onion\n.hidden.test\n" % TOR},
        "u.action:1: 15",
    ),
    (
        "SOCKS with t, and other actions",
        {"u.action": "{ \\\n+hide-from-header{block} \\\n+forward-override{forward-socks5t %s .} }\n/\n" % TOR},
        "u.action:1: 15",
    ),
    (
        "SOCKS4 by an alias",
        {"u.action": "{{alias}}\ntor = +forward-override{forward-socks4a %s .}\n{tor}\n/\n" % TOR},
        "u.action:2: 15",
    ),
    (
        "an alias twice",
        {
            "u.action": "{{alias}}\ntor = +hide-from-header{block}\ntor = +forward-override{forward %s}\n{tor}\n/\n"
            % TOR
        },
        "u.action:3: 20",
    ),
    (
        "a web server by an action",
        {"u.action": "{+forward-override{forward-webserver 127.0.0.1:81}}\n/\n"},
        "u.action:1: 15",
    ),
    (
        "a pattern with a back reference",
        {"u.action": "{+forward-override{forward %s}}\n/(.+)/with/\\1\n" % TOR},
        "u.action:2: 6",
    ),
    ("a SOCKS4 line", {"config": "forward-socks4 / %s .\n" % TOR}, "config:2: 29"),
    ("a SOCKS4A line", {"config": "forward-socks4a / %s .\n" % TOR}, "config:2: 29"),
    ("a SOCKS server with a password", {"config": "forward-socks5 / me:word@%s .\n" % TOR}, "config:2: 29"),
    ("a parent with a password", {"config": "forward / me:word@%s\n" % TOR}, "config:2: 29"),
    ("a line with http://", {"config": "forward http://shop.onion/ %s\n" % TOR}, "config:2: 3"),
    ("a line with a back reference", {"config": "forward /(.+)/with/\\1 %s\n" % TOR}, "config:2: 6"),
    ("a file that isn't there", {"config": "actionsfile tor.action\n"}, "tor.action:0: 32"),
    (
        "a file that can't be taken over",
        {"config": "actionsfile t.action\n", "t.action": "{+forward-override{forward %s}\n/\n" % TOR},
        "t.action:0: 32",
    ),
]
FIRST, THEN = "First: who is served, and by which way", "One line a kind"
WOULD = "these requests would go directly"


class Origin(http.server.BaseHTTPRequestHandler):
    """Answers each request, and keeps its host."""

    seen = []

    def do_GET(self):
        self.seen.append(self.headers.get("Host"))
        self.send_response(200)
        self.send_header("Content-Length", "2")
        self.end_headers()
        self.wfile.write(b"ok")

    def log_message(self, *_):
        pass


class Names(socketserver.BaseRequestHandler):
    """Answers each question for a name with 127.0.0.1, and keeps the name."""

    seen = []

    def handle(self):
        data, sender = self.request
        labels, at = [], 12
        while data[at]:
            labels.append(data[at + 1 : at + 1 + data[at]].decode())
            at += 1 + data[at]
        self.seen.append(".".join(labels).lower())
        question = data[12 : at + 5]
        is_address = question[-4:-2] == b"\0\1"
        record = b"\xc0\x0c\0\1\0\1\0\0\0\0\0\4\x7f\0\0\1" if is_address else b""
        head = data[:2] + struct.pack(">5H", 0x8180, 1, 1 if is_address else 0, 0, 0)
        sender.sendto(head + question + record, self.client_address)


class Net:
    """An origin at port 80 and a DNS at port 53 of the loopback."""

    def __init__(self):
        self.origin = http.server.ThreadingHTTPServer(("127.0.0.1", 80), Origin)
        self.names = socketserver.ThreadingUDPServer(("127.0.0.1", 53), Names)
        for server in (self.origin, self.names):
            server.daemon_threads = True
            threading.Thread(target=server.serve_forever, daemon=True).start()

    def taken(self):
        """The hosts that the origin and the DNS have seen since."""
        seen = (sorted(set(Origin.seen)), sorted(set(Names.seen)))
        Origin.seen.clear()
        Names.seen.clear()
        return seen


def begin_loopback(folder):
    """Makes this network's loopback work, and has names asked there."""
    with socket.socket(socket.AF_INET, socket.SOCK_DGRAM) as it:
        up, running = 0x1, 0x40
        fcntl.ioctl(it, 0x8914, struct.pack("16sH14x", b"lo", up | running))
    texts = {
        "/etc/resolv.conf": "nameserver 127.0.0.1\noptions timeout:30 attempts:1\n",
        "/etc/nsswitch.conf": "hosts: files dns\n",
    }
    for place, text in texts.items():
        path = os.path.join(folder, os.path.basename(place))
        with open(path, "w", encoding="ascii") as file:
            file.write(text)
        subprocess.run(["mount", "--bind", path, place], check=True)


def convert(folder, files):
    """Makes a folder of Privoxy's, and converts it: the new folder and the report."""
    old, new = os.path.join(folder, "old"), os.path.join(folder, "new")
    os.mkdir(old)
    main = "listen-address 127.0.0.1:%d\n" % PORT + files.get("config", "actionsfile u.action\n")
    for name, text in {**files, "config": main}.items():
        with open(os.path.join(old, name), "w", encoding="ascii") as file:
            file.write(text)
    ran = subprocess.run([sys.executable, SCRIPT, old, new], capture_output=True, text=True, timeout=600)
    return new, ran.stdout + ran.stderr


def ask(host):
    """Asks the proxy for a host; gives what came, or the fault."""
    try:
        with socket.create_connection(("127.0.0.1", PORT), WAIT) as it:
            it.sendall(b"GET http://%s/ HTTP/1.1\r\nHost: %s\r\nConnection: close\r\n\r\n" % ((host.encode(),) * 2))
            return it.recv(4096)
    except OSError as error:
        return error


@contextlib.contextmanager
def serving(program, folder):
    """The program over a folder, until it listens or has ended."""
    running = subprocess.Popen(
        [program, "serve", "config"], cwd=folder, stdout=subprocess.DEVNULL, stderr=subprocess.DEVNULL
    )
    try:
        for _ in range(6000):
            if running.poll() is not None:
                break
            with contextlib.suppress(OSError):
                socket.create_connection(("127.0.0.1", PORT), 1).close()
                break
            time.sleep(0.05)
        yield
    finally:
        running.kill()
        running.wait()


def try_row(program, net, files, fault, say):
    with tempfile.TemporaryDirectory() as folder:
        made, report = convert(folder, files)
        checked = subprocess.run([program, "check", "config"], cwd=made, capture_output=True, text=True, timeout=600)
        net.taken()
        with serving(program, made):
            answers = [ask(host) for host in HOSTS]
        at_origin, at_names = net.taken()
    if fault is None:
        if (at_origin, at_names) != (list(HOSTS), list(HOSTS)) or checked.returncode:
            say("the test sees nothing: %s %s %s" % (at_origin, at_names, answers))
        return
    if at_origin or at_names:
        say("the origin saw %s, the DNS %s" % (at_origin, at_names))
    if checked.returncode != 1 or not checked.stderr.startswith(fault + " "):
        say("check: status %d, %s and not %s" % (checked.returncode, checked.stderr or checked.stdout, fault))
    if not report.startswith(FIRST) or WOULD not in report.partition(THEN)[0]:
        say("the report doesn't say first that %s:\n%s" % (WOULD, report))


def inside(programs):
    failures = []
    with tempfile.TemporaryDirectory() as folder:
        begin_loopback(folder)
        net = Net()
        for program in programs:
            for row, files, fault in ROWS:

                def say(text, row=row):
                    failures.append(row)
                    print("ways.py: %s: %s" % (row, text))

                try_row(program, net, files, fault, say)
    told = "%d failed: %s" % (len(failures), "; ".join(failures)) if failures else "no request went another way"
    print("ways.py: %d rows, %s" % (len(ROWS) * len(programs), told))
    return 1 if failures else 0


def main():
    programs = [os.path.abspath(program) for program in sys.argv[1:] if program != INSIDE]
    if not programs:
        print(__doc__.split("\n\n")[1], file=sys.stderr)
        return 2
    if INSIDE in sys.argv[1:]:
        return inside(programs)
    apart = ["unshare", "--map-root-user", "--net", "--mount"]
    binds = "for it in /etc/resolv.conf /etc/nsswitch.conf; do mount --bind /etc/hosts $it || exit 1; done"
    try:
        is_had = subprocess.run([*apart, "sh", "-c", binds], stderr=subprocess.DEVNULL).returncode == 0
    except OSError:
        is_had = False
    if not is_had:
        print("ways.py: skipped, since `unshare` gives no network and no mounts of its own here")
        return 0
    return subprocess.run([*apart, sys.executable, os.path.abspath(__file__), INSIDE, *programs]).returncode


if __name__ == "__main__":
    sys.exit(main())
