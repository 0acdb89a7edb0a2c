#!/usr/bin/env python3
"""Runs `serve` of the built programs between real clients and a real origin on this machine, and compares bytes.

The adapters over sockets tell no bytes to the proofs, so they are tried here: by Python's http.client, by raw sockets, and by curl where it
is there. Usage: serve.py PROGRAM..  Says what failed and what was skipped, and ends with 1 where something failed.
"""
import contextlib
import http.client
import http.server
import os
import resource
import select
import shutil
import socket
import subprocess
import sys
import tempfile
import threading
import time

import origins
from origins import START, WAIT, comes, free_port, wait_for

LARGE = bytes(range(256)) * 40960

# Half of an answer, and of a body, that comes in two steps.
HALF = 40000

# How many clients of each kind that ask for an answer of a megabyte, and its body.
CLIENTS = 50
MEGABYTE = LARGE[:1 << 20]

# So many seconds one side of a tunnel is silent while the other sends.
SILENT = 65

# So few descriptors a proxy has for 60 clients.
FEW = 40

# A page with an image that is there to count readers, and what conf/ makes of it.
PAGE = b'<p>Hello<img src="/count.gif" width="1" height="1"></p>'
CLEAN = b"<p>Hello<!-- tiny image taken out --></p>"
CONF = os.path.join(os.path.dirname(os.path.abspath(__file__)), "..", "conf")

passed, failures = 0, []
counting = threading.Lock()


def check(name, holds):
    global passed
    with counting:
        if holds:
            passed += 1
        else:
            failures.append(name)
            print("failed:", name, flush=True)


def finished():
    """Says how much passed and failed, and what failed once more, at the end of the output; and ends the script."""
    sys.stderr.flush()
    print("%d passed, %d failed" % (passed, len(failures)))
    for name in failures:
        print("failed:", name)
    sys.exit(1 if failures else 0)


class Origin(http.server.BaseHTTPRequestHandler):
    """Answers by the path, and sends back what it got."""

    protocol_version = "HTTP/1.1"

    def log_message(self, *words):
        pass

    def reply(self, body, kind="text/plain"):
        self.send_response(200)
        self.send_header("Content-Type", kind)
        self.send_header("Content-Length", str(len(body)))
        self.end_headers()
        if self.command != "HEAD":
            self.wfile.write(body)

    def do_GET(self):
        if self.path == "/large":
            self.reply(LARGE)
        elif self.path == "/megabyte":
            self.reply(MEGABYTE)
        elif self.path == "/page":
            self.reply(PAGE, "text/html")
        elif self.path == "/reset":
            self.wfile.write(b"HTTP/1.1 200 OK\r\nContent-Length: 100\r\n\r\nshort")
            self.close_connection = True
        else:
            self.reply(self.path.encode())

    do_HEAD = do_GET

    def do_POST(self):
        self.reply(self.rfile.read(int(self.headers["Content-Length"])))


class EchoHandler(threading.Thread):
    """An origin of tunnels: sends back what it gets, until its client ends."""

    def __init__(self):
        super().__init__(daemon=True)
        self.listener = socket.create_server(("127.0.0.1", 0))
        self.port = self.listener.getsockname()[1]

    def run(self):
        while True:
            link, _ = self.listener.accept()
            with link:
                while piece := link.recv(65536):
                    link.sendall(piece)


class StepOrigin(threading.Thread):
    """An origin that sends the second half of an answer once its client has the first, and tells when it has the first half of a body."""

    def __init__(self):
        super().__init__(daemon=True)
        self.listener = socket.create_server(("127.0.0.1", 0))
        self.port = self.listener.getsockname()[1]
        self.has_first_half = threading.Event()
        self.client_has_first_half = threading.Event()

    def run(self):
        while True:
            link, _ = self.listener.accept()
            with link, link.makefile("rb") as lines:
                posted = lines.readline().startswith(b"POST")
                while lines.readline() not in (b"\r\n", b""):
                    pass
                if posted:
                    lines.read(HALF)
                    self.has_first_half.set()
                    lines.read(HALF)
                    link.sendall(b"HTTP/1.1 200 OK\r\nContent-Length: 2\r\n\r\nok")
                else:
                    link.sendall(b"HTTP/1.1 200 OK\r\nContent-Length: %d\r\n\r\n" % (2 * HALF) + b"a" * HALF)
                    self.client_has_first_half.wait(WAIT)
                    link.sendall(b"b" * HALF)


class Origin413(threading.Thread):
    """An origin that refuses each request at its head, and then throws its body away."""

    def __init__(self):
        super().__init__(daemon=True)
        self.listener = socket.create_server(("127.0.0.1", 0))
        self.port = self.listener.getsockname()[1]

    def run(self):
        while True:
            link, _ = self.listener.accept()
            with link, link.makefile("rb") as lines:
                while lines.readline() not in (b"\r\n", b""):
                    pass
                link.sendall(b"HTTP/1.1 413 Content Too Large\r\nContent-Length: 8\r\nConnection: close\r\n\r\ntoo long")
                link.shutdown(socket.SHUT_WR)
                while lines.read(65536):
                    pass


class SlowOrigin(threading.Thread):
    """An origin of tunnels: with `down` it sends a piece each half second and reads nothing, else it reads to the end and tells how much came."""

    def __init__(self, down):
        super().__init__(daemon=True)
        self.down = down
        self.listener = socket.create_server(("127.0.0.1", 0))
        self.port = self.listener.getsockname()[1]

    def run(self):
        link, _ = self.listener.accept()
        with link:
            if self.down:
                send_slowly(link)
            else:
                link.sendall(b"%d" % len(read_all(link)))


def send_slowly(link):
    """Sends a piece each half second, for as long as the other side is silent, and then the end."""
    for _ in range(2 * SILENT):
        link.sendall(b"x" * 1000)
        time.sleep(0.5)
    link.shutdown(socket.SHUT_WR)


class Lateness(threading.Thread):
    """How many seconds the machine took since this was made: in which it kept a thread here waiting that wanted to go on (one that wakes
    again and again tells it), or a thread of the proxy. A bound of time is of what the proxy does or waits for, and that is no part of it."""

    # Who sleeps so long may wake so much later on any machine.
    STEP, USUAL = 0.02, 0.002

    def __init__(self, process=None):
        super().__init__(daemon=True)
        self.process, self.before = process, origins.waits_of(process)
        self.began = self.woke = time.monotonic()
        self.lost, self.goes_on = 0, True
        self.start()

    def late(self):
        return max(0, time.monotonic() - self.woke - self.STEP - self.USUAL)

    def run(self):
        while self.goes_on:
            self.woke = time.monotonic()
            time.sleep(self.STEP)
            self.lost += self.late()

    def end(self):
        """Ends it, and gives the seconds since, and those of them that the machine took."""
        self.goes_on = False
        took = time.monotonic() - self.began
        return took, min(self.lost + self.late() + origins.waited(self.process, self.before), origins.MOST_TAKEN * took)


def reset(link):
    """Closes a connection so that the other side sees it broken."""
    link.setsockopt(socket.SOL_SOCKET, socket.SO_LINGER, b"\x01\x00\x00\x00\x00\x00\x00\x00")
    link.close()


def kept_client(port, origin):
    """A client that has its answer from an origin that keeps links, and rests."""
    client = socket.create_connection(("127.0.0.1", port), timeout=WAIT)
    client.sendall(b"GET http://127.0.0.1:%d/kept HTTP/1.1\r\nHost: x\r\n\r\n" % origin)
    got = b""
    while b"/kept over " not in got and (piece := client.recv(65536)):
        got += piece
    check("a client that rests is answered `/kept over ..`, and there is %r" % got[-60:], b"/kept over " in got)
    return client


def read_all(link):
    """What comes over a socket until its end."""
    parts = []
    while piece := link.recv(65536):
        parts.append(piece)
    return b"".join(parts)


def read_until(link, count):
    """So many bytes or more that come over a socket, or fewer where it ends before."""
    got = b""
    while len(got) < count and (piece := link.recv(65536)):
        got += piece
    return got


def raw(port, sent):
    """Sends bytes, ends the outgoing side, and gives all that comes back."""
    with socket.create_connection(("127.0.0.1", port), timeout=WAIT) as link:
        link.sendall(sent)
        link.shutdown(socket.SHUT_WR)
        return read_all(link)


@contextlib.contextmanager
def running(program, main="", words=(), **options):
    """A proxy of its own that listens, with its folder, port and process."""
    with tempfile.TemporaryDirectory() as folder:
        port = free_port()
        with open(os.path.join(folder, "config"), "w") as file:
            file.write("listen-address 127.0.0.1:%d\n%s" % (port, main))
        with open(os.path.join(folder, "u.action"), "w") as file:
            file.write("{+block{ads}}\nad.test\n")
        proxy = subprocess.Popen([program, "serve", "config", *words], cwd=folder, **options)
        try:
            check("a proxy of its own listens", wait_for(port, proxy))
            yield port, proxy
        finally:
            proxy.kill()
            proxy.wait()


def silent_client(program):
    """A tunnel whose client is silent while its origin sends."""
    origin = SlowOrigin(True)
    origin.start()
    with running(program) as (port, _):
        with socket.create_connection(("127.0.0.1", port), timeout=SILENT) as link:
            link.sendall(b"CONNECT 127.0.0.1:%d HTTP/1.1\r\n\r\n" % origin.port)
            body = read_all(link).split(b"\r\n\r\n", 1)[1]
            check("a tunnel with a silent client is whole", body == b"x" * (2000 * SILENT))


def silent_origin(program):
    """A tunnel whose origin is silent while its client sends, and then answers."""
    origin = SlowOrigin(False)
    origin.start()
    with running(program) as (port, _):
        with socket.create_connection(("127.0.0.1", port), timeout=WAIT) as link:
            link.sendall(b"CONNECT 127.0.0.1:%d HTTP/1.1\r\n\r\n" % origin.port)
            send_slowly(link)
            body = read_all(link).split(b"\r\n\r\n", 1)[1]
            check("a tunnel with a silent origin is whole", body == b"%d" % (2000 * SILENT))


def ended_after(link, least, most, sent=b""):
    """Whether a connection is ended by the proxy after so many seconds, while a byte is sent every four seconds."""
    lateness = Lateness()
    link.settimeout(4)
    for at in range(int(most)):
        try:
            if link.recv(1) == b"":
                break
        except socket.timeout:
            with contextlib.suppress(ConnectionError):
                link.sendall(sent[at:at + 1])
        except ConnectionError:
            break
    took, lost = lateness.end()
    return least <= took and took - lost <= most


def idle_clients(program):
    """A client that sends nothing has 15 seconds, and one that sends its head byte by byte 60 in all."""
    with running(program) as (port, _):
        with socket.create_connection(("127.0.0.1", port)) as link:
            check("a client that sends nothing is let go", ended_after(link, 14, 20))
        with socket.create_connection(("127.0.0.1", port)) as link:
            check("a client that sends byte by byte is let go", ended_after(link, 50, 70, b"GET http://127.0.0.1/ HTTP/1.1"))


def descriptors_of(process):
    """The numbers of a process's descriptors."""
    return {int(name) for name in os.listdir("/proc/%d/fd" % process.pid)}


def leave_no_descriptor(process):
    """Allows a process no descriptor beside those below the first free number, and gives what it was allowed before."""
    used = descriptors_of(process)
    before = resource.prlimit(process.pid, resource.RLIMIT_NOFILE)
    resource.prlimit(process.pid, resource.RLIMIT_NOFILE, (min(set(range(len(used) + 1)) - used), before[1]))
    return before


def up_to_unanswered(port):
    """Clients that ask and rest, up to the first one that isn't answered in two seconds: an accept that waits has its descriptor already."""
    clients = []
    for _ in range(5):
        clients.append(socket.create_connection(("127.0.0.1", port), timeout=WAIT))
        clients[-1].sendall(b"GET http://ad.test/ HTTP/1.1\r\nHost: ad.test\r\n\r\n")
        if not select.select(clients[-1:], [], [], 2)[0]:
            return clients
    check("without descriptors a client that isn't answered is expected, and %d are answered" % len(clients), False)
    return clients


def without_descriptors(program):
    """No descriptor is left for a connection: it is accepted once there is one. What lasts for ten seconds ends the proxy."""
    with running(program, "actionsfile u.action\n", stderr=subprocess.DEVNULL) as (port, proxy):
        comes(WAIT, lambda: sockets_of(proxy) == 0)
        before = leave_no_descriptor(proxy)
        clients = up_to_unanswered(port)
        resource.prlimit(proxy.pid, resource.RLIMIT_NOFILE, before)
        check("a connection waits for a descriptor", clients[-1].recv(65536).startswith(b"HTTP/1.1 403"))
        for client in clients:
            client.close()
        comes(WAIT, lambda: sockets_of(proxy) == 0)
        leave_no_descriptor(proxy)
        clients = up_to_unanswered(port)
        began = time.monotonic()
        check("without descriptors the proxy ends", proxy.wait(timeout=WAIT) == 7)
        check("but not at once", time.monotonic() - began > 6)
        for client in clients:
            client.close()


def sockets_of(process):
    """How many sockets a process has beside the one at which it listens."""
    found = set()
    for number in descriptors_of(process):
        with contextlib.suppress(OSError):
            found.add(os.readlink("/proc/%d/fd/%d" % (process.pid, number)))
    return sum(it.startswith("socket:") for it in found) - 1


def given_back(program):
    """A client that goes leaves no descriptor behind for longer than a second, though nobody else comes."""
    origin = origins.LinkOrigin()
    for main in ("link-reuse 0\n", "link-reuse 1\n"):
        with running(program, main, ("8",)) as (port, proxy):
            for leave in (None, socket.socket.close, reset):
                # (where none asks, the one that told that it listens has gone)
                if leave:
                    leave(kept_client(port, origin.port))
                comes(1, lambda: sockets_of(proxy) == 0, proxy)
                left = sockets_of(proxy)
                told = "%s, %s" % (main.strip(), "a client goes by " + leave.__name__ if leave else "a client that said nothing goes")
                check("%s: no socket is expected a second later, and there are %d" % (told, left), left == 0)


def few_descriptors(program):
    """More clients with kept links than there are descriptors, who then all go: the next one is served at once, and the proxy goes on."""
    origin = origins.LinkOrigin()
    with running(program, "link-reuse 1\n", ("64",), stderr=subprocess.DEVNULL) as (port, proxy):
        resource.prlimit(proxy.pid, resource.RLIMIT_NOFILE, (FEW, FEW))
        clients = [socket.create_connection(("127.0.0.1", port), timeout=WAIT) for _ in range(60)]
        for client in clients:
            client.sendall(b"GET http://127.0.0.1:%d/kept HTTP/1.1\r\nHost: x\r\n\r\n" % origin.port)
        time.sleep(3)
        comes(WAIT, lambda: origin.open > 5)
        check("with %d descriptors, some of 60 clients have a kept link, and there are %d" % (FEW, origin.open), 5 < origin.open < FEW)
        for client in clients:
            client.close()
        lateness = Lateness(proxy)
        try:
            kept_client(port, origin.port).close()
        except OSError as fault:
            check("an answer is expected behind clients that went, and there is %r" % fault, False)
        took, lost = lateness.end()
        told = "behind clients that went, an answer is expected within a second, and took %.1f s, %.1f of them the machine's" % (took, lost)
        check(told, took - lost <= 1)
        time.sleep(15)
        check("a proxy is expected to go on 15 seconds later, and its status is %s" % proxy.poll(), proxy.poll() is None)
        if proxy.poll() is None:
            kept_client(port, origin.port).close()


def nobody_reads(program):
    """A proxy whose error output nobody reads serves."""
    reads, writes = os.pipe()
    os.close(reads)
    with running(program, "actionsfile u.action\n", stderr=writes) as (port, _):
        os.close(writes)
        got = raw(port, b"GET http://ad.test/ HTTP/1.1\r\nConnection: close\r\n\r\n")
        check("a proxy whose error output nobody reads serves", got.startswith(b"HTTP/1.1 403"))


def at_their_times(program):
    """Starts what waits by the proxy's own times, each with a proxy of its own, side by side."""
    tries = [silent_client, silent_origin, idle_clients, without_descriptors, given_back, few_descriptors, nobody_reads]
    threads = [threading.Thread(target=guarded, args=(it, program)) for it in tries]
    for thread in threads:
        thread.start()
    return threads


def guarded(run, *words):
    """Runs it, and counts it as failed where it breaks off."""
    try:
        run(*words)
    except Exception as fault:
        check("%s: %r" % (run.__name__, fault), False)


def end_of_answer(port, sent, late, wait):
    """Whether an answer of a megabyte comes whole, and nothing behind it, for a client that sends more in the midst of it."""
    with socket.create_connection(("127.0.0.1", port), timeout=WAIT) as link:
        link.sendall(sent)
        time.sleep(wait)
        got = link.recv(65536)
        link.sendall(late)
        got += read_all(link)
    return got.count(b"HTTP/1.1 200 OK\r\n") == 1 and got.endswith(b"\r\n\r\n" + MEGABYTE)


def ends_of_answers(port, origin):
    """The end of an answer isn't lost by what its client sends late: a line end, a request behind a close, anything while it reads late."""
    asked = b"GET http://127.0.0.1:%d/megabyte HTTP/1.1\r\nConnection: close\r\n\r\n" % origin
    kinds = (("a late line end", asked, b"\r\n", 0), ("a request behind a close", asked + asked, b"", 0), ("a late reader", asked + b"\r\n", b"\r\n", 0.3))
    for name, sent, late, wait in kinds:
        whole = []
        clients = [threading.Thread(target=lambda: whole.append(end_of_answer(port, sent, late, wait))) for _ in range(CLIENTS)]
        for at in range(0, CLIENTS, 10):
            for client in clients[at:at + 10]:
                client.start()
            for client in clients[at:at + 10]:
                client.join()
        check("%s: %d of %d answers are whole" % (name, sum(whole), CLIENTS), sum(whole) == CLIENTS)


def refused_uploads(port):
    """A body of 10 MB that is refused at its head, by the origin and by the proxy itself, for a client that sends it to its end first."""
    origin = Origin413()
    origin.start()
    for name, host, wanted in (
        ("by its origin", b"127.0.0.1:%d" % origin.port, b"HTTP/1.1 413"),
        ("by the proxy", b"ad.test", b"HTTP/1.1 403"),
    ):
        with socket.create_connection(("127.0.0.1", port), timeout=WAIT) as link:
            try:
                link.sendall(b"POST http://%s/ HTTP/1.1\r\nContent-Length: %d\r\n\r\n" % (host, len(LARGE)) + LARGE)
            except ConnectionError:
                pass
            got = b""
            try:
                while piece := link.recv(65536):
                    got += piece
            except ConnectionError:
                pass
            check("an upload that is refused %s gets its page" % name, got.startswith(wanted) and len(got.split(b"\r\n\r\n", 1)[1]) > 0)


def many_requests(port, origin):
    """Thirty requests on one connection."""
    link = http.client.HTTPConnection("127.0.0.1", port, timeout=WAIT)
    for number in range(30):
        link.request("GET", "http://127.0.0.1:%d/%d" % (origin, number))
        answer = link.getresponse()
        check("request %d of one connection" % number, answer.status == 200 and answer.read() == b"/%d" % number)
    link.close()


def pages(port, closed):
    """A host that isn't found, a port where nobody listens, and a blocked request."""
    got = raw(port, b"GET http://no-such-host.invalid/ HTTP/1.1\r\n\r\n")
    check("no-such-domain", got.startswith(b"HTTP/1.1 404") and b"no-such-domain" in got)
    got = raw(port, b"GET http://127.0.0.1:%d/ HTTP/1.1\r\n\r\n" % closed)
    check("connect-failed", got.startswith(b"HTTP/1.1 503") and b"connect-failed" in got)
    got = raw(port, b"GET http://ad.test/ HTTP/1.1\r\nConnection: close\r\n\r\n")
    check("blocked", got.startswith(b"HTTP/1.1 403") and b"blocked: ads" in got)


def cut_answer(port, origin):
    """An answer that its origin cuts: what came of it, and then the end."""
    got = raw(port, b"GET http://127.0.0.1:%d/reset HTTP/1.1\r\n\r\n" % origin)
    check("a cut answer", got.endswith(b"\r\n\r\nshort"))


def resets(port):
    """Clients that go away in a head and before their answer end nothing else."""
    for sent in (b"GET http://127", b"GET http://127.0.0.1:1/ HTTP/1.1\r\n\r\n"):
        link = socket.create_connection(("127.0.0.1", port), timeout=WAIT)
        link.sendall(sent)
        reset(link)


def tunnel(port, echo):
    """A tunnel whose sides wait for each other, and whose client ends first."""
    with socket.create_connection(("127.0.0.1", port), timeout=WAIT) as link:
        link.sendall(b"CONNECT 127.0.0.1:%d HTTP/1.1\r\n\r\nahead" % echo)
        greeting = b"HTTP/1.1 200 Connection established\r\n\r\n"
        got = read_until(link, len(greeting) + 5)
        check("a tunnel's greeting and the bytes sent ahead", got == greeting + b"ahead")
        for piece in (b"one", b"two", LARGE[:100000]):
            link.sendall(piece)
            got = read_until(link, len(piece))
            check("a tunnel's piece of %d bytes" % len(piece), got == piece)
        link.shutdown(socket.SHUT_WR)
        check("a tunnel's end", read_all(link) == b"")


def in_steps(port):
    """Each piece of an answer and of a body is handed on before the next one is there: at most 16,384 bytes are held."""
    origin = StepOrigin()
    origin.start()
    with socket.create_connection(("127.0.0.1", port), timeout=WAIT) as link:
        link.sendall(b"GET http://127.0.0.1:%d/ HTTP/1.1\r\nConnection: close\r\n\r\n" % origin.port)
        got = b""
        try:
            while got.count(b"a") < HALF - 16384 and (piece := link.recv(65536)):
                got += piece
        except socket.timeout:
            pass
        check("the first half of an answer before the second", not got.endswith(b"b") and got.count(b"a") >= HALF - 16384)
        origin.client_has_first_half.set()
        check("the second half of an answer", (got + read_all(link)).endswith(b"a" * HALF + b"b" * HALF))
    with socket.create_connection(("127.0.0.1", port), timeout=WAIT) as link:
        link.sendall(b"POST http://127.0.0.1:%d/ HTTP/1.1\r\nConnection: close\r\nContent-Length: %d\r\n\r\n" % (origin.port, 2 * HALF) + b"a" * HALF)
        check("the first half of a body before the second", origin.has_first_half.wait(WAIT))
        link.sendall(b"b" * HALF)
        check("the answer behind a body", read_all(link).endswith(b"\r\n\r\nok"))


def curl(port, origin, folder):
    """The same by curl, where it is there."""
    if shutil.which("curl") is None:
        print("skipped: curl isn't there")
        return
    body = os.path.join(folder, "body")
    with open(body, "wb") as file:
        file.write(LARGE[:3000000])
    url = "http://127.0.0.1:%d" % origin
    for name, words, wanted in (
        ("get", [url + "/x"], b"/x"),
        ("large", [url + "/large"], LARGE),
        ("post", ["-H", "Expect: 100-continue", "--data-binary", "@" + body, url + "/post"], LARGE[:3000000]),
        ("head", ["-I", url + "/x"], None),
        ("tunnel", ["--proxytunnel", url + "/t", url + "/u"], b"/t/u"),
    ):
        ran = subprocess.run(
            ["curl", "-s", "--max-time", "600", "-x", "http://127.0.0.1:%d" % port] + words,
            stdout=subprocess.PIPE,
            env={"PATH": os.environ["PATH"]},
        )
        if wanted is None:
            check("curl: " + name, ran.returncode == 0 and ran.stdout.startswith(b"HTTP/1.1 200 OK\r\n"))
        else:
            check("curl: " + name, ran.returncode == 0 and ran.stdout == wanted)


def statuses(program, folder):
    """Words, configurations that don't load, a folder of templates that is a plain file, and a port that is taken."""
    with socket.create_server(("127.0.0.1", 0)) as taken:
        with open(os.path.join(folder, "taken"), "w") as file:
            file.write("listen-address 127.0.0.1:%d\n" % taken.getsockname()[1])
        with open(os.path.join(folder, "bad"), "w") as file:
            file.write("listen-address 0.0.0.0:8118\n")
        with open(os.path.join(folder, "plain"), "w") as file:
            file.write("listen-address 127.0.0.1:%d\ntempldir bad\n" % taken.getsockname()[1])
        with open(os.path.join(folder, "below"), "w") as file:
            file.write("actionsfile bad/u.action\n")
        refusal = b"helmthread: can't listen at 127.0.0.1:%d: in use\n" % taken.getsockname()[1]
        for words, status, text in (
            (["serve"], 2, b"usage: "),
            (["serve", "taken", "0"], 2, b"usage: "),
            (["serve", "taken", "1", "0"], 2, b"usage: "),
            (["serve", "bad"], 1, b"bad:1: 30 NotLoopback\n"),
            (["serve", "missing"], 1, b"missing:0: 32 Missing\n"),
            (["serve", "below"], 1, b"bad/u.action:0: 32 Missing\n"),
            (["serve", "plain"], 7, refusal),
            (["serve", "taken"], 7, refusal),
        ):
            ran = subprocess.run([program] + words, cwd=folder, stdout=subprocess.PIPE, stderr=subprocess.PIPE, timeout=START)
            check("status %d of %s" % (status, words), ran.returncode == status and ran.stderr.startswith(text) and ran.stdout == b"")


def served(program, folder, origin, echo):
    port = free_port()
    with open(os.path.join(folder, "config"), "w") as file:
        file.write("listen-address 127.0.0.1:%d\nactionsfile u.action\n" % port)
    with open(os.path.join(folder, "u.action"), "w") as file:
        file.write("{+block{ads}}\nad.test\n")
    proxy = subprocess.Popen([program, "serve", "config"], cwd=folder, stderr=subprocess.PIPE)
    try:
        check("the proxy says where it listens", proxy.stderr.readline() == b"helmthread: listens at 127.0.0.1:%d\n" % port)
        check("the proxy listens", wait_for(port, proxy))
        many_requests(port, origin)
        pages(port, free_port())
        cut_answer(port, origin)
        resets(port)
        tunnel(port, echo)
        in_steps(port)
        ends_of_answers(port, origin)
        refused_uploads(port)
        curl(port, origin, folder)
        many_requests(port, origin)
        check("the proxy still runs", proxy.poll() is None)
    finally:
        proxy.kill()
        proxy.wait()


def newcomer(program, folder, origin):
    """The configuration of conf/, as the manual's first ten minutes use it: a blocked advertisement and a clean page. Hosts of this
    machine are left alone by conf/, so its user.action switches the filter on for the origin."""
    port = free_port()
    copy = os.path.join(folder, "conf")
    shutil.copytree(CONF, copy)
    main = os.path.join(copy, "config")
    with open(main, encoding="utf-8") as file:
        text = file.read()
    with open(main, "w", encoding="utf-8") as file:
        file.write(text.replace("listen-address 127.0.0.1:8118", "listen-address 127.0.0.1:%d" % port))
    with open(os.path.join(copy, "user.action"), "a", encoding="utf-8") as file:
        file.write("\n{+filter{tiny-images}}\n127.0.0.1\n")
    proxy = subprocess.Popen([program, "serve", main])
    try:
        check("the proxy of conf/ listens", wait_for(port, proxy))
        got = raw(port, b"GET http://ads.example.net/offer HTTP/1.1\r\nConnection: close\r\n\r\n")
        check("conf/ blocks an advertisement", got.startswith(b"HTTP/1.1 403") and b"Advertisements come from here." in got)
        got = raw(port, b"GET http://127.0.0.1:%d/page HTTP/1.1\r\nConnection: close\r\n\r\n" % origin)
        check("conf/ cleans a page", got.startswith(b"HTTP/1.1 200") and got.endswith(CLEAN))
    finally:
        proxy.kill()
        proxy.wait()


def counted(program, folder, origin):
    """So many connections, and then the end with status 0."""
    port = free_port()
    with open(os.path.join(folder, "config"), "w") as file:
        file.write("listen-address 127.0.0.1:%d\n" % port)
    proxy = subprocess.Popen([program, "serve", "config", "1", "3"], cwd=folder)
    try:
        check("the counted proxy listens", wait_for(port, proxy))
        for number in range(2):
            got = raw(port, b"GET http://127.0.0.1:%d/%d HTTP/1.1\r\n\r\n" % (origin, number))
            check("connection %d of 3" % number, got.endswith(b"/%d" % number))
        check("the counted proxy ends", proxy.wait(timeout=WAIT) == 0)
    finally:
        proxy.kill()
        proxy.wait()


def main():
    origin = origins.Server(Origin).start()
    echo = EchoHandler()
    echo.start()
    programs = [os.path.abspath(it) for it in sys.argv[1:]]
    waiting = [thread for program in programs for thread in at_their_times(program)]
    for program in programs:
        with tempfile.TemporaryDirectory() as folder:
            guarded(statuses, program, folder)
            guarded(served, program, folder, origin, echo.port)
            guarded(counted, program, folder, origin)
            guarded(newcomer, program, folder, origin)
    for thread in waiting:
        thread.join()
    finished()


if __name__ == "__main__":
    main()
