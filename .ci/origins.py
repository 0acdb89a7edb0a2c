"""Servers for the tests: one for Python's handlers, whose clients may hang up; and for kept links plain ones that do to a link, behind an
answer, what real servers do, and nginx and haproxy.

Those for kept links answer with the path of the request (plain ones with its body, where it has one), and with the number of the link
(nginx and haproxy with the port that it came from): `/17 over 40312`.
"""
import contextlib
import glob
import http.server
import os
import random
import select
import shutil
import socket
import ssl
import subprocess
import sys
import threading
import time

# So long something is waited for that is to come at once, and a program that is to listen: no bound of the proxy's.
WAIT, START = 60, 300

# No more than this part of a time is taken for the machine's.
MOST_TAKEN = 0.9

# Ports of this range are given to whoever asks for a named one alone: the system takes those of outgoing connections from above it.
LEAST_PORT, PORTS_END = 10000, 32768
given_ports = set()

# When a server closes a link that rests, and when a late answer comes.
REST_SECONDS, LATE_ANSWER_SECONDS = 0.05, 0.02
# How long a server that is slow to close keeps its socket.
SLOW_SECONDS = 2
LATE_HEAD = b"HTTP/1.1 408 Request Timeout\r\nContent-Type: text/plain\r\nContent-Length: %d\r\n\r\n"


def least_outgoing_port():
    """The least port that the system gives to an outgoing connection."""
    with contextlib.suppress(OSError, ValueError, IndexError):
        with open("/proc/sys/net/ipv4/ip_local_port_range") as file:
            return int(file.read().split()[0])
    return PORTS_END


def free_port():
    """A port at which nobody listens, and that no outgoing connection will take meanwhile; none is given twice."""
    end = max(LEAST_PORT + 1000, min(PORTS_END, least_outgoing_port()))
    for _ in range(1000):
        port = random.SystemRandom().randrange(LEAST_PORT, end)
        with contextlib.suppress(OSError):
            if port not in given_ports:
                socket.create_server(("127.0.0.1", port)).close()
                given_ports.add(port)
                return port
    raise OSError("no port is free")


class Server(http.server.ThreadingHTTPServer):
    """A server for Python's handlers at a port of its own. Clients that hang up in the midst of an answer are no fault of it."""

    request_queue_size = 128

    def __init__(self, handler, address=("127.0.0.1", 0)):
        super().__init__(address, handler)

    def handle_error(self, request, client_address):
        if not isinstance(sys.exc_info()[1], (ConnectionError, TimeoutError, ssl.SSLError)):
            super().handle_error(request, client_address)

    def start(self):
        """Serves from now on; gives its port."""
        threading.Thread(target=self.serve_forever, daemon=True).start()
        return self.server_address[1]


def waits_of(process):
    """For each thread of a process, how many seconds it waited for a processor so far."""
    waits = {}
    for path in glob.glob("/proc/%d/task/*/schedstat" % process.pid) if process else []:
        with contextlib.suppress(OSError, ValueError, IndexError):
            with open(path) as file:
                waits[path] = int(file.read().split()[1]) / 1e9
    return waits


def waited(process, before):
    """How many seconds more the threads of a process waited for a processor, which may be one behind another."""
    return sum(seconds - before.get(path, 0) for path, seconds in waits_of(process).items())


def comes(seconds, holds, process=None):
    """Whether something comes to hold within so many seconds. Those in which this thread would have gone on and couldn't aren't counted,
    and those in which a process waited for a processor."""
    before, steps = waits_of(process), 0
    while not holds():
        if 0.01 * steps > seconds and 0.01 * steps > seconds + min(waited(process, before), MOST_TAKEN * steps * 0.01):
            return False
        time.sleep(0.01)
        steps += 1
    return True


def wait_for(port, process=None):
    """Waits until somebody listens at a port, or the process that is to do so has ended. The connection that tells is one that the proxy
    serves."""
    end = time.monotonic() + START
    while time.monotonic() < end and (process is None or process.poll() is None):
        try:
            socket.create_connection(("127.0.0.1", port), timeout=WAIT).close()
            return True
        except OSError:
            time.sleep(0.05)
    return False


def rests(link, seconds):
    """Whether nothing comes over a link for so many seconds."""
    return not select.select([link], [], [], seconds)[0]


def keeps(link, notes):
    """Keeps its link for as long as its client does."""
    return True


def closes(link, notes):
    """Closes at once, without a word of it in the answer."""
    return False


def closes_at_rest(link, notes):
    """Closes a link that rests."""
    return not rests(link, REST_SECONDS)


def answers_late_and_closes(link, notes):
    """Sends an answer that nobody asked for over a link that rests, and closes."""
    is_late = rests(link, LATE_ANSWER_SECONDS)
    if is_late:
        with notes.late_answer() as late:
            link.sendall(late)
    return not is_late


def answers_late_and_keeps(link, notes):
    """Sends an answer that nobody asked for over a link that rests, and keeps the link."""
    answers_late_and_closes(link, notes)
    return True


def closes_slowly(link, notes):
    """Says its end together with its answer, and keeps the socket."""
    with notes.end():
        link.shutdown(socket.SHUT_WR)
    link.settimeout(SLOW_SECONDS)
    while link.recv(65536):
        pass
    return False


def read_request(lines):
    """The body of the next request, or its path where that is empty; None where there is no whole request."""
    words = lines.readline().split()
    length = 0
    while (line := lines.readline()) not in (b"\r\n", b""):
        name, _, value = line.partition(b":")
        if name.lower() == b"content-length":
            length = int(value)
    body = lines.read(length)
    return body or words[1] if len(words) == 3 and len(body) == length else None


class Notes:
    """Notes when an origin did what it does to a link. What is said of the link was so from the moment that is noted, or before."""

    def __init__(self, origin, number):
        self.origin, self.number = origin, number

    @contextlib.contextmanager
    def answer(self, body):
        """An answer is sent."""
        yield
        self.origin.sent[body] = time.monotonic()

    @contextlib.contextmanager
    def unasked(self):
        """Something is done to the link that rests."""
        self.origin.disturbed.setdefault(self.number, time.monotonic())
        yield
        self.origin.spoiled.setdefault(self.number, time.monotonic())

    @contextlib.contextmanager
    def late_answer(self):
        """An answer is sent that nobody asked for, which this gives."""
        body = b"too late %d over %d" % (len(self.origin.sent), self.number)
        with self.unasked(), self.answer(body):
            yield LATE_HEAD % len(body) + body

    @contextlib.contextmanager
    def end(self):
        """The link is ended."""
        with self.unasked():
            yield
        self.origin.ended.setdefault(self.number, time.monotonic())


class LinkOrigin(threading.Thread):
    """An origin of many links, which does behind an answer what `behind` does, and goes on with a link where that says so. It knows how
    many links are open, and how many there were. It notes the moments by which each answer was sent, by the answer's body; by which each
    link was first disturbed, spoiled by that, and ended, by the link's number: `disturbed` is the moment before, the others are those behind.
    """

    def __init__(self, behind=keeps):
        super().__init__(daemon=True)
        self.behind = behind
        self.listener = socket.create_server(("127.0.0.1", 0), backlog=128)
        self.port = self.listener.getsockname()[1]
        self.counting = threading.Lock()
        self.links = self.open = 0
        self.sent, self.disturbed, self.spoiled, self.ended = {}, {}, {}, {}
        self.start()

    def run(self):
        while True:
            link, _ = self.listener.accept()
            link.setsockopt(socket.IPPROTO_TCP, socket.TCP_NODELAY, 1)
            with self.counting:
                self.links += 1
                self.open += 1
            threading.Thread(target=self.serve, args=(link, Notes(self, self.links)), daemon=True).start()

    def serve(self, link, notes):
        try:
            with contextlib.suppress(OSError):
                if self.answers(link, notes):
                    with notes.end():
                        link.close()
        finally:
            link.close()
            with self.counting:
                self.open -= 1

    def answers(self, link, notes):
        """Answers each request, until the link is to be closed, or its client has ended it; whether it is the former."""
        flags = socket.MSG_MORE if self.behind is closes_slowly else 0
        with link.makefile("rb") as lines:
            while named := read_request(lines):
                body = b"%s over %d" % (named, notes.number)
                answer = b"HTTP/1.1 200 OK\r\nContent-Type: text/plain\r\nContent-Length: %d\r\n\r\n" % len(body) + body
                with notes.answer(body):
                    link.sendall(answer, flags)
                if not self.behind(link, notes):
                    return True
        return False


# The servers' configurations, with a port to be put in, the words that run each, and the Debian packages that have them.
NGINX = """daemon off;
master_process off;
pid nginx.pid;
error_log stderr crit;
events {}
http {
    access_log off;
    client_body_temp_path body;
    proxy_temp_path proxy;
    fastcgi_temp_path fastcgi;
    uwsgi_temp_path uwsgi;
    scgi_temp_path scgi;
    keepalive_timeout 1s;
    keepalive_requests 7;
    server {
        listen 127.0.0.1:%d;
        default_type text/plain;
        location / { return 200 "$uri over $remote_port"; }
    }
}
"""
HAPROXY = """global
    maxconn 200
defaults
    mode http
    timeout client 30s
    timeout http-request 10s
    timeout http-keep-alive 200
    option http-buffer-request
frontend origin
    bind 127.0.0.1:%d
    http-request return status 200 content-type text/plain lf-string "%%[path] over %%[src_port]"
"""
SERVERS = {
    "nginx": (NGINX, ["-p", ".", "-e", "stderr", "-c", "server.conf"], ["nginx", "nginx-light"]),
    "haproxy": (HAPROXY, ["-db", "-f", "server.conf"], ["haproxy", "liblua5.3-0", "libopentracing-c-wrapper0", "libopentracing1"]),
}


def fetched_server(name, folder):
    """The program of a server, unpacked from Debian's packages; None where they can't be had or don't run here."""
    quiet = {"cwd": folder, "stdin": subprocess.DEVNULL, "stdout": subprocess.DEVNULL, "stderr": subprocess.DEVNULL, "timeout": 60}
    with contextlib.suppress(OSError, subprocess.SubprocessError):
        for package in SERVERS[name][2]:
            subprocess.run(["apt-get", "download", "-qq", package], **quiet)
        for package in glob.glob(os.path.join(folder, "*.deb")):
            subprocess.run(["dpkg-deb", "-x", package, "."], **quiet)
        program = os.path.join(folder, "usr/sbin", name)
        if subprocess.run([program, "-v"], env=environment(folder), **quiet).returncode == 0:
            return program
    return None


def environment(folder):
    """The environment in which a server that was unpacked in a folder finds its libraries."""
    return {"PATH": os.environ["PATH"], "LD_LIBRARY_PATH": ":".join(glob.glob(os.path.join(folder, "usr/lib/*-linux-gnu")))}


@contextlib.contextmanager
def server(name, folder):
    """A real server that runs in a folder, and its port; None where it can't be had. What it says comes out where it doesn't listen."""
    program = shutil.which(name, path="/usr/sbin:/usr/bin:/usr/local/sbin:/usr/local/bin") or fetched_server(name, folder)
    if program is None:
        yield None
        return
    port = free_port()
    text, words, _ = SERVERS[name]
    with open(os.path.join(folder, "server.conf"), "w") as file:
        file.write(text % port)
    with open(os.path.join(folder, "said"), "w+b") as said:
        process = subprocess.Popen([program, *words], cwd=folder, env=environment(folder), stdin=subprocess.DEVNULL, stdout=said, stderr=said)
        try:
            if not wait_for(port):
                said.seek(0)
                sys.stdout.write(said.read().decode(errors="replace"))
            yield port
        finally:
            process.terminate()
            process.wait()
