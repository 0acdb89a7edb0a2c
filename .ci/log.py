#!/usr/bin/env python3
"""Runs `serve` of the built programs with `access-log 1` between real clients and a real origin on this machine, and compares its lines with
what the clients asked and got; with 64 workers and 10,000 requests, with outputs that fail, and through goaccess (Debian's, skipped where it
isn't there).

Usage: log.py PROGRAM..  Says what failed and what was skipped, and ends with 1 where something failed.
"""
import collections
import http.client
import http.server
import json
import os
import re
import shutil
import socket
import subprocess
import sys
import tempfile
import threading
import time

import serve
from serve import WAIT, Origin, check, free_port, read_all, running

LINE = re.compile(
    rb'127\.0\.0\.1 - - \[(\d\d/[A-Z][a-z]{2}/\d{4}:\d\d:\d\d:\d\d) \+0000\] "([^"\n]*)" (\d{3}|-) (\d+) "([a-z-]+)" "-"\n'
)
# So many clients, each with so many requests.
CLIENTS, EACH = 64, 157
FORMAT = '%h %^[%d:%t %^] "%r" %s %b "%^" "%^"'


def lines_in(path, count):
    """The lines of a log, which has so many before long; none where one of them isn't of the form."""
    until = time.time() + WAIT
    while True:
        with open(path, "rb") as file:
            data = file.read()
        if data.count(b"\n") >= count or time.time() > until:
            break
        time.sleep(0.02)
    lines = [LINE.fullmatch(line + b"\n") for line in data.split(b"\n")[:-1]]
    check("the log ends with a whole line", data.endswith(b"\n") or not data)
    check("each line is of the form", all(lines))
    return [line.groups() for line in lines if line]


def ask(port, request):
    """The head and the body that come for a request that closes its connection."""
    with socket.create_connection(("127.0.0.1", port), timeout=WAIT) as link:
        link.sendall(request)
        head, _, body = read_all(link).partition(b"\r\n\r\n")
        return head, body


def get(target, more=b""):
    return b"GET %s HTTP/1.1\r\nHost: a.test\r\n%sConnection: close\r\n\r\n" % (target, more)


def kinds(program, origin):
    """A line for each kind of exchange, with what its client got."""
    own = b"http://127.0.0.1:%d/" % origin
    closed = b"http://127.0.0.1:%d/x" % free_port()
    rows = [
        ("an answer that passes", get(own + b"text"), "passed"),
        ("a blocked one", get(b"http://ad.test/banner"), "blocked"),
        ("a page of the proxy's own", get(b"http://p.p/"), "inside"),
        ("a host that isn't reached", get(closed), "connect-failed"),
        ("HEAD", get(own + b"text").replace(b"GET", b"HEAD", 1), "bodiless"),
        ("no request at all", b"\x01\"\\ nothing\r\n\r\n", "invalid-request"),
    ]
    with tempfile.TemporaryDirectory() as folder:
        path = os.path.join(folder, "log")
        with open(path, "wb") as out, running(program, "actionsfile u.action\naccess-log 1\n", stdout=out) as (port, _):
            got = [ask(port, request) for _, request, _ in rows]
            tunnel = b"CONNECT 127.0.0.1:%d HTTP/1.1\r\n\r\n" % origin
            inner = b"GET /text HTTP/1.0\r\n\r\n"
            with socket.create_connection(("127.0.0.1", port), timeout=WAIT) as link:
                link.sendall(tunnel + inner)
                head, _, body = read_all(link).partition(b"\r\n\r\n")
            lines = lines_in(path, len(rows) + 1)
        check("there is a line for each exchange", len(lines) == len(rows) + 1)
        for (name, request, ending), (answer, content), line in zip(rows, got, lines):
            asked = request.split(b"\r\n", 1)[0]
            shown = asked.replace(b"\\", rb"\x5c").replace(b"\x01", rb"\x01").replace(b'"', rb"\x22")
            check(name + ": the request line", line[1] == shown)
            check(name + ": the status", line[2] == answer.split(b" ", 2)[1])
            check(name + ": the bytes of the body", int(line[3]) == len(content))
            check(name + ": how it ended", line[4].decode() == ending)
        check("a tunnel: its line", lines[-1:] and lines[-1][1:] == (tunnel.split(b"\r\n")[0], b"200", b"%d" % len(body), b"tunnel"))
        moment = time.strptime(lines[0][0].decode(), "%d/%b/%Y:%H:%M:%S") if lines else None
        check("the moment is now, in UTC", moment and abs(time.time() - time.mktime(moment) + time.timezone) < 120)


def without(program, origin):
    """Where no line of the main file says so, there is no log."""
    with tempfile.TemporaryDirectory() as folder:
        for main in ("", "access-log 0\n"):
            path = os.path.join(folder, "log")
            with open(path, "wb") as out, running(program, main, stdout=out) as (port, _):
                head, _ = ask(port, get(b"http://127.0.0.1:%d/text" % origin))
                check("without a log it serves", b" 200 " in head.split(b"\r\n")[0])
            check("and nothing is written", os.path.getsize(path) == 0)


def client(port, origin, number, done):
    """So many requests over one connection, or over the next where that is spent."""
    link, count = None, 0
    for turn in range(EACH):
        if link is None:
            link = http.client.HTTPConnection("127.0.0.1", port, timeout=WAIT)
        link.request("GET", "http://127.0.0.1:%d/text?%d-%d" % (origin, number, turn))
        answer = link.getresponse()
        count += len(answer.read()) > 0 and answer.status == 200
        if answer.will_close:
            link.close()
            link = None
    done.append(count)


def many(program, origin, folder):
    """Lines of workers that write at the same time don't mix: each request has one. The log's path, for goaccess."""
    path = os.path.join(folder, "many.log")
    done = []
    with open(path, "wb") as out, running(program, "access-log 1\nlink-reuse 1\n", ("64",), stdout=out) as (port, _):
        clients = [threading.Thread(target=client, args=(port, origin, number, done)) for number in range(CLIENTS)]
        for one in clients:
            one.start()
        for one in clients:
            one.join()
        check("all requests were answered", sum(done) == CLIENTS * EACH)
        lines = lines_in(path, CLIENTS * EACH)
    asked = collections.Counter(line[1].split(b"?")[-1].split(b" ")[0] for line in lines)
    check("each request has one line", len(asked) == CLIENTS * EACH and set(asked.values()) == {1})
    return path


def failing(program, origin):
    """A log that can't take its lines changes no answer."""
    request = get(b"http://127.0.0.1:%d/text" % origin)
    with open("/dev/full", "wb") as out, running(program, "access-log 1\n", stdout=out) as (port, proxy):
        heads = [ask(port, request)[0] for _ in range(3)]
        check("with a full disk it serves", all(b" 200 " in head.split(b"\r\n")[0] for head in heads) and proxy.poll() is None)
    reads, writes = os.pipe()
    with running(program, "access-log 1\n", stdout=writes) as (port, proxy):
        os.close(writes)
        os.close(reads)
        heads = [ask(port, request)[0] for _ in range(3)]
        check("with a pipe that is closed it serves", all(b" 200 " in head.split(b"\r\n")[0] for head in heads) and proxy.poll() is None)


def through_goaccess(path):
    goaccess = shutil.which("goaccess")
    if goaccess is None:
        print("skipped: goaccess isn't there")
        return
    words = [goaccess, path, "--no-global-config", "--log-format=" + FORMAT, "--date-format=%d/%b/%Y", "--time-format=%T", "-o", path + ".json"]
    ran = subprocess.run(words, stdout=subprocess.DEVNULL, stderr=subprocess.DEVNULL, stdin=subprocess.DEVNULL, timeout=120)
    with open(path + ".json", encoding="utf-8") as file:
        general = json.load(file)["general"]
    check("goaccess reads every line", ran.returncode == 0 and general["valid_requests"] == CLIENTS * EACH and general["failed_requests"] == 0)


def main():
    server = http.server.ThreadingHTTPServer(("127.0.0.1", 0), Origin)
    server.daemon_threads = True
    threading.Thread(target=server.serve_forever, daemon=True).start()
    origin = server.server_address[1]
    with tempfile.TemporaryDirectory() as folder:
        for program in map(os.path.abspath, sys.argv[1:]):
            kinds(program, origin)
            without(program, origin)
            failing(program, origin)
            through_goaccess(many(program, origin, folder))
    serve.finished()


main()
