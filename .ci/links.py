#!/usr/bin/env python3
"""Runs `serve` of the built programs where its links aren't plain ones: through a real SOCKS5 server (Debian's microsocks, skipped where
it isn't there), and shared by the requests of one client (`link-reuse`): before servers that close their links and answer unasked, before
nginx and haproxy (Debian's, skipped where they can't be had), and that no link outlives its client.

Usage: links.py PROGRAM..  Says what failed and what was skipped, and ends with 1 where something failed.
"""
import collections
import http.client
import math
import os
import re
import shutil
import socket
import subprocess
import sys
import tempfile
import threading
import time
import typing
from concurrent.futures import ProcessPoolExecutor

import origins
import serve
from serve import WAIT, Lateness, Origin, SlowOrigin, check, comes, free_port, guarded, kept_client, read_all, reset, running, wait_for

REQUESTS = 30
# A client that rests has the time of a head, and not that of a link.
PIECE_LEAST, PIECE_MOST = 12, 25

# So many requests before each server, so many of them on a connection, and the seconds between them.
MANY, EACH = 1000, 50
ANY = (0, 0.06, 0.005, 0.03, 0.015, 0.01, 0.06, 0.02, 0.04, 0.008)
SELDOM_AT_ONCE = ANY + ANY[1:]
AROUND_REST = (0, 0.07, 0.005, 0.07, 0, 0.01, 0.07, 0.015, 0.07, 0.001)
AROUND_LATE_ANSWER = (0, 0.06, 0, 0.045, 0, 0.002, 0.06, 0.05, 0.04, 0.001)
AROUND_A_SECOND = (0, 0.02, 0.005, 0.01) * 10 + (1.6,)
AROUND_A_FIFTH = ANY * 2 + (0.6,)
# What was done so long before a request has reached the proxy, however late this machine hands it on.
KNOWN = 0.005
# The servers: what each does behind an answer, the seconds between requests, and how many requests are to come behind a link that the
# server has spoiled by then, and how many over one that rests well, at least.
PLAIN = (
    ("a server that keeps its links", origins.keeps, ANY, 0, MANY - MANY // EACH),
    ("a server that closes behind each answer", origins.closes, SELDOM_AT_ONCE, MANY // 2, 0),
    ("a server that closes links at rest", origins.closes_at_rest, AROUND_REST, MANY // 5, MANY // 50),
    ("a server that answers late and closes", origins.answers_late_and_closes, AROUND_LATE_ANSWER, MANY // 5, 0),
    ("a server that answers late and keeps the link", origins.answers_late_and_keeps, AROUND_LATE_ANSWER, MANY // 5, 0),
    ("a server that closes slowly", origins.closes_slowly, ANY, MANY // 2, 0),
)
# nginx closes a link after a second and behind seven answers, and haproxy after 0.2 seconds; by so much later that has come.
REAL = (("nginx", AROUND_A_SECOND, 1, 0.4, 7), ("haproxy", AROUND_A_FIFTH, 0.2, 0.3, MANY))
# The pages for a lost link: where nothing comes back, and where the rest of a request can't be sent.
LOST = ("no-server-data", "send-failed")
SHOWN = 3
# So long a tunnel's end may take to come.
END_SECONDS = 30


class CountedOrigin(Origin):
    """An origin that counts its links. At `/close` it ends the link behind an answer that doesn't say so."""

    links = 0

    def setup(self):
        super().setup()
        type(self).links += 1

    def do_GET(self):
        self.reply(self.path.encode())
        if self.path == "/close":
            self.close_connection = True


def counted_origin():
    handler = type("Counted", (CountedOrigin,), {"links": 0})
    return handler, origins.Server(handler).start()


def asked(link, url):
    """The status and the body of a request on a connection."""
    link.request("GET", url)
    answer = link.getresponse()
    return answer.status, answer.read()


def links_of(program, main):
    """How many links an origin sees for requests on one connection."""
    handler, origin = counted_origin()
    with running(program, main) as (port, _):
        link = http.client.HTTPConnection("127.0.0.1", port, timeout=WAIT)
        for number in range(REQUESTS):
            check("request %d under '%s'" % (number, main.strip()), asked(link, "http://127.0.0.1:%d/%d" % (origin, number)) == (200, b"/%d" % number))
        link.close()
    return handler.links


def shared(program):
    """Requests of one client share a link, and make one each where that is off."""
    check("each request has its link", links_of(program, "") == REQUESTS)
    check("and where link-reuse is 0", links_of(program, "link-reuse 0\n") == REQUESTS)
    check("requests share one link", links_of(program, "link-reuse 1\n") == 1)


def closed_link(program):
    """A kept link that the origin has closed isn't lent: the next request makes a new one."""
    handler, origin = counted_origin()
    with running(program, "link-reuse 1\n") as (port, _):
        link = http.client.HTTPConnection("127.0.0.1", port, timeout=WAIT)
        check("an answer before the link is closed", asked(link, "http://127.0.0.1:%d/close" % origin) == (200, b"/close"))
        time.sleep(0.5)
        for path in (b"/a", b"/b"):
            got = asked(link, "http://127.0.0.1:%d%s" % (origin, path.decode()))
            check("behind a closed link, %s: 200 is expected, and there is %d %s" % (path.decode(), *got), got == (200, path))
        link.close()
    check("two links in all, and not %d" % handler.links, handler.links == 2)


def resting_client(program):
    """A client that rests beside a kept link is let go after the time of a head."""
    _, origin = counted_origin()
    with running(program, "link-reuse 1\n") as (port, _):
        with socket.create_connection(("127.0.0.1", port), timeout=6 * PIECE_MOST) as link:
            link.sendall(b"GET http://127.0.0.1:%d/x HTTP/1.1\r\nHost: x\r\n\r\n" % origin)
            check("an answer", link.recv(65536).startswith(b"HTTP/1.1 200"))
            lateness = Lateness()
            while link.recv(65536):
                pass
            took, lost = lateness.end()
            told = "it is let go in time, and in %.1f s, %.1f of them the machine's" % (took, lost)
            check(told, PIECE_LEAST <= took and took - lost <= PIECE_MOST)


class Answer(typing.NamedTuple):
    """The answer to a request: its status (0 where there is none) and body (then why), the moments before it was asked and behind it, and
    whether it is the first one of a client."""

    status: int
    body: bytes
    asked: float
    came: float
    is_first: bool


def answer_of(link, origin, number):
    """The answer to a numbered request, of which each third has no body."""
    named = "/%d" % number
    method, body = ("GET", None) if number % 3 == 2 else ("POST", named.encode())
    is_first, asked = number % EACH == 0, time.monotonic()
    try:
        link.request(method, "http://127.0.0.1:%d%s" % (origin, named), body)
        answer = link.getresponse()
        return Answer(answer.status, answer.read(), asked, time.monotonic(), is_first)
    except (OSError, http.client.HTTPException) as fault:
        link.close()
        return Answer(0, repr(fault).encode(), asked, time.monotonic(), is_first)


def answers_of(port, origin, pauses):
    """The answers to numbered requests, one after another over a few connections."""
    answers = []
    for first in range(0, MANY, EACH):
        link = http.client.HTTPConnection("127.0.0.1", port, timeout=WAIT)
        for number in range(first, first + EACH):
            time.sleep(pauses[number % len(pauses)])
            answers.append(answer_of(link, origin, number))
        link.close()
    return answers


def what_it_is(number, answer):
    """What an answer is to a numbered request: its own, another one's, a late one, a page of the proxy, or something else; and the link over
    which it came, or None."""
    came = re.fullmatch(rb"(/(\d+)|too late \d+) over (\d+)", answer.body)
    page = re.fullmatch(rb"<html><body>(\S+)</body></html>\n", answer.body)
    if came and came[2] and answer.status == 200:
        return "its own" if int(came[2]) == number else "another one's", int(came[3])
    if came and not came[2] and answer.status == 408:
        return "late ones", int(came[3])
    return (page[1].decode() if page else "something else"), None


def is_fault(kind, link, answer, before, origin):
    """Whether an answer is no right one, by what its origin noted of it and of the link of the answer before, which is None where there is
    none. What crosses the request on its way is none of the proxy's."""
    known = answer.asked - KNOWN
    if kind == "its own":
        return before not in (None, link) and origin.disturbed.get(before, math.inf) > answer.came
    if kind in ("another one's", "late ones"):
        return origin.sent.get(answer.body, math.inf) < known
    if kind in LOST:
        return not (origin.disturbed.get(before, math.inf) <= answer.came and origin.ended.get(before, -math.inf) >= known)
    return True


def told_of(link, answer, origin):
    """What the origin noted of a link, in milliseconds from the moment in which an answer was asked for."""
    notes = ((name, getattr(origin, name).get(link)) for name in ("disturbed", "spoiled", "ended"))
    return "link %s (%s)" % (link, ", ".join("%s %.1f" % (name, 1000 * (it - answer.asked)) for name, it in notes if it))


def tell(name, kinds, over):
    """Says what came, and over how many links."""
    links = sum(it != before for it, before in zip(over, [None, *over]))
    told = ", ".join("%d are %s" % (count, kind) for kind, count in collections.Counter(kinds).most_common())
    print("%s: of %d answers %s, over %d links" % (name, MANY, told, links))
    return links


def judge(name, answers, origin, least_spoiled, least_shared):
    """Holds what came against what the origin did."""
    found, faults, spoiled, shared, before = [], [], 0, 0, None
    for number, answer in enumerate(answers):
        before = None if answer.is_first else before
        kind, link = what_it_is(number, answer)
        found.append((kind, link))
        if is_fault(kind, link, answer, before, origin):
            faults.append("%d got %d %r behind %s" % (number, answer.status, answer.body, told_of(before, answer, origin)))
        spoiled += before is not None and origin.spoiled.get(before, math.inf) < answer.asked - KNOWN
        shared += link is not None and link == before
        before = link
    tell(name, [kind for kind, _ in found], [link for kind, link in found if kind == "its own"])
    told = "%s: each request its own answer is expected, over the link before where that rests well, but for what crosses it" % name
    check("%s; and of %d others, %s" % (told, len(faults), ", ".join(faults[:SHOWN])), not faults)
    check("%s: %d spoiled links at least are expected, and there were %d" % (name, least_spoiled, spoiled), spoiled >= least_spoiled)
    check("%s: %d shared links at least are expected, and there were %d" % (name, least_shared, shared), shared >= least_shared)


def plain_server(program, name, behind, pauses, least_spoiled, least_shared):
    """Many requests before a server of this test."""
    origin = origins.LinkOrigin(behind)
    with running(program, "link-reuse 1\n") as (port, _):
        judge(name, answers_of(port, origin.port, pauses), origin, least_spoiled, least_shared)


def judge_real(name, answers, closes, late, behind):
    """Holds what came against a server that closes a link which rests for so many seconds, a little later, and behind so many answers."""
    kinds, over, faults, ends = [], [], [], MANY // EACH + MANY // behind
    for number, (before, answer) in enumerate(zip([answers[0], *answers], answers)):
        kind, link = what_it_is(number, answer)
        kinds.append(kind)
        over += [link] if link else []
        may_end = not answer.is_first and answer.came - before.asked >= closes
        ends += may_end
        crosses = may_end and answer.asked - before.came <= closes + late
        if kind != "its own" and not (kind in LOST and crosses):
            faults.append("%d got %d %r" % (number, answer.status, answer.body))
    links = tell(name, kinds, over)
    told = "%s: each request its own answer is expected, but for links that are closed meanwhile" % name
    check("%s; and of %d others, %s" % (told, len(faults), ", ".join(faults[:SHOWN])), not faults)
    least = max(MANY // behind, MANY // EACH)
    check("%s: %d to %d links are expected, and there were %d" % (name, least, ends, links), least <= links <= ends)


def real_server(program, name, pauses, *closes):
    """Many requests before a real server, which closes its links soon."""
    with tempfile.TemporaryDirectory() as folder, origins.server(name, folder) as origin:
        if origin is None:
            print("skipped: %s isn't there, and can't be fetched" % name)
            return
        with running(program, "link-reuse 1\n") as (port, _):
            judge_real(name, answers_of(port, origin, pauses), *closes)


def outlived(program):
    """No link outlives its clients by a second, who all go at once, and nobody comes: one, as many as there are workers but one, and as many
    as these."""
    origin = origins.LinkOrigin()
    with running(program, "link-reuse 1\n", ("8",)) as (port, proxy):
        for count, leave in ((1, socket.socket.close), (1, reset), (7, reset), (8, socket.socket.close)):
            clients = [kept_client(port, origin.port) for _ in range(count)]
            before = origin.open
            for client in clients:
                leave(client)
            comes(1, lambda: origin.open == 0, proxy)
            told = "clients that go, by %s: %d" % (leave.__name__, count)
            check("%s; no link is expected a second later, and of %d there are %d" % (told, before, origin.open), origin.open == 0)


class FirstToEnd(threading.Thread):
    """An origin of one tunnel that says a word and its end, and then reads to the other end."""

    def __init__(self):
        super().__init__(daemon=True)
        self.listener = socket.create_server(("127.0.0.1", 0))
        self.port = self.listener.getsockname()[1]
        self.got = None
        self.start()

    def run(self):
        link, _ = self.listener.accept()
        with link:
            link.sendall(b"first")
            link.shutdown(socket.SHUT_WR)
            self.got = read_all(link)


def tunnel(port, origin):
    """A tunnel whose greeting has come."""
    link = socket.create_connection(("127.0.0.1", port), timeout=END_SECONDS)
    link.sendall(b"CONNECT 127.0.0.1:%d HTTP/1.1\r\n\r\n" % origin)
    greeting = b""
    while not greeting.endswith(b"\r\n\r\n") and (byte := link.recv(1)):
        greeting += byte
    check("a tunnel's greeting is expected, and %r came" % greeting, greeting.startswith(b"HTTP/1.1 200"))
    return link


def client_ends_first(port, sent):
    """What a client of a tunnel gets that sends and says its end, from an origin that waits for the end and then says how much came."""
    origin = SlowOrigin(False)
    origin.start()
    try:
        with tunnel(port, origin.port) as link:
            link.sendall(sent)
            link.shutdown(socket.SHUT_WR)
            return read_all(link)
    except OSError as fault:
        return repr(fault).encode()


def origin_ends_first(port, sent):
    """What an origin of a tunnel gets that has said its end, from a client that sends once it has seen that end."""
    origin = FirstToEnd()
    try:
        with tunnel(port, origin.port) as link:
            check("the word before an origin's end", read_all(link) == b"first")
            link.sendall(sent)
            link.shutdown(socket.SHUT_WR)
            comes(END_SECONDS, lambda: origin.got is not None)
    except OSError as fault:
        return repr(fault).encode()
    return origin.got


def half_closed_tunnels(program):
    """The end of a direction is passed on in a tunnel over a pool, and the other direction goes on: where what is sent is no request, where
    it may be the start of one, and where nothing is."""
    for sent in (b"\x16\x03\x01" * 100, b"GET / HTT", b"x" * 1000, b""):
        with running(program, "link-reuse 1\n") as (port, _):
            for run, wanted in ((client_ends_first, b"%d" % len(sent)), (origin_ends_first, sent)):
                got = run(port, sent)
                name = run.__name__.replace("_", " ")
                check("a tunnel with %r, %s: %r is expected, and %r came" % (sent[:9], name, wanted[:40], got and got[:40]), got == wanted)


def fetched(port, words):
    ran = subprocess.run(
        ["curl", "-s", "--max-time", "600", "-x", "http://127.0.0.1:%d" % port] + words,
        stdout=subprocess.PIPE,
        env={"PATH": os.environ["PATH"]},
    )
    return ran.stdout


def through_socks(program):
    """Pages and a tunnel through a SOCKS5 server, which is sent names; and the page where it isn't there."""
    lost = [name for name in ("microsocks", "curl") if shutil.which(name) is None]
    if lost:
        print("skipped: %s isn't there" % " and ".join(lost))
        return
    handler, origin = counted_origin()
    socks = free_port()
    with tempfile.TemporaryFile() as said:
        server = subprocess.Popen(["microsocks", "-i", "127.0.0.1", "-p", str(socks)], stdin=subprocess.DEVNULL, stdout=said, stderr=said)
        try:
            check("the SOCKS server listens", wait_for(socks))
            with running(program, "forward-socks5 / 127.0.0.1:%d .\n" % socks) as (port, _):
                url = "http://localhost:%d" % origin
                check("a page through SOCKS", fetched(port, [url + "/x"]) == b"/x")
                check("a tunnel through SOCKS", fetched(port, ["--proxytunnel", url + "/t", url + "/u"]) == b"/t/u")
                server.kill()
                server.wait()
                check("connect-failed where the server is gone", fetched(port, ["-o", os.devnull, "-w", "%{http_code}", url + "/x"]) == b"503")
        finally:
            server.kill()
            server.wait()
        said.seek(0)
        check("names are sent on", b"localhost:%d" % origin in said.read())
    check("two links in all through SOCKS", handler.links == 2)


def counted_apart(part, words):
    """How many checks of a part pass, and which fail, in a process of its own."""
    serve.passed, serve.failures = 0, []
    guarded(part, *words)
    return serve.passed, serve.failures


def main():
    programs = [os.path.abspath(it) for it in sys.argv[1:]]
    apart = [(plain_server, (it, *words)) for it in programs for words in PLAIN]
    apart += [(real_server, (it, *words)) for it in programs for words in REAL]
    apart += [(resting_client, (it,)) for it in programs]
    with ProcessPoolExecutor(max(1, len(apart))) as processes:
        counts = [processes.submit(counted_apart, *it) for it in apart]
        for program in programs:
            for part in (shared, closed_link, outlived, half_closed_tunnels, through_socks):
                guarded(part, program)
        for it in counts:
            passed, failures = it.result()
            serve.passed += passed
            serve.failures += failures
    serve.finished()


if __name__ == "__main__":
    main()
