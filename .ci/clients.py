#!/usr/bin/env python3
"""Runs `serve` of the built programs with many workers, as browsers and small networks use it: a page through Chromium, clients
that idle, stall, stop reading or die, thousands of short connections beside tunnels, and changes of the configuration under load.

Usage: clients.py PROGRAM..  Each part has its bound. Says what failed and what was skipped, and ends with 1 where something failed.
"""
import http.client
import http.server
import os
import re
import shutil
import socket
import ssl
import subprocess
import sys
import tempfile
import threading
import time
from concurrent.futures import ThreadPoolExecutor

import origins
import serve
from serve import WAIT, Lateness, check, comes, free_port, guarded, raw, read_all, read_until, reset, running, wait_for

# The page: so many pictures, from so many hosts, which come one after another at each host.
PICTURES, HOSTS = 40, 12
PICTURE = (
    b"\x89PNG\r\n\x1a\n\0\0\0\rIHDR\0\0\0\1\0\0\0\1\10\6\0\0\0\x1f\x15\xc4\x89"
    b"\0\0\0\rIDATx\xdac\xfc\xcf\xc0P\x0f\0\4\x85\1\x80\x84\xa9\x8c!\0\0\0\0IEND\xaeB`\x82"
)
PAGE_SECONDS, ALONE_SECONDS = 20, 180

# How long a client waits for a place that idle ones hold, and where there is one.
IDLE_SECONDS, FREE_SECONDS = 20, 2

SHORT, TUNNELS, ROUNDS = 2000, 20, 3
CHANGE_SECONDS, EACH, RELOADERS = 20, 0.2, 32
COUNTED = 200


class Pictures(http.server.BaseHTTPRequestHandler):
    """The page at `/`, which counts the pictures that it has when all have come, and a picture elsewhere."""

    protocol_version = "HTTP/1.1"
    page = b""

    def log_message(self, *words):
        pass

    def do_GET(self):
        is_page = self.path == "/"
        body = self.page if is_page else PICTURE
        if not is_page:
            time.sleep(0.02)
        self.send_response(200)
        self.send_header("Content-Type", "text/html" if is_page else "image/png")
        self.send_header("Content-Length", str(len(body)))
        self.end_headers()
        self.wfile.write(body)


def hosts_with_pictures(scheme, certificate):
    """Servers at as many addresses of this machine; gives the address of the page."""
    port = free_port()
    names = ["127.0.0.%d:%d" % (number + 2, port) for number in range(HOSTS)]
    images = "".join('<img src="%s://%s/%d.png">' % (scheme, names[number % HOSTS], number) for number in range(PICTURES))
    count = "<script>onload = () => document.title = [...document.images].filter(it => it.naturalWidth).length + ' came'</script>"
    handler = type("Page", (Pictures,), {"page": ("<!doctype html><body>" + images + count).encode()})
    for name in names:
        server = origins.Server(handler, (name.split(":")[0], port))
        if scheme == "https":
            context = ssl.SSLContext(ssl.PROTOCOL_TLS_SERVER)
            context.load_cert_chain(certificate)
            server.socket = context.wrap_socket(server.socket, server_side=True, do_handshake_on_connect=False)
        server.start()
    return "%s://%s/" % (scheme, names[0])


def opened(chromium, address, folder, words, seconds):
    """What a page's title is in Chromium, and how many seconds that took."""
    words = ["--headless", "--no-sandbox", "--disable-gpu", "--ignore-certificate-errors", "--dump-dom", *words]
    began = time.monotonic()
    try:
        ran = subprocess.run(
            [chromium, *words, "--user-data-dir=" + folder, address], stdout=subprocess.PIPE, stderr=subprocess.DEVNULL, timeout=seconds
        )
        title = re.search("<title>(.*?)</title>", ran.stdout.decode(errors="replace"))
    except subprocess.TimeoutExpired:
        title = None
    return title[1] if title else "nothing", time.monotonic() - began


def browser(program):
    """A page of pictures from many hosts comes whole through Chromium, over http and in tunnels."""
    chromium = shutil.which("chromium") or shutil.which("chromium-browser")
    openssl = shutil.which("openssl")
    if chromium is None or openssl is None:
        print("skipped: chromium or openssl isn't there")
        return
    with tempfile.TemporaryDirectory() as folder, running(program, "", ("64",)) as (port, _):
        certificate = os.path.join(folder, "certificate.pem")
        words = ["req", "-x509", "-newkey", "rsa:2048", "-nodes", "-days", "2", "-subj", "/CN=127.0.0.2"]
        subprocess.run([openssl, *words, "-keyout", certificate + ".key", "-out", certificate + ".crt"], check=True, stderr=subprocess.DEVNULL)
        with open(certificate, "wb") as file:
            for part in (".key", ".crt"):
                with open(certificate + part, "rb") as given:
                    file.write(given.read())
        for scheme in ("http", "https"):
            address = hosts_with_pictures(scheme, certificate)
            # (what Chromium takes by itself on this machine)
            came, alone = opened(chromium, address, os.path.join(folder, scheme + "-alone"), ["--no-proxy-server"], ALONE_SECONDS)
            if came != "%d came" % PICTURES:
                print("skipped: without a proxy Chromium has %s of a page over %s in %.1f s" % (came, scheme, alone))
                continue
            words = ["--proxy-server=127.0.0.1:%d" % port, "--proxy-bypass-list=<-loopback>"]
            most = max(PAGE_SECONDS, 3 * alone)
            came, took = opened(chromium, address, os.path.join(folder, scheme), words, 3 * most)
            told = "a page of %d pictures over %s: %s in %.1f s, and in %.1f s without a proxy" % (PICTURES, scheme, came, took, alone)
            check(told, came == "%d came" % PICTURES and took < most)


def asked(port, at, wait=WAIT):
    """A connection on which a request was sent, and what came of it: its status and body."""
    link = http.client.HTTPConnection("127.0.0.1", port, timeout=wait)
    link.request("GET", "http://" + at)
    answer = link.getresponse()
    return link, answer.status, answer.read()


def idle_browsers(program, origin):
    """As many idle clients as there are workers keep one more from its answer for a while only."""
    with running(program, "", ("64",)) as (port, proxy):
        links = []
        for number in range(64):
            link, status, body = asked(port, "127.0.0.1:%d/%d" % (origin, number))
            check("idle client %d is answered" % number, (status, body) == (200, b"/%d" % number))
            links.append(link)
        lateness = Lateness(proxy)
        link, status, body = asked(port, "127.0.0.1:%d/more" % origin, 6 * IDLE_SECONDS)
        took, lost = lateness.end()
        told = "one client more than workers waits %.1f s, %.1f of them for the machine" % (took, lost)
        check(told, body == b"/more" and took - lost <= IDLE_SECONDS)
        for it in [*links, link]:
            it.close()


def stalling(port, origin):
    """Clients that stall in a head, stop reading a large answer, send TLS to the port, and die."""
    hello = b"\x16\x03\x01\x02\x00\x01\x00\x01\xfc\x03\x03" + bytes(range(32))
    head = b"GET http://127.0.0.1:%d/large HTTP/1.1\r\n" % origin
    links = []
    for sent in (b"", head, b"GET htt", head + b"\r\n", head + b"\r\n", hello, hello):
        link = socket.create_connection(("127.0.0.1", port), timeout=WAIT)
        link.sendall(sent)
        links.append(link)
    dead = socket.create_connection(("127.0.0.1", port), timeout=WAIT)
    dead.sendall(head)
    reset(dead)
    return links


def stalled(program, origin):
    """Clients that stall hold no worker but their own: with one more than there are such clients, others are served at once."""
    with running(program, "", ("8",)) as (port, proxy):
        links = stalling(port, origin)
        time.sleep(0.5)
        for number in range(20):
            lateness = Lateness(proxy)
            link, status, body = asked(port, "127.0.0.1:%d/%d" % (origin, number))
            link.close()
            took, lost = lateness.end()
            told = "beside clients that stall, request %d took %.1f s, %.1f of them the machine's" % (number, took, lost)
            check(told, body == b"/%d" % number and took - lost < FREE_SECONDS)
        for link in links:
            link.close()


def held_by(process):
    """The descriptors, the threads, and the kilobytes of memory of a process."""
    with open("/proc/%d/status" % process.pid) as file:
        status = file.read()
    number = lambda name: int(re.search(name + r":\s*(\d+)", status)[1])
    return len(os.listdir("/proc/%d/fd" % process.pid)), number("Threads"), number("VmRSS")


def echoing(port, echo, until):
    """A tunnel through which pieces go until it is time, each back as it was sent; how many came back."""
    count = 0
    with socket.create_connection(("127.0.0.1", port), timeout=WAIT) as link:
        link.sendall(b"CONNECT 127.0.0.1:%d HTTP/1.1\r\n\r\n" % echo)
        got = b""
        while not got.endswith(b"\r\n\r\n") and (byte := link.recv(1)):
            got += byte
        while not until.is_set():
            piece = b"%08d" % count * 100
            link.sendall(piece)
            if read_until(link, len(piece)) != piece:
                return -1
            count += 1
            time.sleep(0.01)
        link.shutdown(socket.SHUT_WR)
        return count if read_all(link) == b"" else -1


class Echoes(threading.Thread):
    """An origin of tunnels that serves as many as come: it sends back what it gets."""

    def __init__(self):
        super().__init__(daemon=True)
        self.listener = socket.create_server(("127.0.0.1", 0), backlog=128)
        self.port = self.listener.getsockname()[1]

    def run(self):
        while True:
            link, _ = self.listener.accept()
            threading.Thread(target=self.echo, args=(link,), daemon=True).start()

    def echo(self, link):
        with link:
            while piece := link.recv(65536):
                link.sendall(piece)


def short_clients(program, origin):
    """Thousands of short connections beside tunnels: each byte right, none lost, and nothing is held for longer."""
    echoes = Echoes()
    echoes.start()

    def one(number):
        link, status, body = asked(port, "127.0.0.1:%d/%d" % (origin, number))
        link.close()
        return (status, body) == (200, b"/%d" % number)

    with running(program, "", ("64",)) as (port, proxy), ThreadPoolExecutor(TUNNELS) as tunnels, ThreadPoolExecutor(16) as clients:
        until = threading.Event()
        echoed = [tunnels.submit(echoing, port, echoes.port, until) for _ in range(TUNNELS)]
        try:
            right = sum(clients.map(one, range(SHORT // 4)))
            held = [held_by(proxy)]
            right += sum(clients.map(one, range(SHORT // 4, SHORT)))
            held.append(held_by(proxy))
            check("%d of %d short connections" % (right, SHORT), right == SHORT)
            # (workers may be warm one after another; what is held for longer grows each time)
            while not is_level(*held[-2:], held[0][2]) and len(held) <= ROUNDS:
                right = sum(clients.map(one, range(3 * SHORT // 4)))
                check("%d of %d more short connections" % (right, 3 * SHORT // 4), right == 3 * SHORT // 4)
                held.append(held_by(proxy))
        finally:
            until.set()
        check("tunnels beside them", all(it.result() > 10 for it in echoed))
        check("descriptors, threads and kilobytes behind each turn: %s" % held, is_level(*held[-2:], held[0][2]))


def is_level(before, after, kilobytes):
    """Whether what is held hasn't grown by more than a fifth of so many kilobytes."""
    return abs(after[0] - before[0]) <= 64 and after[1] <= before[1] + 64 and after[2] <= before[2] + 0.2 * kilobytes + 1024


def written(folder, number, port):
    """Writes the files of a configuration with that number, and puts its main file in the place of the former one. Each third is
    faulty: its actions file has an action that isn't known."""
    is_faulty = number % 3 == 2
    name = os.path.join(folder, "u%d.action" % number)
    with open(name, "w") as file:
        file.write("{+bloc{x}}\n/\n" if is_faulty else "{+block{number %d.}}\nad.test\n{+filter{mark}}\n/\n" % number)
    with open(os.path.join(folder, "f%d.filter" % number), "w") as file:
        file.write("FILTER: mark Numbers a page.\ns/MARK/number %d./\n" % number)
    with open(os.path.join(folder, "next"), "w") as file:
        file.write("listen-address 127.0.0.1:%d\nactionsfile u%d.action\nfilterfile f%d.filter\n" % (port, number, number))
    os.replace(os.path.join(folder, "next"), os.path.join(folder, "config"))
    return b"u%d.action:1: 12 UnknownAction\n" % number if is_faulty else None


class Marked(http.server.BaseHTTPRequestHandler):
    protocol_version = "HTTP/1.1"

    def log_message(self, *words):
        pass

    def do_GET(self):
        self.send_response(200)
        self.send_header("Content-Type", "text/html")
        self.send_header("Content-Length", "13")
        self.end_headers()
        self.wfile.write(b"<p>MARK</p>\r\n")


def numbers_of(port, origin, until, answered):
    """Connections one after another, each with a blocked page and a filtered one in turn: how many replies there were, or what
    went wrong: a reply without a number, one of a faulty configuration, or one that is older than the reply before. When a connection was
    begun is put to those that were answered."""
    count = 0
    try:
        while not until.is_set():
            link = http.client.HTTPConnection("127.0.0.1", port, timeout=WAIT)
            last, began = -1, time.monotonic()
            for at in ("ad.test/", "127.0.0.1:%d/" % origin) * 3:
                link.request("GET", "http://" + at)
                answer = link.getresponse()
                found = re.search(rb"number (\d+)\.", answer.read())
                if found is None or int(found[1]) < last or int(found[1]) % 3 == 2:
                    return "%s behind %d" % (found, last)
                last = int(found[1])
                count += 1
                answered.append(began)
                if answer.getheader("Connection", "").lower() == "close":
                    break
            link.close()
    except (OSError, http.client.HTTPException) as fault:
        return repr(fault)
    return count


def change(folder, port, answered):
    """Changes the configuration for a time, each set as soon as a connection that was begun under the one before is answered; gives the
    lines of the faulty ones."""
    faulty, number, end = [], 0, time.monotonic() + CHANGE_SECONDS
    while time.monotonic() < end:
        time.sleep(EACH)
        number += 1
        line = written(folder, number, port)
        faulty += [line] if line else []
        stands = time.monotonic()
        check("a connection is answered under set %d" % number, comes(WAIT, lambda: max(answered[-RELOADERS:], default=0) > stands))
    return faulty


def reloads(program):
    """The configuration changes under load, a third of the sets faulty."""
    origin = origins.Server(Marked).start()
    with tempfile.TemporaryDirectory() as folder, open(os.path.join(folder, "said"), "wb") as said:
        port = free_port()
        written(folder, 0, port)
        proxy = subprocess.Popen([program, "serve", "config", "64"], cwd=folder, stderr=said)
        try:
            check("the proxy whose configuration changes listens", wait_for(port, proxy))
            until, answered = threading.Event(), []
            with ThreadPoolExecutor(RELOADERS) as pool:
                clients = [pool.submit(numbers_of, port, origin, until, answered) for _ in range(RELOADERS)]
                try:
                    faulty = change(folder, port, answered)
                finally:
                    until.set()
                replies = [it.result() for it in clients]
            check("replies while the configuration changes: %s" % replies, all(type(it) is int and it > 10 for it in replies))
            with open(os.path.join(folder, "said"), "rb") as file:
                lines = file.read().splitlines(keepends=True)[1:]
            check("each faulty set prints its line once: %s" % [it for it in lines if it not in faulty], sorted(lines) == sorted(set(lines)) and set(lines) <= set(faulty))
            check("nearly all of %d faulty sets were met: %d" % (len(faulty), len(lines)), 2 * len(lines) > len(faulty))
            check("the proxy whose configuration changes still runs", proxy.poll() is None)
        finally:
            proxy.kill()
            proxy.wait()


def read_faults(program):
    """A file that can't be read keeps the former configuration, and prints its line at each connection that met it."""
    with tempfile.TemporaryDirectory() as folder:
        port = free_port()
        written(folder, 0, port)
        proxy = subprocess.Popen([program, "serve", "config", "4"], cwd=folder, stderr=subprocess.PIPE)
        try:
            check("the proxy whose file goes listens", wait_for(port, proxy))
            # (the connection that told that it listens was taken before this one)
            raw(port, b"GET http://ad.test/ HTTP/1.1\r\nConnection: close\r\n\r\n")
            os.remove(os.path.join(folder, "u0.action"))
            os.mkdir(os.path.join(folder, "u0.action"))
            for _ in range(3):
                got = raw(port, b"GET http://ad.test/ HTTP/1.1\r\nConnection: close\r\n\r\n")
                check("a file that can't be read keeps the former configuration", b"number 0." in got)
            proxy.kill()
            lines = proxy.stderr.read().splitlines()[1:]
            check("a line at each connection: %s" % lines, len(lines) == 3 and all(b"33 Read" in it for it in lines))
        finally:
            proxy.kill()
            proxy.wait()


def counted(program, origin):
    """Workers side by side serve just so many connections, and then the program ends."""

    def one(number):
        got = raw(port, b"GET http://127.0.0.1:%d/%d HTTP/1.1\r\n\r\n" % (origin, number))
        return got.endswith(b"\r\n\r\n/%d" % number)

    with running(program, "", ("8", str(COUNTED + 1))) as (port, proxy), ThreadPoolExecutor(16) as clients:
        right = sum(clients.map(one, range(COUNTED)))
        check("%d of %d counted connections" % (right, COUNTED), right == COUNTED)
        try:
            check("then the program ends with 0", proxy.wait(timeout=WAIT) == 0)
        except subprocess.TimeoutExpired:
            check("then the program ends", False)


def main():
    origin = origins.Server(serve.Origin).start()
    for program in [os.path.abspath(it) for it in sys.argv[1:]]:
        for part, words in (
            (browser, (program,)),
            (idle_browsers, (program, origin)),
            (stalled, (program, origin)),
            (short_clients, (program, origin)),
            (reloads, (program,)),
            (read_faults, (program,)),
            (counted, (program, origin)),
        ):
            guarded(part, *words)
    serve.finished()


if __name__ == "__main__":
    main()
