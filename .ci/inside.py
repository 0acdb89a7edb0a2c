#!/usr/bin/env python3
"""Asks `serve` of the built programs with conf/ for the proxy's own pages: over sockets, also behind changes of files, and in Chromium,
where a page is blocked, its link is followed, and what comes names file and line of the section that blocked it.

Usage: inside.py PROGRAM..

The part in Chromium is skipped, with the reason, where that can't be had. Says what failed, and ends with 1 where something did.
"""
import html
import http.client
import os
import re
import shutil
import socket
import subprocess
import sys
import tempfile
import time

from origins import START, WAIT, free_port

HERE = os.path.dirname(os.path.abspath(__file__))
CONF = os.path.join(HERE, "..", "conf")
# An address that conf/ blocks.
BLOCKED = "http://ads.example.net/offer"
SECTION = "{+block{No by inside.py.}}\nwww.blocked.example/why\n"
ASKED = "http://www.blocked.example/why?a=1&b=%20x"
# How long a file lies before `serve` goes by its look alone (px_kept_files), and somewhat more.
SETTLES = 2.5
passed, failed = 0, []


def check(what, right, said=""):
    global passed
    if right:
        passed += 1
    else:
        failed.append("%s: %s" % (what, said))


class Proxy:
    """`serve` with 8 workers over a copy of conf/ in a folder, whose main file has more lines."""

    def __init__(self, program, folder, more=""):
        self.port = free_port()
        self.conf = os.path.join(folder, "conf")
        shutil.copytree(CONF, self.conf)
        path = os.path.join(self.conf, "config")
        with open(path, encoding="utf-8") as file:
            text = file.read()
        with open(path, "w", encoding="utf-8") as file:
            # (what isn't answered by a page goes to a parent that nobody is, so that no name is looked up)
            parent = "\nforward p.p 127.0.0.1:%d\n" % free_port()
            file.write(text.replace("127.0.0.1:8118", "127.0.0.1:%d" % self.port) + more + parent)
        self.process = subprocess.Popen(
            [program, "serve", path, "8"], stderr=subprocess.DEVNULL
        )
        end = time.monotonic() + START
        while time.monotonic() < end:
            try:
                socket.create_connection(("127.0.0.1", self.port), 1).close()
                break
            except OSError:
                time.sleep(0.1)

    def add(self, text):
        """Adds text to user.action; the number of the text's first line."""
        path = os.path.join(self.conf, "user.action")
        with open(path, encoding="utf-8") as file:
            old = file.read()
        if not old.endswith("\n"):
            old += "\n"
        with open(path, "w", encoding="utf-8") as file:
            file.write(old + text)
        return old.count("\n") + 1

    def asked(self, url, method="GET", body=None, address="127.0.0.1"):
        """The status, the type and the text of an answer, over a connection of its own from an address."""
        link = http.client.HTTPConnection("127.0.0.1", self.port, timeout=WAIT, source_address=(address, 0))
        link.request(method, url, body=body)
        answer = link.getresponse()
        text = answer.read().decode()
        link.close()
        return answer.status, answer.getheader("Content-Type"), text

    def end(self):
        self.process.kill()
        self.process.wait()


def number_of(text):
    found = re.match(r"configuration (\d+)\n", text)
    return int(found[1]) if found else None


def over_sockets(proxy):
    """The pages as a client sees them, and that they follow a change of the configuration."""
    check("the index", proxy.asked("http://p.p/") == (200, "text/plain", "pages:\n/show-status\n/show-url-info?url=\n/client-tags\n"))
    status, _, text = proxy.asked("http://config.privoxy.org/show-status")
    number = number_of(text)
    check("the state", status == 200 and number is not None and "\nlisten 127.0.0.1:%d\n" % proxy.port in text, text)
    check("the state to HEAD", proxy.asked("http://p.p/show-status", "HEAD")[0::2] == (200, ""))
    check("no such page", proxy.asked("http://p.p/nothing") == (404, "text/plain", "no such page\n"))
    check("no address", proxy.asked("http://p.p/show-url-info?url=") == (404, "text/plain", "8 NotHttp\n"))
    status, _, text = proxy.asked("http://p.p/show-url-info?url=" + BLOCKED)
    check("what blocks an address", status == 200 and "\n+block{" in text and "default.action:" in text, text)
    check("POST goes its usual way", proxy.asked("http://p.p/", "POST", b"x")[0] == 503)
    line = proxy.add(SECTION)
    # (the change is seen by the first connection behind it)
    status, _, text = proxy.asked("http://p.p/show-status")
    check("the number behind a change", number_of(text) == number + 1, text)
    text = proxy.asked("http://p.p/show-url-info?url=" + ASKED)[2]
    check("the section of a change", "\nuser.action:%d\n" % line in text and "+block{No by inside.py.}" in text, text)
    proxy.add("{+nonsense}\n/\n")
    check("a fault keeps the number", number_of(proxy.asked("http://p.p/show-status")[2]) == number + 1)


def settled(proxy):
    """A file that has lain for a while isn't read again as long as it looks the same; each change of it is still seen by the next
    connection: in place, with as many bytes, and one that is put in its place with its time."""
    path = os.path.join(proxy.conf, "user.action")
    number = lambda: number_of(proxy.asked("http://p.p/show-status")[2])
    proxy.add("{+block{one}}\nsettled.example\n")
    seen = [number()]
    time.sleep(SETTLES)
    seen.append(number())
    with open(path, encoding="utf-8") as file:
        text = file.read()
    with open(path, "r+", encoding="utf-8") as file:
        file.write(text.replace("{one}", "{two}"))
    seen.append(number())
    time.sleep(SETTLES)
    seen.append(number())
    with open(path + ".new", "w", encoding="utf-8") as file:
        file.write(text.replace("{one}", "{six}"))
    os.utime(path + ".new", ns=(os.stat(path).st_atime_ns, os.stat(path).st_mtime_ns))
    os.replace(path + ".new", path)
    seen.append(number())
    first = seen[0]
    check("the numbers behind changes of a file that has settled", seen == [first, first, first + 1, first + 1, first + 2], seen)


def hundred(proxy):
    """A hundred requests over one connection: the last reply closes it."""
    link = http.client.HTTPConnection("127.0.0.1", proxy.port, timeout=WAIT)
    seen = []
    for _ in range(100):
        link.request("GET", "http://p.p/")
        answer = link.getresponse()
        answer.read()
        seen.append((answer.status, answer.getheader("Connection")))
    link.close()
    check("a hundred pages", seen == [(200, "keep-alive")] * 99 + [(200, "close")], seen[-2:])


def dumped(browser, folder, proxy, url):
    """The page of an address, as Chromium has it."""
    words = [
        "--headless=new",
        "--no-sandbox",
        "--disable-gpu",
        "--disable-features=HttpsUpgrades",
        "--user-data-dir=" + os.path.join(folder, "u"),
        "--proxy-server=127.0.0.1:%d" % proxy.port,
        "--virtual-time-budget=8000",
        "--dump-dom",
        url,
    ]
    return subprocess.run([browser, *words], capture_output=True, text=True, timeout=600).stdout


def links_of(page, front):
    """The links of a page to those of the proxy's own pages whose paths begin so."""
    return [html.unescape(it) for it in re.findall(r'href="(http://p\.p/%s[^"]*)"' % front, page)]


def in_chromium(browser, folder, program):
    """A page is blocked, the link is followed, and the page names file and line of the section."""
    proxy = Proxy(program, folder)
    try:
        line = proxy.add(SECTION)
        page = dumped(browser, folder, proxy, ASKED)
        check("the page is blocked", "No by inside.py." in page, page[:300])
        links = links_of(page, "show-url-info")
        check("it has one link to the page that says why", len(links) == 1, links)
        if links:
            text = html.unescape(dumped(browser, folder, proxy, links[0]))
            check("the page behind the link names the section", "user.action:%d\n" % line in text, text)
            check("and what it sets", "+block{No by inside.py.}" in text, text)
    finally:
        proxy.end()


def main():
    if len(sys.argv) < 2:
        print(__doc__.split("\n\n")[1], file=sys.stderr)
        return 2
    for program in map(os.path.abspath, sys.argv[1:]):
        with tempfile.TemporaryDirectory() as folder:
            proxy = Proxy(program, folder)
            try:
                hundred(proxy)
                settled(proxy)
                over_sockets(proxy)
            finally:
                proxy.end()
    browser = shutil.which("chromium")
    if browser:
        with tempfile.TemporaryDirectory() as folder:
            in_chromium(browser, folder, os.path.abspath(sys.argv[1]))
    else:
        print("inside.py: the part in Chromium is skipped, since it can't be had")
    print("inside.py: %d passed, %d failed" % (passed, len(failed)))
    for text in failed:
        print("inside.py: failed: " + text)
    return 1 if failed else 0


if __name__ == "__main__":
    sys.exit(main())
