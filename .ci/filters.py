#!/usr/bin/env python3
"""Runs `pass` of the built programs with each filter of conf/default.filter alone: a content filter over its page of .ci/pages, and a
header filter over a few fields. Pages and fields, in and out, were worked out by hand from what the filter's comment says.

Usage: filters.py PROGRAM..  Says which filter failed, and ends with 1 then.
"""
import os
import subprocess
import sys
import tempfile

HERE = os.path.dirname(os.path.abspath(__file__))
FILTERS = os.path.join(HERE, "..", "conf", "default.filter")
PAGES = os.path.join(HERE, "pages")

# The kind of the filter, its name, fields as they come, and fields as they go on.
CLIENT = "client-header-filter"
SERVER = "server-header-filter"
HEADERS = [
    (CLIENT, "no-client-hints", ["Sec-CH-UA: x", "sec-ch-ua-platform: y", "Accept: */*"], ["Accept: */*"]),
    (CLIENT, "no-client-hints", ["Sec-CH-UA: \xfc", "Accept: */*"], ["Accept: */*"]),
    (CLIENT, "private-fields", ["X-Client-Data: a", "X-UIDH: b", "X-Other: c"], ["X-Other: c"]),
    (CLIENT, "whole-files", ["Range: bytes=0-9", "If-Range: x", "Accept: */*"], ["Accept: */*"]),
    (SERVER, "no-reports", ["NEL: {}", "Report-To: x", "Server: o"], ["Server: o"]),
    (SERVER, "no-etags", ["ETag: x", "Server: o"], ["Server: o"]),
    (SERVER, "no-prefetch", ["Link: <http://x.test/>; rel=preconnect", "Link: </n>; rel=next"], ["Link: </n>; rel=next"]),
    (SERVER, "cookies-stay-home", ["Set-Cookie: a=1"], ["Set-Cookie: a=1; SameSite=Lax"]),
]


# For each content filter a text with a byte that isn't UTF-8, as pages in older character sets have it, and what it becomes.
BYTES = {
    "banner-sizes": ('<img alt="\xfc" width="468" height="60">', "<!-- taken out by its size -->"),
    "calm-text": ('<blink title="\xfc">x</blink>', "x"),
    "clean-links": ('<a href="/x?utm_source=\xfc&y=1">', '<a href="/x?y=1">'),
    "free-mouse": ('<p title="\xfc" oncopy="return false">', '<p title="\xfc" data-was-copy="return false">'),
    "free-to-leave": ("<p>\xfc</p>", "<p>\xfc</p>"),
    "google-slots": ('<ins title="\xfc" class="adsbygoogle"></ins>', ""),
    "no-autoplay": ('<video title="\xfc" autoplay>', '<video title="\xfc">'),
    "no-pings": ('<a title="\xfc" ping="/p">', '<a title="\xfc">'),
    "no-reload": ('<meta name="\xfc" http-equiv=refresh content=30>', "<!-- reload taken out -->"),
    "no-web-fonts": ('<link title="\xfc" href="//fonts.googleapis.com/c">', ""),
    "own-links": ('<a title="\xfc" href="http://a.test/x">', '<a title="\xfc" href="/x">'),
    "quiet-windows": ("<p>\xfc</p>", "<p>\xfc</p>"),
    "same-window": ('<a title="\xfc" target=_blank>', '<a title="\xfc">'),
    "still-windows": ("\xfc;window.moveTo(1,2)", "\xfc;void Math.max(1,2)"),
    "tiny-images": ('<img alt="\xfc" width="1" height="1">', "<!-- tiny image taken out -->"),
}


def lines(*parts):
    """A head of these lines."""
    return "".join(part + "\r\n" for part in parts) + "\r\n"


def run(program, action, request, answer):
    """What `pass` returns and sends on, with that one action on."""
    with tempfile.TemporaryDirectory() as folder:
        with open(FILTERS, encoding="latin-1") as file:
            filters = file.read()
        for name, content in (
            ("c", "actionsfile u.action\nfilterfile default.filter\n"),
            ("u.action", "{+%s}\n/\n" % action),
            ("default.filter", filters),
            ("o", "%d\n%s" % (len(answer), answer)),
        ):
            with open(os.path.join(folder, name), "w", newline="", encoding="latin-1") as file:
                file.write(content)
        ran = subprocess.run([program, "pass", "c", "o", "s"], cwd=folder, input=request.encode("latin-1"), capture_output=True, timeout=600)
        with open(os.path.join(folder, "s"), newline="", encoding="latin-1") as file:
            return ran.stdout.decode("latin-1"), file.read()


def read(name):
    with open(os.path.join(PAGES, name), encoding="latin-1") as file:
        return file.read()


def content(program, name):
    """Whether a content filter makes of its page, and of bytes that aren't UTF-8, what it is to make."""
    given, wanted = read(name + ".in.html"), read(name + ".out.html")
    given, wanted = given + BYTES[name][0], wanted + BYTES[name][1]
    answer = lines("HTTP/1.1 200 OK", "Content-Type: text/html", "Content-Length: %d" % len(given)) + given
    returned, _ = run(program, "filter{%s}" % name, lines("GET http://a.test/ HTTP/1.1"), answer)
    head = lines("HTTP/1.1 200 OK", "Content-Type: text/html", "Content-Length: %d" % len(wanted), "Connection: keep-alive")
    return returned == head + wanted


def header(program, kind, name, given, wanted):
    """Whether a header filter makes of fields what it is to make."""
    asked = given if kind == CLIENT else []
    told = given if kind == SERVER else []
    request = lines("GET http://a.test/ HTTP/1.1", *asked)
    answer = lines("HTTP/1.1 200 OK", *told, "Content-Length: 0")
    returned, sent = run(program, "%s{%s}" % (kind, name), request, answer)
    if kind == CLIENT:
        head = lines("GET / HTTP/1.1", "Host: a.test", *wanted, "Connection: close")
        return sent == "a.test:80 %d\n%s" % (len(head), head)
    return returned == lines("HTTP/1.1 200 OK", *wanted, "Content-Length: 0", "Connection: keep-alive")


def names(kind):
    """The filters of a kind in conf/default.filter."""
    with open(FILTERS, encoding="latin-1") as file:
        return {line.split()[1] for line in file if line.startswith(kind + ":")}


failed = []
pages = sorted(names("FILTER"))
headers = {(kind, name) for kind, name, _, _ in HEADERS}
if headers != {(CLIENT, n) for n in names("CLIENT-HEADER-FILTER")} | {(SERVER, n) for n in names("SERVER-HEADER-FILTER")}:
    failed.append("a header filter has no row, or a row no filter")
for program in map(os.path.abspath, sys.argv[1:]):
    for name in pages:
        if not content(program, name):
            failed.append(f"{program}: {name}")
    for row in HEADERS:
        if not header(program, *row):
            failed.append(f"{program}: {row[1]}")
print(f"filters.py: {len(pages)} pages and {len(HEADERS)} header filters, {len(failed)} failed")
for it in failed:
    print("filters.py: " + it)
sys.exit(1 if failed else 0)
