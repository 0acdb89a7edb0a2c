#!/usr/bin/env python3
"""Puts tags on and takes them off at the pages of `serve` of the built programs with conf/: from several addresses and over many
connections, behind changes of the configuration, and until no more changes are taken. In Chromium a page is blocked, its link is followed,
and the page is there while another address is still blocked; a second link leads back.

Usage: tags.py PROGRAM..

The part in Chromium is skipped, with the reason, where that can't be had. Says what failed, and ends with 1 where something did.
"""
import http.client
import http.server
import os
import shutil
import sys
import tempfile
from concurrent.futures import ThreadPoolExecutor

from inside import Proxy, dumped, links_of
from origins import WAIT, Server

# Two clients, and pages that conf/ and user.action block, and one that conf/ filters.
HERE, THERE = "127.0.0.1", "127.0.0.2"
BLOCKED, OWN_BLOCKED, FILTERED = "http://ads.example.net/offer", "http://www.blocked.example/why", "http://www.plain.example/"
SECTION = "{+block{No by tags.py.}}\nwww.blocked.example\n"
REASONS = ("Advertisements come from here.", "No by tags.py.")
# What the origin sends, and what conf/ makes of it.
PAGE = '<p>From the origin<img src="/t.gif" width="1" height="1"></p>'
CLEAN = "<p>From the origin<!-- tiny image taken out --></p>"
# Tags beside `untouched` whose names have signs in them: as main files have them, and as they are written in a page's address.
ODD, ODD_ASKED = "a/b?c&d%e", "a%2Fb%3fc&d%25e"
CHEESE, CHEESE_ASKED = "k\u00e4se", "k%C3%A4se"
DECLARED = "client-specific-tag untouched "
# How many connections come at once, and how many times the tag goes on and off before such.
AT_ONCE, ROUNDS = 50, 4
# So many changes are taken in one run; so many workers and clients that make them; and so many requests that change nothing.
MOST, CLIENTS, IDLE = 10000, 8, 20
BROWSER = shutil.which("chromium")
passed, failed = 0, []


def check(what, right, said=""):
    global passed
    if right:
        passed += 1
    else:
        failed.append("%s: %s" % (what, said))


class Origin(http.server.BaseHTTPRequestHandler):
    """Answers each request with the page, whatever its host."""

    protocol_version = "HTTP/1.1"

    def do_GET(self):
        self.send_response(200)
        self.send_header("Content-Type", "text/html")
        self.send_header("Content-Length", str(len(PAGE)))
        self.send_header("Cache-Control", "no-store")
        self.end_headers()
        self.wfile.write(PAGE.encode())

    def log_message(self, *_):
        pass


class Client:
    """A client that comes from an address, over connections that it keeps for as long as the proxy does."""

    def __init__(self, proxy, address=HERE):
        self.link = http.client.HTTPConnection("127.0.0.1", proxy.port, timeout=WAIT, source_address=(address, 0))

    def asked(self, url):
        self.link.request("GET", url)
        answer = self.link.getresponse()
        return answer.status, answer.getheader("Content-Type"), answer.read().decode()

    def close(self):
        self.link.close()


def on(name="untouched"):
    return "http://p.p/client-tags/on?" + name


def off(name="untouched"):
    return "http://p.p/client-tags/off?" + name


def listed(*names):
    """The page of a client with these tags."""
    return 200, "text/plain", "tags:\n" + "".join(name + "\n" for name in names)


NO_PAGE = (404, "text/plain", "no such page\n")


def is_full(answer):
    """Whether an answer says that no more changes are taken."""
    lines = answer[2].splitlines()
    return answer[:2] == (404, "text/plain") and len(lines) == 2 and lines[0] == "full" and "until the proxy is started again" in lines[1]


def tags(proxy, address=HERE):
    return proxy.asked("http://p.p/client-tags", address=address)


def kind(answer):
    """What became of a page."""
    status, _, text = answer
    if status == 403 and any(reason in text for reason in REASONS):
        return "blocked"
    return {(200, PAGE): "as sent", (200, CLEAN): "filtered"}.get((status, text), answer)


def seen(proxy, address):
    """What an address is shown: the pages, and which tags it has."""
    pages = [kind(proxy.asked(url, address=address)) for url in (BLOCKED, OWN_BLOCKED, FILTERED)]
    return pages + [tags(proxy, address)]


TOUCHED = ["blocked", "blocked", "filtered", listed()]
UNTOUCHED = ["as sent", "as sent", "as sent", listed("untouched")]


def by_address(proxy):
    """A tag holds for the address from which it was put on, and for no other."""
    proxy.add(SECTION)
    for what, url, address, shown, answer, here, there in (
        ("at first", None, HERE, TOUCHED, None, TOUCHED, TOUCHED),
        ("put on", on(), HERE, UNTOUCHED, listed("untouched"), UNTOUCHED, TOUCHED),
        ("put on twice", on(), HERE, UNTOUCHED, listed("untouched"), UNTOUCHED, TOUCHED),
        ("put on by both", on(), THERE, UNTOUCHED, listed("untouched"), UNTOUCHED, UNTOUCHED),
        ("taken off", off(), HERE, TOUCHED, listed(), TOUCHED, UNTOUCHED),
        ("taken off twice", off(), HERE, TOUCHED, listed(), TOUCHED, UNTOUCHED),
        ("taken off by both", off(), THERE, TOUCHED, listed(), TOUCHED, TOUCHED),
    ):
        got = proxy.asked(url, address=address) if url else None
        check("the answer to a tag that is %s" % what, got == answer, got)
        got = seen(proxy, HERE), seen(proxy, THERE)
        check("what two addresses see, a tag being %s" % what, got == (here, there), got)


def over_open_connections(proxy):
    """A change counts for the next request, also over a connection that was open before."""
    first, second = Client(proxy), Client(proxy)
    got = [kind(first.asked(BLOCKED)), second.asked(on()), kind(first.asked(BLOCKED)), second.asked(off()), kind(first.asked(BLOCKED))]
    check("over two open connections", got == ["blocked", listed("untouched"), "as sent", listed(), "blocked"], got)
    first.close()
    second.close()


def at_once(proxy):
    """Behind each change all connections that come at once see it, whichever worker serves them."""

    def one(number):
        return kind(proxy.asked(BLOCKED, address=(HERE, THERE)[number % 2]))

    with ThreadPoolExecutor(AT_ONCE) as pool:
        for number in range(ROUNDS):
            for change, wanted in ((on, "as sent"), (off, "blocked")):
                proxy.asked(change())
                got = list(pool.map(one, range(AT_ONCE)))
                wrong = [it for it in got[0::2] if it != wanted] + [it for it in got[1::2] if it != "blocked"]
                check("%d connections at once, round %d, %s" % (AT_ONCE, number, wanted), not wrong, wrong[:2])


def without_change(proxy):
    """What changes nothing: other names, methods, bodies, ports and hosts. A request to HEAD changes what one to GET does."""
    for what, url, method, body, wanted in (
        ("a tag that isn't declared", on("nobody"), "GET", None, NO_PAGE),
        ("one that isn't declared, off", off("nobody"), "GET", None, NO_PAGE),
        ("no tag", on(""), "GET", None, NO_PAGE),
        ("a tag in capitals", on("UNTOUCHED"), "GET", None, NO_PAGE),
        ("a tag and more", on("untouched&x"), "GET", None, NO_PAGE),
        ("a POST", on(), "POST", b"x", 503),
        ("a POST without a body", on(), "POST", None, 503),
        ("a PUT", on(), "PUT", b"x", 503),
        ("a GET with a body", on(), "GET", b"x", 503),
        ("another port", on().replace("p.p", "p.p:81"), "GET", None, 503),
        ("another host", on().replace("p.p", "p.q"), "GET", None, (200, "text/html", CLEAN)),
    ):
        got = proxy.asked(url, method, body)
        check("the answer to " + what, got == wanted or got[0] == wanted, got)
        check("the tags behind " + what, tags(proxy) == listed(), tags(proxy))
    for change, wanted in ((on(), listed("untouched")), (off().replace("p.p", "config.privoxy.org"), listed())):
        got = proxy.asked(change, "HEAD"), tags(proxy)
        check("HEAD of " + change, got == (wanted[:2] + ("",), wanted), got)


def by_name(proxy):
    """Names are percent-decoded, and tags are listed in the order in which they were put on."""
    got = [proxy.asked(url) for url in (on(ODD_ASKED), on("%75n%74ouched"), on(CHEESE_ASKED), off("untouche%64"), off(CHEESE_ASKED), off(ODD_ASKED))]
    wanted = [(ODD,), (ODD, "untouched"), (ODD, "untouched", CHEESE), (ODD, CHEESE), (ODD,), ()]
    for answer, names in zip(got, wanted):
        check("the tags " + " ".join(names), answer == listed(*names), answer)


def reloaded(proxy):
    """A tag that the configuration no longer declares counts for nobody, and once it is declared again it is there again."""
    path = os.path.join(proxy.conf, "config")
    with open(path, encoding="utf-8") as file:
        text = file.read()
    proxy.asked(on())
    check("what is seen before it is undeclared", seen(proxy, HERE) == UNTOUCHED, seen(proxy, HERE))
    with open(path, "w", encoding="utf-8") as file:
        file.write(text.replace(DECLARED, "#" + DECLARED))
    got = seen(proxy, HERE), proxy.asked(on()), proxy.asked(off())
    check("what is seen of a tag that isn't declared", got == (TOUCHED, NO_PAGE, NO_PAGE), got)
    with open(path, "w", encoding="utf-8") as file:
        file.write(text)
    check("what is seen once it is declared again", seen(proxy, HERE) == UNTOUCHED, seen(proxy, HERE))
    proxy.asked(off())


def changed(proxy, address):
    """Puts the tag on and takes it off from an address, until that is refused: how many changes were taken, and the last answer."""
    client, count = Client(proxy, address), 0
    while count <= MOST:
        change, wanted = ((on(), listed("untouched")), (off(), listed()))[count % 2]
        answer = client.asked(change)
        if answer != wanted:
            break
        count += 1
    client.close()
    return count, answer


def to_the_end(proxy):
    """All changes that are taken in one run, made by as many clients as there are workers; and what is answered behind them."""
    idle = [proxy.asked(off(), address="127.0.2.1") for _ in range(IDLE)]
    check("what is off already is no change", idle == [listed()] * IDLE, idle[-1])
    addresses = ["127.0.1.%d" % number for number in range(1, CLIENTS + 1)]
    with ThreadPoolExecutor(CLIENTS) as pool:
        ends = list(pool.map(lambda address: changed(proxy, address), addresses))
    counts = [count for count, _ in ends]
    check("so many changes are taken", sum(counts) == MOST, counts)
    check("then it is full", all(is_full(answer) for _, answer in ends), ends)
    check("the page says how many were made", str(MOST) in ends[0][1][2], ends[0][1])
    for address, count in zip(addresses + ["127.0.2.1"], counts + [0]):
        has_tag = count % 2 == 1
        same, other = (on(), off()) if has_tag else (off(), on())
        wanted = listed("untouched") if has_tag else listed()
        got = tags(proxy, address), proxy.asked(same, address=address), kind(proxy.asked(BLOCKED, address=address))
        check("what was on stays on, and off stays off", got == (wanted, wanted, "as sent" if has_tag else "blocked"), got)
        got = proxy.asked(other, address=address)
        check("no change is taken from anybody", is_full(got), got)
        got = proxy.asked(other, "HEAD", address=address)
        check("nor by HEAD", got == (404, "text/plain", ""), got)
    check("a tag that isn't declared is still no page", proxy.asked(on("nobody")) == NO_PAGE)


def guarded(part, proxy):
    """Runs a part; what it raises is a failure of it."""
    try:
        part(proxy)
    except Exception as error:
        check(part.__name__, False, repr(error))


def in_chromium(proxy):
    """A page is blocked, its link is followed, and the page is there while another address is still blocked; a second link leads back."""

    def shown(url):
        return dumped(BROWSER, folder, proxy, url)

    with tempfile.TemporaryDirectory() as folder:
        page = shown(BLOCKED)
        check("the page is blocked", REASONS[0] in page, page[:300])
        links = links_of(page, "client-tags/")
        check("it has the links", links == [on(), off()], links)
        if links != [on(), off()]:
            return
        text = shown(links[0])
        check("the page behind the link", "tags:\nuntouched\n" in text, text)
        page = shown(BLOCKED)
        check("the page is there, as it was sent", PAGE in page, page[:300])
        got = kind(proxy.asked(BLOCKED, address=THERE))
        check("another address is still blocked", got == "blocked", got)
        text = shown(links[1])
        check("the page behind the second link", "tags:\n" in text and "untouched" not in text, text)
        page = shown(BLOCKED)
        check("the page is blocked again", REASONS[0] in page, page[:300])


def with_proxy(program, more, parts):
    """Runs parts over one proxy."""
    with tempfile.TemporaryDirectory() as folder:
        proxy = Proxy(program, folder, more)
        try:
            for part in parts:
                guarded(part, proxy)
        finally:
            proxy.end()


def main():
    if len(sys.argv) < 2:
        print(__doc__.split("\n\n")[1], file=sys.stderr)
        return 2
    more = "\nclient-specific-tag %s Signs\nclient-specific-tag %s Of a cheese\n" % (ODD, CHEESE)
    more += "forward / 127.0.0.1:%d\n" % Server(Origin).start()
    programs = [os.path.abspath(it) for it in sys.argv[1:]]
    for program in programs:
        with_proxy(program, more, [by_address, over_open_connections, at_once, without_change, by_name, reloaded])
        with_proxy(program, more, [to_the_end])
    if BROWSER:
        with_proxy(programs[0], more, [in_chromium])
    else:
        print("tags.py: the part in Chromium is skipped, since it can't be had")
    print("tags.py: %d passed, %d failed" % (passed, len(failed)))
    for text in failed:
        print("tags.py: failed: " + text)
    return 1 if failed else 0


if __name__ == "__main__":
    sys.exit(main())
