#!/usr/bin/env python3
"""Checks the configuration in conf/ with the built program: `check config` is without notes, `show` gives the actions below,
and what docs/MANUAL.md prints of both is what they print.

Usage: conf.py PROGRAM..

The actions of each row were worked out by hand from conf/*.action. Says which row failed, and ends with 1 then.
"""
import os
import subprocess
import sys

HERE = os.path.dirname(os.path.abspath(__file__))
CONF = os.path.join(HERE, "..", "conf")
MANUAL = os.path.join(HERE, "..", "docs", "MANUAL.md")

# The whole output of `check config`: no notes, and the counts.
CHECKED = "ok: 4 action files, 31 sections, 287 patterns, 2 filter files, 29 filters\n"

# What match-all.action switches on, in the order of `show`.
EVERYWHERE = """
+change-x-forwarded-for{block}
+client-header-filter{no-client-hints}
+client-header-filter{private-fields}
+client-header-tagger{image-requests}
+client-header-tagger{script-and-style-requests}
+client-header-tagger{package-managers}
+filter{tiny-images}
+filter{no-pings}
+filter{still-windows}
+hide-from-header{block}
+hide-referrer{conditional-block}
+limit-connect{443,1024-}
+prevent-compression
+server-header-filter{no-reports}
+server-header-tagger{html-pages}
+server-header-tagger{attachments}
+session-cookies-only
+set-image-blocker{pattern}
""".split("\n")[1:-1]

AD = "+block{Advertisements come from here.}"
POPUP = "+block{Pop-up windows and false notices come from here.}"
TRACKER = "+block{This address records what people read.}"
COUNTER = "+block{This is a hit counter.}"
IMAGE = "+handle-as-image"
EMPTY = "+handle-as-empty-document"

# What the aliases of default.action take away, as names of actions.
DOWNLOAD = ["filter", "prevent-compression"]
SHOP = DOWNLOAD + ["hide-referrer", "session-cookies-only"]
FRAGILE = SHOP + ["client-header-filter", "server-header-filter"]

# What the row is, its URL and tags, lines that it has besides EVERYWHERE, actions that it lacks.
ROWS = [
    ("a page of a host whose name says it", "http://ads.example.net/offer", [AD], []),
    ("an image of an exchange", "http://ad.doubleclick.net/banner.gif", [AD, IMAGE], []),
    ("a script of an exchange", "http://pagead2.googlesyndication.com/pagead/js/adsbygoogle.js?v=1", [AD, EMPTY], []),
    ("an image in a folder of advertisements", "http://www.example.com/news/ads/top.png?w=1", [AD, IMAGE], []),
    ("an image whose name has a size", "http://www.example.com/img/banner_468x60.gif", [AD, IMAGE], []),
    ("a script of that name", "http://www.example.com/ads.js", [AD, EMPTY], []),
    ("a site's own banner", "http://www.example.com/img/banner.png", [IMAGE], []),
    ("a picture that is named ad", "http://www.example.com/gallery/ad.jpg", [IMAGE], []),
    ("pictures that are named ads", "http://www.example.com/uploads/ads.jpg", [IMAGE], []),
    ("a small advertisement", "http://www.example.com/ad/123-flat-for-rent", [], []),
    ("a host that is named counter", "http://counter.example.com/", [], []),
    ("a window that opens by itself", "http://c1.popads.net/pop", [POPUP], []),
    ("a hit counter", "http://c.statcounter.com/t.php?u=1", [COUNTER, IMAGE], []),
    ("a hit counter's script", "http://www.statcounter.com/counter/counter.js", [COUNTER, EMPTY], []),
    ("a tracker's script on the site's own host", "http://www.example.com/js/matomo.js", [TRACKER, EMPTY], []),
    ("a tracker's path on a host with other things", "http://www.facebook.com/tr?id=1", [TRACKER], []),
    ("another path of that host", "http://www.facebook.com/trips", [], []),
    ("a plain page", "http://www.example.com/index.html", [], []),
    ("a plain image", "http://www.example.com/photo.jpg", [IMAGE], []),
    ("a plain style sheet", "http://www.example.com/style.css?v=2", [EMPTY], []),
    ("a newspaper named ad", "http://ad.nl/nieuws", [], []),
    ("a shop", "http://www.ebay.de/itm/1", [], SHOP),
    ("a file to fetch", "http://deb.debian.org/debian/dists/stable/Release", [], DOWNLOAD),
    ("the page of a router", "http://192.168.1.1/ads/status.html", [], FRAGILE),
    ("https at once", "http://en.wikipedia.org/wiki/Proxy", ["+redirect{s@^http://([^/:]+)/@https://$1/@}"], []),
    ("a link that counts clicks", "http://www.google.com/url?q=http://www.example.com/",
     ["+fast-redirects{check-decoded-url}"], []),
    ("a client with the tag untouched", "http://ads.example.net/offer untouched", [], FRAGILE),
]

# Addresses of which the manual prints what `show` says, up to the first action.
IN_THE_MANUAL = ["http://ads.example.net/offer", "http://www.example.com/market/ads/list.html"]


def name_of(line):
    return line[1:].split("{")[0]


def actions(more, lacking):
    """The lines that `show` prints behind `actions:`."""
    lines = [line for line in EVERYWHERE if name_of(line) not in lacking]
    return sorted(lines + more, key=name_of)


def run(program, words):
    done = subprocess.run([program, *words], cwd=CONF, stdin=subprocess.DEVNULL, capture_output=True, timeout=600)
    return done.returncode, done.stdout.decode("utf-8", "replace"), done.stderr.decode("utf-8", "replace")


def try_program(program):
    """Gives the rows that failed."""
    failed = []

    def fail(row, *lines):
        failed.append(row)
        print("%s: %s" % (program, row))
        for line in lines:
            print("    " + line)

    status, out, err = run(program, ["check", "config"])
    if (status, out, err) != (0, CHECKED, ""):
        fail("check config", "status %d" % status, *out.splitlines()[:20], *err.splitlines()[:5], "expected: " + CHECKED.rstrip())
    for row, words, more, lacking in ROWS:
        status, out, err = run(program, ["show", "config", *words.split(" ")])
        lines = out.splitlines()
        if status != 0 or err or "actions:" not in lines or lines[:2] != [words.split(" ")[0], "sections:"]:
            fail(row, "show config %s: status %d" % (words, status), *lines[:3], *err.splitlines()[:5])
            continue
        got, want = lines[lines.index("actions:") + 1 :], actions(more, lacking)
        if got != want:
            fail(row, "show config " + words, *["missing  " + line for line in want if line not in got],
                 *["too many " + line for line in got if line not in want],
                 *(["in another order"] if sorted(got) == sorted(want) else []))
    with open(MANUAL, encoding="utf-8") as file:
        manual = file.read()
    if CHECKED not in manual:
        fail("the manual's line of check", "expected: " + CHECKED.rstrip())
    for url in IN_THE_MANUAL:
        lines = run(program, ["show", "config", url])[1].splitlines()
        said = lines[: lines.index("actions:") + 2] if "actions:" in lines else lines
        if not said or "\n" + "\n".join(said) + "\n" not in manual:
            fail("the manual's example " + url, *said)
    return failed


def main():
    programs = [os.path.abspath(program) for program in sys.argv[1:]]
    if not programs:
        print(__doc__.split("\n\n")[1], file=sys.stderr)
        return 2
    images = subprocess.run([sys.executable, os.path.join(CONF, "tools", "make-images.py"), "--check"]).returncode
    failed = ["make-images.py"] if images else []
    for program in programs:
        failed += try_program(program)
    print("conf.py: %d rows, %s" % ((len(ROWS) + len(IN_THE_MANUAL) + 2) * len(programs), "%d failed: %s" % (len(failed), "; ".join(failed)) if failed else "all as expected"))
    return 1 if failed else 0


if __name__ == "__main__":
    sys.exit(main())
