#!/usr/bin/env python3
"""Runs tools/helmthread-lint over mistakes, and over configurations without one.

Usage: lint.py   Says which row failed, and ends with 1 then.

For each mistake the line must name the file and the line, the word, and what to write. Nothing may be said of conf/, of conf/sample,
and of Debian's configuration as helmthread-from-privoxy converts it (skipped, with the reason, where the package can't be had).
"""
import os
import shutil
import subprocess
import sys
import tempfile

HERE = os.path.dirname(os.path.abspath(__file__))
LINT = os.path.join(HERE, "..", "tools", "helmthread-lint")
FROM_PRIVOXY = os.path.join(HERE, "..", "tools", "helmthread-from-privoxy")
CONF = os.path.join(HERE, "..", "conf")

# A mistake: the file in which it stands (config's lines are put behind the ones below), its lines, and three texts: the place,
# the word, and what to write.
A, F, C = "u.action", "f.filter", "config"
MISTAKES = [
    (A, "{+blokc{ads}}\n/", "u.action:1:", "`+blokc{ads}`", "+block{ads}"),
    (
        A,
        "{\\\n+handle-as-image \\\n+blok{ads} \\\n}\n/",
        "u.action:3:",
        "`+blok{ads}`",
        "+block{ads}",
    ),
    (A, "{block{ads}}\n/", "u.action:1:", "`block{ads}`", "+block{ads}"),
    (A, "{+block{ads}\n/", "u.action:1:", "isn't closed", "{+block{ads}}"),
    (A, "{+block{ads}} a.test", "u.action:1:", "`a.test`", "a line of its own"),
    (
        A,
        "{ \\ \n+block{ads} }\n/",
        "u.action:1:",
        "white space stands behind",
        "Take the white space away",
    ),
    (A, "{+block{Ad #1}}\n/", "u.action:1:", "`#`", "\\#"),
    (A, "+block{ads}\n/", "u.action:1:", "`+block{ads}`", "{+block{ads}}"),
    (A, "{+block ads}\n/", "u.action:1:", "`+block`", "+block{ads}"),
    (A, "{+limit-connect}\n/", "u.action:1:", "`+limit-connect`", "+limit-connect{443}"),
    (A, "{+handle-as-image{x}}\n/", "u.action:1:", "`+handle-as-image{x}`", "+handle-as-image"),
    (
        A,
        "{+fast-redirects{simple}}\n/",
        "u.action:1:",
        "`+fast-redirects{simple}`",
        "+fast-redirects{simple-check}",
    ),
    (
        A,
        "{+limit-cookie-lifetime{60m}}\n/",
        "u.action:1:",
        "`+limit-cookie-lifetime{60m}`",
        "+limit-cookie-lifetime{60}",
    ),
    (
        A,
        "{+hide-referrer{blok}}\n/",
        "u.action:1:",
        "`+hide-referrer{blok}`",
        "+hide-referrer{block}",
    ),
    (
        A,
        "{+hide-referrer{Block}}\n/",
        "u.action:1:",
        "`Block` would be sent",
        "+hide-referrer{block}",
    ),
    (
        A,
        "{+set-image-blocker{blnk}}\n/",
        "u.action:1:",
        "`+set-image-blocker{blnk}`",
        "+set-image-blocker{blank}",
    ),
    (
        A,
        "{+redirect{www.example.com}}\n/",
        "u.action:1:",
        "`+redirect{www.example.com}`",
        "+redirect{http://www.example.com}",
    ),
    (A, "{+filter{webbug}}\n/", "u.action:1:", "`+filter{webbug}`", "+filter{webbugs}"),
    (A, "{+filter{marks}}\n/", "u.action:1:", "`+filter{marks}`", "+client-header-filter{marks}"),
    (A, "{+filter{webbugs} -filter}\n/", "u.action:1:", "`-filter`", "{-filter ..}, first"),
    (
        A,
        "{+crunch-client-header{X-A:} +crunch-client-header{X-B:}}\n/",
        "u.action:1:",
        "`+crunch-client-header{X-B:}`",
        "A header filter",
    ),
    (A, "{+add-header{Host: x}}\n/", "u.action:1:", "`+add-header{Host: x}`", "X-Note: hello"),
    (A, "{+block{x}}\nhttp://a.test/", "u.action:2:", "`http://a.test/`", "a.test/"),
    (
        A,
        "{+block{x}}\na.test b.test",
        "u.action:2:",
        "two patterns stand on one line",
        "a.test and b.test",
    ),
    (
        A,
        "{+block{x}}\n||ads.test^",
        "u.action:2:",
        "`||ads.test^`",
        ".ads.test below {+block{Why}}",
    ),
    (A, "{+block{x}}\n@@||ads.test^", "u.action:2:", "`@@||ads.test^`", ".ads.test below {-block}"),
    (
        A,
        "{+block{x}}\nads.test##.banner",
        "u.action:2:",
        "`ads.test##.banner`",
        "take the line away",
    ),
    (
        A,
        "{+block{x}}\nPCRE-HOST-PATTERN:ads.test:80",
        "u.action:2:",
        "`ads.test:80`",
        "PCRE-HOST-PATTERN:ads.test",
    ),
    (
        A,
        "{+block{x}}\nPCRE-HOST-PATTERN: ads.test/x",
        "u.action:2:",
        "` ads.test/x`",
        "PCRE-HOST-PATTERN:ads.test/x",
    ),
    (A, "{+block{x}}\nPCRE-HOST-PATTERN:ads(?!x)y", "u.action:2:", "`(?!x)`", "section"),
    (C, "pattern-limit 40001", "config:", "`40001`", "pattern-limit 40000"),
    (A, "{+block{x}}\n0.0.0.0 ads.test", "u.action:2:", "hosts file", "helmthread-from-hosts"),
    (A, "{+block{x}}\n[2001:db8::1]/", "u.action:2:", "`[2001:db8::1]`", "<2001:db8::1>/"),
    (
        A,
        "{+block{x}}\na.test/ads/(?!ok)",
        "u.action:2:",
        "`(?!ok)`: negative look-ahead",
        "a second section",
    ),
    (
        A,
        "{+block{x}}\na.test/(a)\\1",
        "u.action:2:",
        "`\\1`: a back reference",
        "one branch for each text",
    ),
    (A, "{+block{x}}\na.test/(foo", "u.action:2:", "a `(` without `)`", "\\("),
    (A, "{+block{x}}\na.test/s?q=1/search?q=", "u.action:2:", "`s?q=`", "s\\?q="),
    (A, "{+block{x}}\na.test/*/ads", "u.action:2:", "any number of slashes", "a.test/.*/ads"),
    (
        A,
        "{+forward-override{forward-socks5 127.0.0.1:9050 .}}\n.onion",
        "u.action:1:",
        "`+forward-override{forward-socks5 127.0.0.1:9050 .}`",
        "A line `forward-socks5 PATTERN 127.0.0.1:9050 .` in config",
    ),
    (A, "{+block{x}}\n*.a.test/x", "u.action:2:", "neither a.test nor a.b.a.test", ". .a.test/x"),
    (A, "{+block{x}}\n\n{-block}\na.test", "u.action:1:", "`{+block{x}}`: the section has no pattern", "A pattern in the line below"),
    (A, "{+block{x}}\na.test\n{ \\\n-block \\\n}\n\n# The end.", "u.action:3:", "the section has no pattern", "A pattern in the line below"),
    (A, "{+block{x}}\na..test", "u.action:2:", "two dots side by side", "a.test"),
    (A, "{+block{x}}\ntag:^X$", "u.action:2:", "`tag:`", "TAG:^X$"),
    (A, "{{aliases}}\n{+block{x}}\n/", "u.action:1:", "`{{aliases}}`", "{{alias}}"),
    (A, "{{alias}}\nads = +block{x}\n{adds}\n/", "u.action:3:", "`adds`", "ads"),
    (
        A,
        "{{alias}}\nads = +block{x}\nads = +block{y}\n{ads}\n/",
        "u.action:3:",
        "above, in line 2",
        "Another name",
    ),
    (A, "{+block{caf\xe9}}\n/", "u.action:1:", "isn't UTF-8", "iconv -f windows-1252 -t utf-8"),
    (F, "FILTER: a\ns@x@y", "f.filter:2:", "the job is left out", "A third `@`"),
    (F, "FILTER: a\ns@x@y@q", "f.filter:2:", "`q` is no flag", "Of the flags g i m"),
    (
        F,
        "FILTER: a\ns@(['\"])x\\1@y@",
        "f.filter:2:",
        "`\\1`: a back reference",
        "one branch for each text",
    ),
    (F, "FILTER: a\ns@x(?=y)@z@", "f.filter:2:", "`(?=y)`: look-ahead", "put it back with $1"),
    (F, "FILTER: a\ns@(?<=x)y@z@", "f.filter:2:", "`(?<=x)`: look-behind", "put it back with $1"),
    (F, "FILTER: a\ns@x@<b>$0</b>@", "f.filter:2:", "`$0`", "$&"),
    (F, "FILTER: a\ns@x@$2@", "f.filter:2:", "`$2`", "A ( )"),
    (F, "FILTERS: a\ns@x@y@", "f.filter:1:", "`FILTERS:`", "FILTER: a"),
    (F, "s@x@y@", "f.filter:1:", "before the first filter", "FILTER: NAME"),
    (F, "FILTER: a\ns@x@y@\nFILTER: a\ns@x@y@", "f.filter:3:", "`a`", "Another name"),
    (C, "listen-adress 127.0.0.1:9000", "config:4:", "`listen-adress`", "listen-address"),
    (
        C,
        "listen-address 192.168.1.1:8118",
        "config:4:",
        "`192.168.1.1:8118`",
        "listen-address 127.0.0.1:8118",
    ),
    (
        C,
        "listen-address 127.0.0.1:99999",
        "config:4:",
        "1 to 65535",
        "listen-address 127.0.0.1:8118",
    ),
    (C, "buffer-limit 4M", "config:4:", "`4M`", "buffer-limit 4096"),
    (C, "toggle on", "config:4:", "`on`", "toggle 1"),
    (C, "toggle = 1", "config:4:", "`= 1`", "toggle 1"),
    (C, "link-reuse off", "config:4:", "`off`", "link-reuse 0"),
    (C, "host-list a.hosts", "config:4:", "the reason is missing", "host-list a.hosts It is on a list"),
    (C, "host-list a.hosts Ads.", "config:4:", "`a.hosts`: there is no such file", "Copy the list there"),
    (
        C,
        "forward / http://p.test:3128",
        "config:4:",
        "`http://p.test:3128`",
        "forward / p.test:3128",
    ),
    (C, "forward / me:secret@p.test:3128", "config:4:", "password", "HOST:PORT"),
    (C, "forward-socks4 / s.test:1080 .", "config:4:", "SOCKS4", "forward-socks5 PATTERN"),
    (C, "forward-socks5 / s.test:1080", "config:4:", "a SOCKS server", "forward-socks5 / HOST:PORT ."),
    (
        C,
        "forward-socks5t / me@s.test .",
        "config:4:",
        "password",
        "forward-socks5 / HOST:PORT .",
    ),
    (
        C,
        "forward-socks5 / s.test http://p.test:3128/",
        "config:4:",
        "`http://p.test:3128/`",
        "forward-socks5 / s.test p.test:3128",
    ),
    (
        C,
        "actionsfile nosuch.action",
        "nosuch.action:0:",
        "looked for there",
        "line 4 of config (confdir is",
    ),
    (C, "actionsfile uu.action", "uu.action:0:", "looked for there", "Did you mean `u.action`?"),
    (C, "actionsfile gone.action", "gone.action:0:", "looked for there", ". Named in line 4"),
    (C, "filterfile f", "f:0:", "looked for there", "Did you mean `f.filter`?"),
    (C, "forward *.a.test p.test", "config:4:", "neither a.test nor a.b.a.test", ". .a.test"),
    (
        C,
        "user-manual here\nlogdir /var/log\nenable-edit-actions 0",
        "config:4:",
        "`user-manual`: this is a configuration of Privoxy's",
        "helmthread-from-privoxy . TO",
    ),
    (
        "templates/blocked",
        "<h1>No</h1>\n@if-parent-start a if-parent-end@ @if-block-reason-start<p>@block-reason@</p>",
        "templates/blocked:2:",
        "`@if-block-reason-start`",
        "if-block-reason-end@",
    ),
    (
        "templates/head",
        "# One.\n<head>\n@if-parent-start\n",
        "templates/head:3:",
        "`@if-parent-start`",
        "if-parent-end@",
    ),
    (C, 'actionsfile "u.action"', "config:4:", "quotes", "actionsfile u.action"),
    (C, "actionsfile ~/u.action", "config:4:", "`~` isn't replaced", "/home/you/u.action"),
    (C, "actionsfile g.filter", "config:4:", "`g.filter`", "filterfile g.filter"),
    (C, "templdir nowhere", "config:4:", "`nowhere`", "templdir"),
    (C, "confdir /nosuch", "config:4:", "`/nosuch`", "The folder of your files"),
    (
        C,
        "client-specific-tag guest",
        "config:4:",
        "a description is missing",
        "client-specific-tag guest What it is for",
    ),
    (
        A,
        "{+block{x}}\nCLIENT-TAG:^guest$",
        "u.action:2:",
        "`CLIENT-TAG:^guest$`: config declares no such tag",
        "client-specific-tag guest What it is for",
    ),
    (
        "templates/blocked",
        '<h1>No</h1>\n<a href="http://p.p/client-tags/on?gu%65st">a</a>',
        "templates/blocked:2:",
        "`http://p.p/client-tags/on?guest`: config declares no such tag",
        "Take the link away, or write client-specific-tag guest What it is for",
    ),
]
# Lines of the actions file that nothing is said of.
QUIET = [
    "{+block{x}}\n#a.test\n{-block}\nb.test",
    "{+block{x}}\n# below it\na.test\n{-block}\nb.*.test\n192.168.*.*",
    "{{alias}}\nads = +block{x}\n{ads}\na.test",
    "{+block{x}}\nCLIENT-TAG:^Unt.*ed$",
]
FILTERS = "FILTER: webbugs\ns@x@y@g\nCLIENT-HEADER-FILTER: marks\ns@^X-Mark:.*@@i\n"


sys.path.insert(0, os.path.join(HERE, "..", "tools"))
from helmthread_tools.linting import Linter  # noqa: E402


def lint(config):
    ran = subprocess.run(
        [sys.executable, LINT, config], capture_output=True, text=True, timeout=600
    )
    return ran.returncode, ran.stdout


def said_of(folder, kind, text, main="config"):
    """What is said of a configuration with this text in one of its files."""
    files = {
        A: "{+block{x}}\na.test/\n",
        F: "FILTER: other\ns@a@b@\n",
        C: "filterfile g.filter\nfilterfile f.filter\nactionsfile u.action\n",
        "g.filter": FILTERS,
    }
    files[kind] = files[C] + text + "\n" if kind == C else text + "\n"
    # (the page blocked of conf/ has a link that puts this tag on)
    files[C] += "client-specific-tag untouched Of a page\n"
    files[main] = files.pop(C)
    shutil.copytree(os.path.join(CONF, "templates"), os.path.join(folder, "templates"))
    for name, content in files.items():
        with open(os.path.join(folder, name), "w", encoding="latin-1") as file:
            file.write(content)
    home = os.getcwd()
    os.chdir(folder)
    said = Linter(main).run()
    os.chdir(home)
    return said


def mistake(folder, kind, text, place, word, write):
    """Whether the mistake is helped, and what was said."""
    said = said_of(folder, kind, text)
    helped = [line for line in said if line.startswith(place) and word in line and write in line]
    return bool(helped) and len(said) <= 2, "\n".join(said)


def quiet(fail):
    """What nothing is said of, and the main file by its own name."""
    for text in QUIET:
        with tempfile.TemporaryDirectory() as folder:
            said = said_of(folder, A, text)
        if said:
            fail("something is said of %r:\n%s" % (text, "\n".join(said)))
    with tempfile.TemporaryDirectory() as folder:
        said = said_of(folder, C, "toggle on\nactionsfile nosuch.action", "a.config")
    wanted = ["a.config:4: `on`", "nosuch.action:0: `"]
    if [line[: len(it)] for line, it in zip(said, wanted)] != wanted or "line 5 of a.config" not in said[-1]:
        fail("the main file a.config isn't named so:\n" + "\n".join(said))


def main():
    failed = []

    def fail(text):
        failed.append(text.splitlines()[0])
        print("lint.py: " + text)

    for row in MISTAKES:
        with tempfile.TemporaryDirectory() as folder:
            helped, said = mistake(folder, *row)
        if not helped:
            fail("%r isn't helped:\n%s" % (row[1], said.rstrip()))
    quiet(fail)
    with tempfile.TemporaryDirectory() as folder:
        with open(os.path.join(folder, "config"), "w", encoding="utf-8") as file:
            file.write("toggle on\n")
        if lint(os.path.join(folder, "config")) != (1, "config:1: `on`: it is 0 or 1. toggle 1\n"):
            fail("the program prints something else than its parts say")
    clean = [os.path.join(CONF, "config"), os.path.join(CONF, "sample", "config")]
    with tempfile.TemporaryDirectory() as work:
        sys.path.insert(0, HERE)
        from from_privoxy import privoxy_files

        if privoxy_files(work) is None:
            print("lint.py: Debian's files are skipped, since the package privoxy can't be had")
        else:
            subprocess.run(
                [
                    sys.executable,
                    FROM_PRIVOXY,
                    os.path.join(work, "stock"),
                    os.path.join(work, "made"),
                ],
                stdout=subprocess.DEVNULL,
                check=True,
            )
            clean.append(os.path.join(work, "made", "config"))
        for config in clean:
            status, said = lint(config)
            if status or said != "nothing found\n":
                fail("a complaint of %s:\n%s" % (config, said.rstrip()))
    print(
        "lint.py: %d mistakes, %d configurations without one, %s"
        % (len(MISTAKES), len(clean), "%d failed: %s" % (len(failed), "; ".join(failed)) if failed else "all as expected")
    )
    return 1 if failed else 0


if __name__ == "__main__":
    sys.exit(main())
