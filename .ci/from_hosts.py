#!/usr/bin/env python3
"""Runs tools/helmthread-from-hosts over lists and over sources that are none, loads what it makes with the built programs, and asks `show`.

Usage: from_hosts.py PROGRAM..  Says which row failed, and ends with 1 then.
"""
import bz2
import gzip
import io
import lzma
import os
import re
import subprocess
import sys
import tempfile
import zipfile

HERE = os.path.dirname(os.path.abspath(__file__))
SCRIPT = os.path.join(HERE, "..", "tools", "helmthread-from-hosts")

# A list, the words before it, and the patterns that it becomes; worked out by hand.
LISTS = [
    (
        "hosts files",
        b"# c\r\n127.0.0.1 localhost\r\n0.0.0.0 ads.example.com # x\r\n0.0.0.0\tADS.example.com.\r\n:: b.example c.example\r\n"
        b"::1 ip6-localhost\r\n192.168.1.4 nas.lan\r\n",
        [],
        ["ads.example.com", "b.example", "c.example"],
    ),
    (
        "all below",
        b"0.0.0.0 example.com\n0.0.0.0 a.example.com\n0.0.0.0 word\n",
        ["--below"],
        [".example.com"],
    ),
    (
        "rules of Adblock",
        b"[Adblock Plus 2.0]\n! c\n||wide.example^\n||a.wide.example^\n||third.example^$third-party\n||x.example^$script\n"
        b"@@||ok.example^\nexample.com##.ad\n||h.example/path\n/banner/*\n",
        [],
        [".wide.example", "{-block}", ".ok.example"],
    ),
    (
        "conditions of Adblock that mean the host",
        b"||a.example^$important\n||b.example^$all\n||c.example^$doc\n||d.example^$document,popup\n||e.example^$popup\n"
        b"||f.example^$popup,third-party\n||g.example^$all,script\n||h.example^$~third-party\n",
        [],
        [".a.example", ".b.example", ".c.example", ".d.example", ".e.example"],
    ),
    (
        "exceptions of Adblock, and what is above them",
        b"||wide.example^\n@@||ok.wide.example^\n||bad.ok.wide.example^$important\n@@||good.bad.ok.wide.example^$important\n"
        b"@@||page.wide.example^$script\n@@||wide.example/path\n",
        [],
        [".wide.example", "{-block}", ".ok.wide.example", "{+block{Stands in the list list.}}", ".bad.ok.wide.example"]
        + ["{-block}", ".good.bad.ok.wide.example"],
    ),
    (
        "pieces of addresses in a list for Adblock",
        b"[Adblock Plus 2.0]\n_468x60\n_468x60.\n-banner.gif\n_ads.php\n.ads.\nadvert\nplain.example\n||full.example^\n",
        [],
        ["plain.example", ".full.example"],
    ),
    (
        "names that are no hosts",
        b"0.0.0.0 _468x60\n0.0.0.0 word\n0.0.0.0 a.example.7\n0.0.0.0 -a.example\n0.0.0.0 _x.ads.example\n",
        [],
        ["_x.ads.example"],
    ),
    (
        "a list for dnsmasq",
        b"# c\naddress=/ads.example/\naddress=/x.example/y.example/0.0.0.0\naddress=/six.example/::\nserver=/z.example/\nlocal=/l.example/\n"
        b"address=/n.example/#\naddress=/nas.example/192.168.1.4\nserver=/fwd.example/10.0.0.1\nserver=/ok.ads.example/#\naddress=/#/0.0.0.0\n",
        [],
        [".ads.example", ".x.example", ".y.example", ".six.example", ".z.example", ".l.example", ".n.example"]
        + ["{-block}", ".ok.ads.example"],
    ),
    (
        "a list for unbound",
        b'server:\n  local-zone: "ads.example." always_nxdomain\n  local-zone: r.example redirect\n  local-data: "r.example A 0.0.0.0"\n'
        b'  local-zone: "nas.example" static\n  local-data: "box.nas.example. 3600 IN A 192.168.1.4"\n  local-data: "only.example 60 IN AAAA ::"\n'
        b'  local-zone: "ok.ads.example" always_transparent\n',
        [],
        [".ads.example", ".r.example", "only.example", "{-block}", ".ok.ads.example"],
    ),
    (
        "a response policy zone",
        b"$TTL 300\n@ IN SOA localhost. root.localhost. (\n  1 ; serial\n  2 3 4 5 )\n  IN NS localhost.\nads.example CNAME . ; c\n"
        b"*.ads.example CNAME .\ndrop.example 60 IN CNAME rpz-drop.\nnone.example CNAME *.\nnull.example A 0.0.0.0\n  AAAA ::\n"
        b"walled.example CNAME garden.example.\n32.7.2.0.192.rpz-ip CNAME .\nok.ads.example CNAME rpz-passthru.\n",
        [],
        [".ads.example", "drop.example", "none.example", "null.example", "{-block}", "ok.ads.example"],
    ),
    (
        "a response policy zone with whole names",
        b"$ORIGIN rpz.zone.\n@ SOA a. b. 1 2 3 4 5\nads.example.rpz.zone. 300 IN CNAME .\n$ORIGIN com.rpz.zone.\nads CNAME .\n",
        [],
        ["ads.example", "ads.com"],
    ),
    ("third parties", b"||third.example^$third-party\n", ["--third-party"], [".third.example"]),
    (
        "names alone",
        b"\xef\xbb\xbfplain.example\n*.star.example\n0.0.0.0 2001:db8::1\n0.0.0.0 192.0.2.7\nb\xc3\xbccher.example\nnot a host\n-x.example\n",
        [],
        ["plain.example", ".star.example", "<2001:db8::1>", "192.0.2.7", "xn--bcher-kva.example"],
    ),
]


def zipped(data):
    out = io.BytesIO()
    with zipfile.ZipFile(out, "w") as archive:
        archive.writestr("list", data)
    return out.getvalue()


GOOD = b"0.0.0.0 ads.example\n"
# Sources without one host, and a word that says what each looks like.
NO_LISTS = [
    (b"<!DOCTYPE html>\n<html><head><title>404 Not Found</title></head>\n<body>\nads.example\n</body></html>\n", "404 Not Found"),
    (b"\n<html>\nads.example\n</html>\n", "HTML"),
    (gzip.compress(GOOD), "gzip"),
    (lzma.compress(GOOD), "xz"),
    (bz2.compress(GOOD), "bzip2"),
    (zipped(GOOD), "zip"),
    (GOOD.decode().encode("utf-16"), "UTF-16"),
    (b"ads.example\0\n", "no text"),
    (b"", "empty"),
    (b'{"message": "rate limit"}\n', "JSON"),
    (b"# a list\n127.0.0.1 localhost\n", "no line names a host"),
    (b"^ads?[0-9]*\\.\n\\.example\\.com$\n", "no line names a host"),
]
# Addresses, and whether they are blocked by the list of 15,000 hosts.
ASKED = [
    ("http://h7.block.example/", True),
    ("http://h14999.block.example/x", True),
    ("http://a.h7.block.example/", False),
    ("http://h15000.block.example/", False),
    ("http://www.example.com/", False),
]


def convert(folder, data, words, to="made.action"):
    with open(os.path.join(folder, "list"), "wb") as file:
        file.write(data)
    return subprocess.run(
        [sys.executable, SCRIPT, *words, "list", to],
        cwd=folder,
        capture_output=True,
        text=True,
        timeout=600,
    )


def rows(folder, fail):
    """The lists, and the limits."""
    for row, data, words, wanted in LISTS:
        ran = convert(folder, data, words)
        with open(os.path.join(folder, "made.action"), encoding="utf-8") as file:
            got = file.read().splitlines()[2:]
        if ran.returncode or got != wanted:
            fail(row, "status %d, %s %s" % (ran.returncode, got, ran.stderr))


def hosts(many, long=0):
    return b"".join(b"0.0.0.0 h%d.%sblock.example\n" % (at, b"x" * long) for at in range(many))


def lines_of(path):
    with open(path, "rb") as file:
        return file.read().count(b"\n")


def limits(folder, fail):
    """What is said at a limit, and that what is offered there takes in more, and that nothing else is offered."""

    def stopped(row, data, words, taken, offered, of_others):
        ran = convert(folder, data, words)
        told = "%d of %d hosts" % (taken, data.count(b"\n"))
        wrong = told not in ran.stderr or any(it not in ran.stderr for it in offered)
        if ran.returncode != 3 or wrong or any(it in ran.stderr for it in of_others):
            fail(row, "status %d, %s" % (ran.returncode, ran.stderr))

    def whole(row, data, words, files):
        ran = convert(folder, data, words, "whole.action")
        names = sorted(name for name in os.listdir(folder) if name.startswith("whole.action"))
        if ran.returncode or names != files or "%d hosts in" % data.count(b"\n") not in ran.stdout:
            fail(row, "status %d, %s %s" % (ran.returncode, names, ran.stderr))

    def config(text):
        with open(os.path.join(folder, "c"), "w", encoding="utf-8") as file:
            file.write(text)

    with open(os.path.join(folder, "other.action"), "w", encoding="utf-8") as file:
        file.write("{+block{x}}\n" + "".join("o%d.test\n" % at for at in range(100)))
    config("actionsfile\tother.action\npattern-limit\t40000\n")
    line = "`pattern-limit 40000`"
    stopped("over the limit of patterns", hosts(30000), [], 19000, [line, "--config"], ["--several", "bytes"])
    whole("as it was offered", hosts(30000), ["--config", "c"], ["whole.action"])
    stopped("over what may be set", hosts(40000), ["--config", "c"], 39900, ["the most"], ["--several", "`pattern-limit"])
    config("actionsfile other.action\n")
    stopped("over the limit of a main file", hosts(30000), ["--config", "c"], 19900, [line + " in c", "room for 39900"], ["--several"])
    config("actionsfile other.action\npattern-limit 100\n")
    ran = convert(folder, GOOD, ["--config", "c"], "whole.action")
    if ran.returncode != 3 or line not in ran.stderr or lines_of(os.path.join(folder, "whole.action")) != 2 + 30000:
        fail("no room for one host", "status %d, or the file was written: %s" % (ran.returncode, ran.stderr))
    long = convert(folder, hosts(18000, 55), [])
    size, taken = os.path.getsize(os.path.join(folder, "made.action")), re.search(r"behind (\d+) of 18000", long.stderr)
    if long.returncode != 3 or not 1048400 < size <= 1048576 or "--several" not in long.stderr or line in long.stderr or not taken:
        fail("over the limit of a file", "status %d, %d bytes, %s" % (long.returncode, size, long.stderr))
    whole("several files", hosts(18000, 55), ["--several"], ["whole.action", "whole.action-2"])
    second = os.path.join(folder, "whole.action-2")
    if not (taken and os.path.isfile(second) and lines_of(second) == 2 + 18000 - int(taken[1])):
        fail("several files", "the second one doesn't go on where the first one ends")
    if "whole.action-2 is of an earlier run" not in convert(folder, GOOD, ["--several"], "whole.action").stdout:
        fail("a part of an earlier run", "nothing is said of it")
    config("".join("actionsfile f%d\n" % at for at in range(16)))
    for at in range(16):
        open(os.path.join(folder, "f%d" % at), "w").close()
    if convert(folder, GOOD, ["--config", "c"]).returncode != 1:
        fail("sixteen other files", "another one is made")


def kept(folder, fail):
    """A file is replaced as a whole, and stays where the source is no list."""
    path, twin = os.path.join(folder, "kept.action"), os.path.join(folder, "twin")
    with open(path, "w", encoding="utf-8") as file:
        file.write("before")
    os.chmod(path, 0o640)
    os.link(path, twin)
    os.symlink("kept.action", os.path.join(folder, "link.action"))
    convert(folder, GOOD, [], "link.action")
    with open(path, "rb") as file, open(twin, "rb") as other:
        made, before = file.read(), other.read()
    if before != b"before" or b"\nads.example\n" not in made or os.stat(path).st_mode & 0o777 != 0o640:
        fail("a file that is there", "it is written in its place, or its rights are lost")
    for data, word in NO_LISTS:
        there = sorted(os.listdir(folder))
        for to in ("kept.action", "new.action"):
            ran = convert(folder, data, [], to)
            if ran.returncode != 4 or word not in ran.stderr or ran.stdout:
                fail("no list: " + word, "status %d, %s%s" % (ran.returncode, ran.stdout, ran.stderr))
        with open(path, "rb") as file:
            if file.read() != made or sorted(os.listdir(folder)) != there:
                fail("no list: " + word, "a file was written")
    if convert(folder, GOOD, [], "nowhere/made.action").returncode != 1:
        fail("a folder that isn't there", "the status isn't 1")


def shown(folder, program, url):
    return subprocess.run(
        [program, "show", "config", url], cwd=folder, capture_output=True, text=True, timeout=600
    )


def ask_exceptions(folder, program, fail):
    """What is let through, and what is above that, asked."""
    with open(os.path.join(folder, "config"), "w", encoding="utf-8") as file:
        file.write("actionsfile made.action\n")
    convert(folder, b"||w.example^\n@@||ok.w.example^\n||bad.ok.w.example^$important\n", [])
    for host, blocked in (("w.example", True), ("ok.w.example", False), ("a.ok.w.example", False), ("bad.ok.w.example", True)):
        ran = shown(folder, program, "http://%s/" % host)
        if ran.returncode or ("+block{Stands in the list list.}" in ran.stdout) != blocked:
            fail("show " + host, ran.stdout + ran.stderr)


def ask(folder, program, fail):
    """15,000 hosts, loaded and asked."""
    many = b"".join(b"0.0.0.0 h%d.block.example\r\n" % at for at in range(15000))
    with open(os.path.join(folder, "config"), "w", encoding="utf-8") as file:
        file.write("actionsfile made.action\n")
    ran = convert(folder, many, ["--config", "config"])
    checked = subprocess.run(
        [program, "check", "config"], cwd=folder, capture_output=True, text=True, timeout=600
    )
    if (
        ran.returncode
        or checked.stdout
        != "ok: 1 action files, 1 sections, 15000 patterns, 0 filter files, 0 filters\n"
    ):
        fail("15,000 hosts", ran.stderr + checked.stdout + checked.stderr)
    for url, blocked in ASKED:
        ran = shown(folder, program, url)
        if ran.returncode or ("+block{Stands in the list list.}" in ran.stdout) != blocked:
            fail("show " + url, ran.stdout + ran.stderr)


def main():
    programs = [os.path.abspath(program) for program in sys.argv[1:]]
    if not programs:
        print(__doc__.split("\n\n")[1], file=sys.stderr)
        return 2
    failures = []

    def fail(row, text):
        failures.append(row)
        print("from_hosts.py: %s: %s" % (row, text))

    with tempfile.TemporaryDirectory() as folder:
        rows(folder, fail)
        limits(folder, fail)
        kept(folder, fail)
        for program in programs:
            ask_exceptions(folder, program, fail)
            ask(folder, program, fail)
    print(
        "from_hosts.py: %d rows, %s"
        % (
            len(LISTS) + len(NO_LISTS) + 12 + (5 + len(ASKED)) * len(programs),
            "%d failed: %s" % (len(failures), "; ".join(failures)) if failures else "all as expected",
        )
    )
    return 1 if failures else 0


if __name__ == "__main__":
    sys.exit(main())
