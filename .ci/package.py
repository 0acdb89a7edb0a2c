#!/usr/bin/env python3
"""Makes the Debian package of the built program, unpacks it, runs the installed program by the unit's own command line and filters a
page; then two instances behind haproxy, by packaging/haproxy.cfg, of which one is stopped under load.

Usage: package.py PROGRAM

Also: lintian finds nothing, no link of the packaged manual is dead, and `systemd-analyze security` gives the units at most 2.5. What
can't be had is skipped with the reason.
Says what failed, and ends with 1 then.
"""
import gzip
import http.server
import os
import re
import shlex
import shutil
import signal
import socket
import subprocess
import sys
import tempfile
import threading
import time

from origins import WAIT, Server, comes, free_port, wait_for

HERE = os.path.dirname(os.path.abspath(__file__))
PACKAGING = os.path.join(HERE, "..", "packaging")
UNITS = ("helmthread.service", "helmthread@.service", "helmthread-update-lists.service")
SCRIPTS = ("helmthread-lint", "helmthread-from-hosts", "helmthread-from-privoxy", "helmthread-update-lists")
MOST_EXPOSED = 2.5
# (the name of a machine without a domain isn't one for lintian)
NAMED = ("--maintainer", "Test of the package <test@example.org>")
PAGE = b'<html><body>a<img src="/t.gif" width="1" height="1">b</body></html>'
CLEAN = b"<html><body>a<!-- tiny image taken out -->b</body></html>"
# So often two instances behind haproxy are tried where haproxy's own look at an instance comes too late on this machine.
TRIES = 3
# So many pages come before one of them is stopped, and behind that, and for so many seconds.
PAGES, SECONDS = 40, 3
failures = []


class Net(http.server.BaseHTTPRequestHandler):
    def do_GET(self):
        self.send_response(200)
        self.send_header("Content-Type", "text/html")
        self.send_header("Content-Length", str(len(PAGE)))
        self.end_headers()
        self.wfile.write(PAGE)

    def log_message(self, *_):
        pass


def check(what, right, said=""):
    if not right:
        failures.append(what)
        print("package.py: %s %s" % (what, said))


def page(port):
    """The page through the proxy at the port, over a connection of its own."""
    with socket.create_connection(("127.0.0.1", port), 20) as it:
        it.settimeout(20)
        it.sendall(
            b"GET http://www.example.com/ HTTP/1.1\r\nHost: www.example.com\r\nConnection: close\r\n\r\n"
        )
        got = b""
        while True:
            more = it.recv(65536)
            if not more:
                return got
            got += more


def command(root, unit, key, instance=""):
    """A command line of a unit, its files taken from the unpacked package."""
    with open(os.path.join(root, "lib/systemd/system", unit), encoding="utf-8") as file:
        line = re.search(r"^%s=(.*)$" % key, file.read(), re.MULTILINE)[1]
    return [
        re.sub("^/(usr|etc)/", root + r"/\1/", word.replace("%i", instance))
        for word in shlex.split(line)
    ]


def main_file(root, name, port, net):
    with open(os.path.join(root, "etc/helmthread/config"), encoding="utf-8") as file:
        text = file.read()
    with open(os.path.join(root, "etc/helmthread", name), "w", encoding="utf-8") as file:
        file.write(
            re.sub(
                r"^listen-address .*$",
                "listen-address 127.0.0.1:%d" % port,
                text,
                flags=re.MULTILINE,
            )
            + "\nforward / 127.0.0.1:%d\n" % net
        )


def made(program, folder):
    """The package, unpacked; None where it can't be made."""
    for tool in ("dpkg-deb", "dpkg-shlibdeps", "strip"):
        if not shutil.which(tool):
            print("package.py: skipped, since %s can't be had" % tool)
            return None
    ran = subprocess.run(
        [sys.executable, os.path.join(PACKAGING, "make-deb"), "--program", program, *NAMED, folder],
        capture_output=True,
        text=True,
        timeout=600,
    )
    check("make-deb", ran.returncode == 0, ran.stderr)
    if ran.returncode:
        return None
    package = ran.stdout.strip()
    if shutil.which("lintian"):
        found = subprocess.run(
            ["lintian", "--allow-root", package], capture_output=True, text=True, timeout=600
        )
        check(
            "lintian",
            found.returncode == 0 and not re.search("^[EW]:", found.stdout, re.MULTILINE),
            found.stdout + found.stderr,
        )
    else:
        print("package.py: lintian is skipped, since it can't be had")
    root = os.path.join(folder, "root")
    subprocess.run(["dpkg-deb", "-x", package, root], check=True)
    return root


def exposure(root):
    """What systemd says of the units."""
    if not shutil.which("systemd-analyze"):
        print("package.py: systemd-analyze is skipped, since it can't be had")
        return
    for unit in UNITS:
        path = os.path.join(root, "lib/systemd/system", unit)
        ran = subprocess.run(
            ["systemd-analyze", "security", "--offline=true", path],
            capture_output=True,
            text=True,
            timeout=600,
        )
        found = re.search(r"exposure level for \S+: (\d+\.\d)", ran.stdout)
        check(
            "the exposure of " + unit,
            bool(found) and float(found[1]) <= MOST_EXPOSED,
            found[0] if found else ran.stderr,
        )


def installed(root, net):
    """The unit's command lines, a page, the tools and the man pages."""
    port = free_port()
    main_file(root, "config", port, net)
    checked = subprocess.run(
        command(root, "helmthread.service", "ExecStartPre"),
        capture_output=True,
        text=True,
        timeout=600,
    )
    check(
        "ExecStartPre",
        checked.returncode == 0 and checked.stdout.startswith("ok:"),
        checked.stdout + checked.stderr,
    )
    proxy = subprocess.Popen(
        command(root, "helmthread.service", "ExecStart"), stderr=subprocess.DEVNULL
    )
    try:
        check("the installed program listens", wait_for(port, proxy))
        got = page(port)
        check("the installed program filters a page", got.endswith(CLEAN), repr(got[-200:]))
    finally:
        proxy.kill()
        proxy.wait()
    for name in SCRIPTS:
        ran = subprocess.run(
            [os.path.join(root, "usr/bin", name), "--help"],
            capture_output=True,
            text=True,
            timeout=600,
        )
        check(name + " --help", ran.returncode == 0 and "usage: " + name in ran.stdout, ran.stderr)
    linted = subprocess.run(
        [
            os.path.join(root, "usr/bin/helmthread-lint"),
            os.path.join(root, "etc/helmthread/config"),
        ],
        capture_output=True,
        text=True,
        timeout=600,
    )
    check(
        "helmthread-lint over the installed files",
        linted.stdout == "nothing found\n",
        linted.stdout,
    )


def updated(root):
    """The command line of the unit that fetches lists, over the installed file of lists, which names none."""
    ran = subprocess.run(
        command(root, "helmthread-update-lists.service", "ExecStart"), capture_output=True, text=True, timeout=600
    )
    right = ran.returncode == 0 and ran.stdout.endswith("/lists names no list\n")
    check("helmthread-update-lists over the installed files", right, ran.stdout + ran.stderr)


def anchors(text):
    """What a link into a page may name: its headings."""
    return {
        re.sub(r"[^\w -]", "", it).strip().lower().replace(" ", "-")
        for it in re.findall(r"^#+ (.*)$", text, re.MULTILINE)
    }


def links(root):
    """Each link of the packaged pages leads to a file of the package, or to a heading of the page."""
    doc = os.path.join(root, "usr/share/doc/helmthread")
    for name in ("MANUAL.md.gz", "PROFILE.md.gz"):
        with gzip.open(os.path.join(doc, name), "rt", encoding="utf-8") as file:
            text = file.read()
        found = re.findall(r"\]\(([^)]+)\)", text)
        known = {"#" + it for it in anchors(text)} | set(os.listdir(doc))
        dead = [it for it in found if it not in known and not it.startswith("http")]
        check("the links of " + name, not dead, dead)
        check("the manual has links", found or name != "MANUAL.md.gz")


def ask_always(port, results, until):
    """Asks for the page over and over: when each request was begun and ended, and whether the page was right."""
    while not until.is_set():
        began = time.monotonic()
        try:
            right = page(port).endswith(CLEAN)
        except OSError:
            right = False
        results.append((began, time.monotonic(), right))


def pages_come(results, many):
    """Waits until so many pages more have come, and some seconds at least."""
    time.sleep(SECONDS)
    return comes(WAIT, lambda: len(results) >= many)


def stopped_under_load(port, instance):
    """The pages that came before an instance was stopped, and those that were asked for behind that, as whether each was right."""
    results, until = [], threading.Event()
    clients = [threading.Thread(target=ask_always, args=(port, results, until)) for _ in range(8)]
    for it in clients:
        it.start()
    try:
        pages_come(results, PAGES)
        stops = time.monotonic()
        instance.send_signal(signal.SIGTERM)
        instance.wait()
        stopped = time.monotonic()
        pages_come(results, len(results) + PAGES)
    finally:
        until.set()
        for it in clients:
            it.join()
    before = [right for _, ended, right in results if ended < stops]
    return before, [right for began, _, right in results if began >= stopped]


def two_instances(haproxy, root, net, folder):
    """Two instances behind haproxy, of which one is stopped under load: the pages before and behind that, and what haproxy said."""
    ports = {"8118": free_port(), "8121": free_port(), "8122": free_port()}
    with open(
        os.path.join(root, "usr/share/doc/helmthread/examples/haproxy.cfg"), encoding="utf-8"
    ) as file:
        text = re.sub("8118|8121|8122", lambda found: str(ports[found[0]]), file.read())
    config = os.path.join(folder, "haproxy.cfg")
    with open(config, "w", encoding="utf-8") as file:
        file.write(text)
    running = []
    with tempfile.TemporaryFile() as said:
        try:
            for name, port in (("a", ports["8121"]), ("b", ports["8122"])):
                main_file(root, name + ".config", port, net)
                words = command(root, "helmthread@.service", "ExecStart", name)
                running.append(subprocess.Popen(words, stderr=subprocess.DEVNULL))
                check("instance %s listens" % name, wait_for(port, running[-1]))
            running.append(subprocess.Popen([haproxy, "-db", "-f", config], stdout=said, stderr=said))
            check("haproxy listens", wait_for(ports["8118"], running[-1]))
            before, after = stopped_under_load(ports["8118"], running[0])
        finally:
            for it in running:
                it.kill()
                it.wait()
        said.seek(0)
        return before, after, said.read().decode(errors="replace")


def behind_haproxy(root, net, folder):
    """Two instances; one is stopped under load, and no request of a connection made from then on is lost."""
    haproxy = shutil.which("haproxy", path="/usr/sbin:/usr/bin")
    if not haproxy:
        print("package.py: haproxy is skipped, since it can't be had")
        return
    for attempt in range(1, TRIES + 1):
        before, after, said = two_instances(haproxy, root, net, folder)
        # (an instance that runs is looked at each second; a look that takes longer has haproxy pass it over)
        late = re.search(r"Server helmthread/\w is DOWN, reason: Layer4 timeout", said)
        if not late or all(before + after) or attempt == TRIES:
            break
        print("package.py: haproxy's look at an instance came too late, so this is tried once more")
    lost = "%d of %d lost\n%s" % (before.count(False), len(before), said)
    check("pages before the stop", len(before) > 20 and all(before), lost)
    lost = "%d of %d lost\n%s" % (after.count(False), len(after), said)
    check("pages of connections made after it", len(after) > 20 and all(after), lost)
    print(
        "package.py: %d pages before the stop of one instance, %d after it, %d lost"
        % (len(before), len(after), after.count(False))
    )


def main():
    if len(sys.argv) != 2:
        print(__doc__.split("\n\n")[1], file=sys.stderr)
        return 2
    with tempfile.TemporaryDirectory() as folder:
        root = made(os.path.abspath(sys.argv[1]), folder)
        if root is not None:
            net = Server(Net).start()
            exposure(root)
            installed(root, net)
            updated(root)
            links(root)
            behind_haproxy(root, net, folder)
    print("package.py: %d failed%s" % (len(failures), "".join("\nfailed: " + it for it in failures)))
    return 1 if failures else 0


if __name__ == "__main__":
    sys.exit(main())
