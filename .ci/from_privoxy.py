#!/usr/bin/env python3
"""Converts Debian's configuration of Privoxy with tools/helmthread-from-privoxy, and compares the program with the real Privoxy over the
pages of .ci/privoxy, line by line: once as Debian has it, once with all content filters on.

Usage: from_privoxy.py PROGRAM..

Of 100 lines that Privoxy changes at most five may be left as they were, and no line may become anything else. Also: `check` of what
was made prints no note. Skipped, with the reason, where Debian's package privoxy can't be had. Says what failed, and ends with 1 then.
"""
import difflib
import http.server
import os
import re
import shutil
import subprocess
import sys
import tempfile
import urllib.request

from origins import Server, free_port, wait_for

HERE = os.path.dirname(os.path.abspath(__file__))
SCRIPT = os.path.join(HERE, "..", "tools", "helmthread-from-privoxy")
PAGES = os.path.join(HERE, "privoxy")
NAMES = {
    "news": "text/html; charset=utf-8",
    "blog": "text/html",
    "forum": "text/html; charset=windows-1252",
}
LEFT_OF_100 = 5


class Origin(http.server.BaseHTTPRequestHandler):
    """Gives the pages, whatever the host."""

    protocol_version = "HTTP/1.1"

    def do_GET(self):
        name = self.path.rpartition("/")[2]
        data = open(os.path.join(PAGES, name + ".html"), "rb").read() if name in NAMES else b""
        self.send_response(200 if name in NAMES else 404)
        self.send_header("Content-Type", NAMES.get(name, "text/plain"))
        self.send_header("Content-Length", str(len(data)))
        self.end_headers()
        self.wfile.write(data)

    def log_message(self, *_):
        pass


def privoxy_files(folder):
    """Puts the package's configuration and program into a folder, and gives the program's path; None where it can't be had."""
    program = shutil.which("privoxy", path="/usr/sbin:/usr/bin")
    root = "/"
    if not program or not os.path.isfile("/etc/privoxy/default.filter"):

        def run(words):
            return subprocess.run(
                words, cwd=folder, stdout=subprocess.DEVNULL, stderr=subprocess.DEVNULL, timeout=180
            ).returncode

        try:
            run(["apt-get", "download", "-qq", "privoxy"])
            deb = [name for name in os.listdir(folder) if name.startswith("privoxy_")]
            if not deb or run(["dpkg-deb", "-x", deb[0], "x"]):
                return None
        except (OSError, subprocess.TimeoutExpired):
            return None
        root = os.path.join(folder, "x")
        program = os.path.join(root, "usr/sbin/privoxy")
        if subprocess.run(
            [program, "--version"], stdout=subprocess.DEVNULL, stderr=subprocess.DEVNULL
        ).returncode:
            return None
    made = os.path.join(folder, "stock")
    os.mkdir(made)
    for name in (
        "default.action",
        "default.filter",
        "match-all.action",
        "user.action",
        "user.filter",
    ):
        shutil.copy(os.path.join(root, "etc/privoxy", name), made)
    shutil.copytree(os.path.join(root, "etc/privoxy/templates"), os.path.join(made, "templates"))
    shutil.copy(os.path.join(root, "usr/share/privoxy/config"), made)
    return program


def all_on(folder):
    """Switches all content filters on for the test's hosts."""
    with open(os.path.join(folder, "default.filter"), encoding="latin-1") as file:
        names = re.findall(r"^FILTER: (\S+)", file.read(), re.MULTILINE)
    names = [name for name in names if name not in ("crude-parental", "js-events")]
    with open(os.path.join(folder, "user.action"), "a", encoding="latin-1") as file:
        file.write(
            "\n{-filter %s}\n.example.test\n" % " ".join("+filter{%s}" % name for name in names)
        )


def ask_privoxy(program, folder, origin):
    """What Privoxy makes of the pages."""
    port = free_port()
    with open(os.path.join(folder, "config"), encoding="latin-1") as file:
        text = file.read()
    text = re.sub(
        r"^(confdir|logdir|listen-address|logfile|user-manual)\b.*$", "", text, flags=re.MULTILINE
    )
    run = os.path.join(folder, "run.config")
    with open(run, "w", encoding="latin-1") as file:
        file.write(
            "confdir %s\nlisten-address 127.0.0.1:%d\nforward / 127.0.0.1:%d\n%s"
            % (folder, port, origin, text)
        )
    process = subprocess.Popen(
        [program, "--no-daemon", run], stdout=subprocess.DEVNULL, stderr=subprocess.DEVNULL
    )
    try:
        if not wait_for(port, process):
            raise SystemExit("from_privoxy.py: privoxy doesn't listen, or ended: %s" % process.poll())
        opener = urllib.request.build_opener(
            urllib.request.ProxyHandler({"http": "http://127.0.0.1:%d" % port})
        )
        return {
            name: opener.open("http://www.example.test/" + name, timeout=600).read()
            for name in NAMES
        }
    finally:
        process.terminate()
        process.wait(60)


def ask_ours(program, folder):
    """What the program makes of them."""
    got = {}
    for name, kind in NAMES.items():
        with open(os.path.join(PAGES, name + ".html"), "rb") as file:
            data = file.read()
        answer = (
            b"HTTP/1.1 200 OK\r\nContent-Type: %s\r\nContent-Length: %d\r\n\r\n"
            % (kind.encode(), len(data))
            + data
        )
        with open(os.path.join(folder, "origin"), "wb") as file:
            file.write(b"%d\n" % len(answer) + answer)
        request = (
            b"GET http://www.example.test/%s HTTP/1.1\r\nHost: www.example.test\r\n\r\n"
            % name.encode()
        )
        ran = subprocess.run(
            [program, "pass", "config", "origin", "sent"],
            cwd=folder,
            input=request,
            capture_output=True,
            timeout=600,
        )
        got[name] = ran.stdout.partition(b"\r\n\r\n")[2] if ran.returncode == 0 else ran.stderr
    return got


def compared(before, theirs, ours):
    """(lines that Privoxy changes, lines of these that are left, lines that became something else)."""
    before, theirs, ours = (text.split(b"\n") for text in (before, theirs, ours))
    known = set(before)
    changed = sum(
        max(b - a, d - c)
        for tag, a, b, c, d in difflib.SequenceMatcher(None, before, theirs, False).get_opcodes()
        if tag != "equal"
    )
    left, broken = [], []
    for tag, _, _, start, end in difflib.SequenceMatcher(None, theirs, ours, False).get_opcodes():
        if tag in ("replace", "insert"):
            for line in ours[start:end]:
                (left if line in known else broken).append(line)
        elif tag == "delete":
            broken.append(b"(a line is missing)")
    return changed, left, broken


def main():
    programs = [os.path.abspath(program) for program in sys.argv[1:]]
    if not programs:
        print(__doc__.split("\n\n")[1], file=sys.stderr)
        return 2
    failed = 0
    with tempfile.TemporaryDirectory() as work:
        os.chmod(work, 0o755)
        privoxy = privoxy_files(work)
        if privoxy is None:
            print("from_privoxy.py: skipped, since Debian's package privoxy can't be had")
            return 0
        net = Server(Origin).start()
        for way in ("as Debian has it", "all content filters"):
            stock = os.path.join(work, "stock")
            if way != "as Debian has it":
                all_on(stock)
            theirs = ask_privoxy(privoxy, stock, net)
            made = os.path.join(work, "made-" + way.split()[0])
            told = subprocess.run(
                [sys.executable, SCRIPT, stock, made], capture_output=True, text=True
            )
            if told.returncode:
                print("from_privoxy.py: the conversion failed: " + told.stderr)
                return 1
            for program in programs:
                failed += try_program(program, way, made, theirs)
    print(
        "from_privoxy.py: %d pages twice, %s"
        % (len(NAMES), "%d failed" % failed if failed else "all as Privoxy makes them")
    )
    return 1 if failed else 0


def try_program(program, way, made, theirs):
    """Gives the number of failures."""
    failed = 0
    checked = subprocess.run(
        [program, "check", "config"], cwd=made, capture_output=True, text=True, timeout=600
    )
    if checked.returncode or not checked.stdout.startswith("ok: "):
        failed += 1
        print(
            "%s: check, %s: status %d\n%s%s"
            % (program, way, checked.returncode, checked.stdout[:500], checked.stderr)
        )
    ours = ask_ours(program, made)
    lines = [0, 0]
    for name in NAMES:
        with open(os.path.join(PAGES, name + ".html"), "rb") as file:
            before = file.read()
        changed, left, broken = compared(before, theirs[name], ours[name])
        lines[0] += changed
        lines[1] += len(left)
        if broken:
            failed += 1
            print(
                "%s: %s, %s: %d lines broken; Privoxy changes %d, %d are left"
                % (program, way, name, len(broken), changed, len(left))
            )
            for line in broken[:8] + left[:3]:
                print("    " + repr(line)[:220])
    print(
        "%s: %s: Privoxy changes %d lines, %d of them are left"
        % (os.path.basename(program), way, *lines)
    )
    if lines[0] < 100 or lines[1] * 100 > lines[0] * LEFT_OF_100:
        failed += 1
        print("%s: %s: too many are left, or too few are changed" % (program, way))
    return failed


if __name__ == "__main__":
    sys.exit(main())
