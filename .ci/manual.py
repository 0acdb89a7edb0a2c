#!/usr/bin/env python3
"""Runs the commands of docs/MANUAL.md as they stand there, in order, over a copy of conf/; and loads each piece of an actions file or a
filter file that it shows.

Usage: manual.py PROGRAM

The port is another one than 8118, and a server on this machine stands for the net. What can't be had is skipped with the reason. Says
which command failed, and ends with 1 then.
"""
import http.server
import os
import re
import shutil
import signal
import subprocess
import sys
import tempfile

from origins import Server, free_port, wait_for

HERE = os.path.dirname(os.path.abspath(__file__))
TOP = os.path.join(HERE, "..")
MANUAL = os.path.join(TOP, "docs", "MANUAL.md")
BLOCK = re.compile(r"^```(\w*)\n(.*?)^```$", re.MULTILINE | re.DOTALL)
PAGE = b"<html><head><title>x</title></head><body>cheap flights</body></html>"
# A list of hosts, and where the manual has one.
HOSTS, LISTS = b"0.0.0.0 tracker.list.example\n", "https://lists.example/"


class Net(http.server.BaseHTTPRequestHandler):
    """Answers each request, whatever its host."""

    def do_GET(self):
        body, kind = (HOSTS, "text/plain") if self.path == "/hosts" else (PAGE, "text/html")
        self.send_response(200)
        self.send_header("Content-Type", kind)
        self.send_header("Content-Length", str(len(body)))
        self.end_headers()
        self.wfile.write(body)

    do_HEAD = do_GET

    def log_message(self, *_):
        pass


class Sandbox:
    """A folder like the top of the repository, a home, and the program on the PATH."""

    def __init__(self, folder, program, net):
        self.top, self.home, self.net, self.port, self.proxy, self.serves = (
            os.path.join(folder, "top"),
            os.path.join(folder, "home"),
            net,
            free_port(),
            None,
            None,
        )
        os.makedirs(self.home)
        os.makedirs(os.path.join(folder, "bin"))
        shutil.copytree(os.path.join(TOP, "conf"), os.path.join(self.top, "conf"))
        for name in ("tools", ".ci"):
            os.symlink(os.path.realpath(os.path.join(TOP, name)), os.path.join(self.top, name))
        for name in (
            os.path.join(self.top, "helmthread"),
            os.path.join(folder, "bin", "helmthread"),
        ):
            os.symlink(program, name)
        main = os.path.join(self.top, "conf", "config")
        with open(main, encoding="utf-8") as file:
            text = file.read()
        with open(main, "w", encoding="utf-8") as file:
            file.write(text.replace("8118", str(self.port)) + "\nforward / 127.0.0.1:%d\n" % net)
        with open(os.path.join(self.top, "LIST"), "w", encoding="utf-8") as file:
            file.write("0.0.0.0 ads.list.example\n")
        self.env = {
            **os.environ,
            "HOME": self.home,
            "PATH": os.path.join(folder, "bin") + ":" + os.environ["PATH"],
        }
        for name in (
            "http_proxy",
            "https_proxy",
            "HTTP_PROXY",
            "HTTPS_PROXY",
            "no_proxy",
            "NO_PROXY",
        ):
            self.env.pop(name, None)

    def run(self, block):
        """Runs one block, line by line; gives what went wrong, or None. The proxy is started anew before each line that asks it."""
        block = block.replace("8118", str(self.port)).replace(LISTS, "http://127.0.0.1:%d/" % self.net)
        folder = (
            self.top if re.search(r"conf/|tools/|~/", block) else os.path.join(self.top, "conf")
        )
        for text in block.strip().splitlines():
            failed = None
            if " serve " in text:
                self.serves = (text, folder)
                failed = self.serve()
            else:
                failed = self.serve() if "curl " in text else None
                failed = failed or self.line(text, folder)
            if failed:
                return text + "\n" + failed
        return None

    def line(self, text, folder):
        ran = subprocess.run(
            ["bash", "-euo", "pipefail", "-c", text],
            cwd=folder,
            env=self.env,
            capture_output=True,
            text=True,
            timeout=600,
        )
        return (
            None
            if ran.returncode == 0
            else "status %d\n%s%s" % (ran.returncode, ran.stdout[-500:], ran.stderr[-500:])
        )

    def serve(self):
        """Starts the proxy that the last such command names, anew."""
        self.stop()
        if self.serves is None:
            return "no proxy was started before"
        text, folder = self.serves
        self.proxy = subprocess.Popen(
            ["bash", "-c", "exec " + text],
            cwd=folder,
            env=self.env,
            stdout=subprocess.DEVNULL,
            stderr=subprocess.DEVNULL,
        )
        if wait_for(self.port, self.proxy):
            return None
        return "it doesn't listen, or has ended: %s" % self.proxy.poll()

    def stop(self):
        if self.proxy is not None:
            self.proxy.send_signal(signal.SIGKILL)
            self.proxy.wait()
            self.proxy = None

    def load(self, text):
        """Loads a piece of an actions file or a filter file; gives what went wrong, or None."""
        with tempfile.TemporaryDirectory() as folder:
            shutil.copytree(os.path.join(self.top, "conf"), os.path.join(folder, "conf"))
            to = os.path.join(
                folder,
                "conf",
                "user.filter" if "FILTER:" in text or "TAGGER:" in text else "user.action",
            )
            keep = "" if text.startswith("{{alias}}") else open(to, encoding="utf-8").read()
            with open(to, "w", encoding="utf-8") as file:
                file.write(keep + "\n" + text)
            ran = subprocess.run(
                ["helmthread", "check", "config"],
                cwd=os.path.join(folder, "conf"),
                env=self.env,
                capture_output=True,
                text=True,
                timeout=600,
            )
        return (
            None
            if ran.returncode == 0 and ran.stdout.startswith("ok:")
            else ran.stdout + ran.stderr
        )


def privoxy_folder(work):
    """A folder with Debian's configuration, or None."""
    sys.path.insert(0, HERE)
    from from_privoxy import privoxy_files

    return os.path.join(work, "stock") if privoxy_files(work) else None


def pieces(text):
    """The rows of the table of lines that most people need, as pieces of an actions file."""
    table = text[text.index("### The lines that most people need") :].split("\n## ")[0]
    return [
        "%s\n%s\n" % pair
        for pair in re.findall(r"^\| [^|]+ \| `(\{.*\})`, `([^`]+)` \|$", table, re.MULTILINE)
    ]


def main():
    if len(sys.argv) != 2:
        print(__doc__.split("\n\n")[1], file=sys.stderr)
        return 2
    program = os.path.abspath(sys.argv[1])
    with open(MANUAL, encoding="utf-8") as file:
        text = file.read()
    failed, counts = [], [0, 0]
    net = Server(Net).start()
    with tempfile.TemporaryDirectory() as folder:
        os.chmod(folder, 0o755)
        sandbox = Sandbox(folder, program, net)
        blocks = BLOCK.findall(text)
        work = os.path.join(folder, "work")
        os.makedirs(work)
        for kind, block in blocks + [("", piece) for piece in pieces(text)]:
            if kind == "sh":
                if "/etc/privoxy" in block:
                    stock = privoxy_folder(work)
                    if stock is None:
                        print(
                            "manual.py: skipped, since Debian's package privoxy can't be had: "
                            + block.splitlines()[0]
                        )
                        continue
                    block = block.replace("/etc/privoxy", stock)
                counts[0] += 1
                wrong = sandbox.run(block)
            elif block.startswith(("{", "FILTER:", "CLIENT-HEADER-TAGGER:")):
                counts[1] += 1
                wrong = sandbox.load(block)
            else:
                continue
            if wrong:
                failed.append(block.splitlines()[0])
                print("manual.py: %s\n%s" % (block.rstrip(), wrong.rstrip()))
        for told in (
            "curl -s -x http://127.0.0.1:8118 http://www.travel.example/ | grep 'walks in the wood'",
            "curl -s -x http://127.0.0.1:8118 http://www.far.example/ | grep parent.example.net:3128",
        ):
            counts[0] += 1
            wrong = sandbox.run("helmthread serve ~/helmthread/config 64\n" + told)
            if wrong:
                failed.append(told)
                print("manual.py: what the manual tells of its tasks isn't so: " + wrong.rstrip())
        sandbox.stop()
    if counts[0] < 10 or counts[1] < 10:
        failed.append("too few are found")
        print("manual.py: only %d commands and %d pieces were found" % tuple(counts))
    print(
        "manual.py: %d blocks of commands and %d pieces of files, %s"
        % (*counts, "%d failed: %s" % (len(failed), "; ".join(failed)) if failed else "all as the manual says")
    )
    return 1 if failed else 0


if __name__ == "__main__":
    sys.exit(main())
