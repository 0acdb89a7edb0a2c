#!/usr/bin/env python3
"""Opens .ci/browser/front.html in Chromium through the built program with conf/, and looks at what became of the page.

Usage: browser.py PROGRAM

Skipped, with the reason, where Chromium can't be had, and where the program serves one connection after another, since a browser opens
several. Says what failed, and ends with 1 then.
"""
import http.server
import os
import re
import shutil
import socket
import subprocess
import sys
import tempfile

from origins import Server, free_port, wait_for

HERE = os.path.dirname(os.path.abspath(__file__))
CONF = os.path.join(HERE, "..", "conf")
# What the page holds behind the proxy, and what it doesn't.
THERE = [
    "<title>The Daily Thread (no window was opened)</title>",
    "<!-- tiny image taken out --><!-- tiny image taken out -->",
    '<a href="/next">',
    "/img/banner.png",
    "/gallery/ad.jpg",
]
GONE = ["<title>The Daily Thread (a window was opened)", "ping=", "/t.gif", "/s.gif"]
# The blocked page in a frame of an advertisement's size: all is hidden but the heading and the reason.
FRAME = re.compile(r"@media \(max-height: 20rem\) .*main > :not\(h1, dl\) \{ display: none \}")


class Net(http.server.BaseHTTPRequestHandler):
    asked = []

    def do_GET(self):
        Net.asked.append(self.path)
        front = self.path.rstrip("/").endswith("dailythread.example")
        data = (
            open(os.path.join(HERE, "browser", "front.html"), "rb").read()
            if front
            else b"nothing here"
        )
        self.send_response(200 if front else 404)
        self.send_header("Content-Type", "text/html")
        self.send_header("Content-Length", str(len(data)))
        self.end_headers()
        self.wfile.write(data)

    def log_message(self, *_):
        pass


def is_served_side_by_side(port):
    """Whether a second connection is answered while a first one says nothing."""
    with socket.create_connection(("127.0.0.1", port), 5), socket.create_connection(
        ("127.0.0.1", port), 5
    ) as second:
        # (one that waits for the first is served when that has said nothing for 15 seconds)
        second.settimeout(10)
        second.sendall(b"GET http://ads.example.net/ HTTP/1.1\r\nConnection: close\r\n\r\n")
        try:
            return second.recv(12) == b"HTTP/1.1 403"
        except OSError:
            return False


def start(program, folder, net):
    """The program over a copy of conf/, and its port."""
    port = free_port()
    conf = os.path.join(folder, "conf")
    shutil.copytree(CONF, conf)
    with open(os.path.join(conf, "config"), encoding="utf-8") as file:
        text = file.read()
    with open(os.path.join(conf, "config"), "w", encoding="utf-8") as file:
        file.write(
            text.replace("listen-address 127.0.0.1:8118", "listen-address 127.0.0.1:%d" % port)
            + "\nforward / 127.0.0.1:%d\n" % net
        )
    with open(os.path.join(conf, "user.action"), "a", encoding="utf-8") as file:
        file.write("\n{+filter{quiet-windows}}\n/\n")
    proxy = subprocess.Popen(
        [program, "serve", os.path.join(conf, "config"), "64"], stderr=subprocess.DEVNULL
    )
    wait_for(port, proxy)
    return proxy, port


def main():
    if len(sys.argv) != 2:
        print(__doc__.split("\n\n")[1], file=sys.stderr)
        return 2
    browser = shutil.which("chromium")
    if not browser:
        print("browser.py: skipped, since Chromium can't be had")
        return 0
    failed = []
    net = Server(Net).start()
    with tempfile.TemporaryDirectory() as folder:
        proxy, port = start(os.path.abspath(sys.argv[1]), folder, net)
        try:
            if not is_served_side_by_side(port):
                print("browser.py: skipped, since the program serves one connection after another")
                return 0
            words = [
                "--headless=new",
                "--no-sandbox",
                "--disable-gpu",
                "--user-data-dir=" + folder + "/u",
                "--proxy-server=127.0.0.1:%d" % port,
                "--virtual-time-budget=8000",
                "--dump-dom",
                "http://www.dailythread.example/",
            ]
            page = subprocess.run(
                [browser, *words], capture_output=True, text=True, timeout=600
            ).stdout
        finally:
            proxy.kill()
            proxy.wait()
    failed += ["%s isn't on the page" % text for text in THERE if text not in page]
    failed += ["%s is still on the page" % text for text in GONE if text in page]
    failed += [
        "%s was asked for" % path
        for path in Net.asked
        if "ads.example.net" in path or "google-analytics" in path or "pop.example" in path
    ]
    with open(os.path.join(CONF, "templates", "head"), encoding="utf-8") as file:
        if not FRAME.search(file.read()):
            failed.append("the blocked page isn't made for frames")
    for text in failed:
        print("browser.py: " + text)
    print(
        "browser.py: %d texts, %s"
        % (len(THERE) + len(GONE), "%d failed" % len(failed) if failed else "all as expected")
    )
    return 1 if failed else 0


if __name__ == "__main__":
    sys.exit(main())
