#!/usr/bin/env python3
"""Counts what a line of the log costs: the instructions of a GET over `serve` by callgrind, without `access-log 1` and with it.

Each figure is the difference of a run with 90 requests and one with 10, over one connection with shared links, by a worker.
Usage: docs/tools/log_cost.py PROGRAM
"""
import http.client
import http.server
import re
import socket
import subprocess
import sys
import tempfile
import threading
import time

FEW, MANY = 10, 90
BODY = b"x" * 4000


class Origin(http.server.BaseHTTPRequestHandler):
    protocol_version = "HTTP/1.1"

    def log_message(self, *words):
        pass

    def do_GET(self):
        self.send_response(200)
        self.send_header("Content-Type", "text/plain")
        self.send_header("Content-Length", str(len(BODY)))
        self.end_headers()
        self.wfile.write(BODY)


def free_port():
    with socket.create_server(("127.0.0.1", 0)) as listener:
        return listener.getsockname()[1]


def spent(program, main, origin, requests):
    """The instructions of a run that serves one connection with so many requests."""
    with tempfile.TemporaryDirectory() as folder:
        port = free_port()
        with open(folder + "/config", "w", encoding="utf-8") as file:
            file.write("listen-address 127.0.0.1:%d\nlink-reuse 1\n%s" % (port, main))
        words = ["valgrind", "--tool=callgrind", "--callgrind-out-file=" + folder + "/spent", program, "serve", folder + "/config", "1", "1"]
        with subprocess.Popen(words, stdout=subprocess.DEVNULL, stderr=subprocess.PIPE, text=True) as proxy:
            while True:
                client = http.client.HTTPConnection("127.0.0.1", port, timeout=60)
                try:
                    client.connect()
                    break
                except OSError:
                    time.sleep(0.1)
            for number in range(requests):
                client.request("GET", "http://127.0.0.1:%d/x%d" % (origin, number))
                client.getresponse().read()
            client.close()
            return int(re.search(r"Collected : (\d+)", proxy.stderr.read()).group(1))


def main():
    server = http.server.ThreadingHTTPServer(("127.0.0.1", 0), Origin)
    server.daemon_threads = True
    threading.Thread(target=server.serve_forever, daemon=True).start()
    program, origin = sys.argv[1], server.server_address[1]
    for name, line in (("without a log", ""), ("with `access-log 1`", "access-log 1\n")):
        few, many = (spent(program, line, origin, requests) for requests in (FEW, MANY))
        print("a GET over `serve`, %s: %d instructions" % (name, round((many - few) / (MANY - FEW))))


main()
