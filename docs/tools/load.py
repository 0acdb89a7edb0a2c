#!/usr/bin/env python3
"""Compares `serve` with Privoxy under load: processor time and system calls a request, and requests a second.

One origin (nginx, answers of 100 bytes), one client (wrk, keep-alive), and the two proxies one after the other, with 1, 8 and 64
connections; under an empty configuration and under conf/, which Privoxy reads too (with `keep-alive-timeout 5` as Debian has it), each
with links of their own and with shared ones (`link-reuse 1`; Privoxy's `connection-sharing 1`), which are also held against the others.
A count of a proxy is the difference over a run, of all its threads; system calls are counted by strace in a run of their own. What
is printed are figures of this machine, so compare the columns of one run alone.

Run: docs/tools/load.py PROGRAM [SECONDS]     PROGRAM: crates/px_main/out/px_main. It needs Debian's nginx-light, wrk, strace, privoxy.
"""
import os
import re
import shutil
import signal
import socket
import subprocess
import sys
import tempfile
import time
from pathlib import Path

ROOT = Path(__file__).resolve().parent.parent.parent
NEEDED = ("nginx", "wrk", "strace", "privoxy")
# The configurations with shared links, and the same without.
SHARED = {"shared": "empty", "conf-shared": "conf"}
TICKS = os.sysconf("SC_CLK_TCK")
NGINX = """worker_processes 1; daemon off; pid {folder}/nginx.pid; error_log /dev/null;
events {{ worker_connections 1024; }}
http {{ access_log off; keepalive_requests 1000000; client_body_temp_path {folder}/b; proxy_temp_path {folder}/p;
 fastcgi_temp_path {folder}/f; uwsgi_temp_path {folder}/u; scgi_temp_path {folder}/s; default_type application/json;
 server {{ listen 127.0.0.1:{port}; location / {{ return 200 "{body}"; }} }} }}
"""
SCRIPT = """request = function() return wrk.format("GET", "http://127.0.0.1:{port}/page/x", {{["Host"] = "127.0.0.1:{port}"}}) end
"""


def free_port():
    with socket.socket() as it:
        it.bind(("127.0.0.1", 0))
        return it.getsockname()[1]


def wait_for(port):
    for _ in range(100):
        try:
            socket.create_connection(("127.0.0.1", port), 1).close()
            return
        except OSError:
            time.sleep(0.1)
    sys.exit(f"nothing answers at port {port}")


def start(words, port, **more):
    it = subprocess.Popen(words, stdin=subprocess.DEVNULL, stdout=subprocess.DEVNULL, stderr=subprocess.DEVNULL, **more)
    wait_for(port)
    return it


def spent(process):
    """Seconds of the processor that a process and its threads took so far."""
    fields = Path(f"/proc/{process.pid}/stat").read_text().rsplit(")", 1)[1].split()
    return (int(fields[11]) + int(fields[12])) / TICKS


def load(folder, port, connections, seconds):
    """Requests that were answered with 200 in so many seconds."""
    words = ["wrk", "-t", "1", "-c", str(connections), "-d", f"{seconds}s", "-s", f"{folder}/wrk.lua", f"http://127.0.0.1:{port}"]
    said = subprocess.run(words, capture_output=True, text=True, check=True).stdout
    bad = re.search(r"Non-2xx or 3xx responses: (\d+)", said)
    return int(re.search(r"(\d+) requests in", said)[1]) - int(bad[1] if bad else 0)


def calls(folder, process, port, connections):
    """System calls a request."""
    to = f"{folder}/strace"
    tracer = subprocess.Popen(["strace", "-f", "-c", "-o", to, "-p", str(process.pid)], stderr=subprocess.DEVNULL)
    time.sleep(0.5)
    requests = load(folder, port, connections, 2)
    tracer.send_signal(signal.SIGINT)
    tracer.wait()
    total = [line.split() for line in Path(to).read_text().splitlines() if line.rstrip().endswith("total")]
    return int(total[0][3]) / max(requests, 1) if total else 0


def configured(folder, name, port, of_privoxy):
    """A configuration's main file: an empty one, or conf/; with shared links or without."""
    place = Path(folder) / f"{name}-{port}"
    if name.startswith("conf"):
        shutil.copytree(ROOT / "conf", place)
        text = (place / "config").read_text(encoding="utf-8")
        text = re.sub(r"(?m)^(listen-address|link-reuse) .*$", "", text)
    else:
        place.mkdir()
        text = ""
    if name in SHARED:
        text += "\nconnection-sharing 1\n" if of_privoxy else "\nlink-reuse 1\n"
    text += f"\nlisten-address 127.0.0.1:{port}\n"
    if of_privoxy:
        # (Privoxy looks for the files of the lines behind a folder's in that folder)
        text = f"confdir {place}\nlogdir {place}\n{text}keep-alive-timeout 5\ntolerate-pipelining 1\nmax-client-connections 512\n"
    (place / "config").write_text(text, encoding="utf-8")
    return str(place / "config")


def main():
    program, seconds = os.path.abspath(sys.argv[1]), int(sys.argv[2]) if len(sys.argv) > 2 else 5
    lost = [name for name in NEEDED if not shutil.which(name)]
    if lost:
        sys.exit(f"not here: {' '.join(lost)} (Debian's nginx-light, wrk, strace and privoxy)")
    with tempfile.TemporaryDirectory() as folder:
        os.chmod(folder, 0o755)
        origin = free_port()
        Path(folder, "nginx.conf").write_text(NGINX.format(folder=folder, port=origin, body="a" * 100))
        Path(folder, "wrk.lua").write_text(SCRIPT.format(port=origin))
        started = [start(["nginx", "-c", f"{folder}/nginx.conf"], origin)]
        try:
            print("configuration connections proxy: requests a second, processor microseconds and system calls a request")
            alone = {}
            for name in ("empty", "conf", *SHARED):
                proxies = {}
                for proxy in ("helmthread", "privoxy"):
                    port = free_port()
                    config = configured(folder, name, port, proxy == "privoxy")
                    words = [program, "serve", config, "64"] if proxy == "helmthread" else ["privoxy", "--no-daemon", config]
                    proxies[proxy] = (start(words, port), port)
                    started.append(proxies[proxy][0])
                for connections in (1, 8, 64):
                    told = {}
                    for proxy, (process, port) in proxies.items():
                        before = spent(process)
                        requests = load(folder, port, connections, seconds)
                        each = 1e6 * (spent(process) - before) / max(requests, 1)
                        told[proxy] = (requests / seconds, each, calls(folder, process, port, connections))
                        print(f"{name} {connections} {proxy}: {told[proxy][0]:.0f}, {told[proxy][1]:.1f}, {told[proxy][2]:.1f}", flush=True)
                    ours, theirs = told["helmthread"], told["privoxy"]
                    ratios = [mine / max(other, 1e-9) for mine, other in zip(ours, theirs)]
                    print(f"{name} {connections} ratio: {ratios[0]:.2f}, {ratios[1]:.2f}, {ratios[2]:.2f}", flush=True)
                    alone[name, connections] = ours
                    if name in SHARED:
                        base = SHARED[name]
                        ratios = [mine / max(other, 1e-9) for mine, other in zip(ours, alone[base, connections])]
                        print(f"{name} {connections} to {base}: {ratios[0]:.2f}, {ratios[1]:.2f}, {ratios[2]:.2f}", flush=True)
        finally:
            for process in reversed(started):
                process.terminate()
                process.wait()


if __name__ == "__main__":
    main()
