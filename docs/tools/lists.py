#!/usr/bin/env python3
"""Measures what a long list of hosts costs: time until it is loaded and memory, for the program and
for others that block by lists (squid's dstdomain, Privoxy's patterns, unbound, dnsmasq), and the
instructions of a lookup for the program (valgrind's callgrind).

Each is started with the list and with a list of one host, so that what the program itself takes
drops out of the differences. Time goes from the start to the first refusal of the list's last host,
as it passes and as the processor's; memory is what is resident then, and the most that was; of each
the least of some runs. A program that isn't here is left out, with a word of it; so is one that
takes more than LONGEST seconds.

It prints a table for docs/SPEED.md, with its day. Run it on a machine that does nothing else; where
there is none, the processor's time is what tells.

Run: docs/tools/lists.py [--hosts N] [--asked N] [--runs N] [PROGRAM]
     PROGRAM: crates/px_main/out/px_main; without it the others alone are measured.
     It needs Debian's squid, privoxy, unbound, dnsmasq-base and valgrind.
"""
import argparse
import contextlib
import os
import random
import shutil
import socket
import subprocess
import sys
import tempfile
import time
from pathlib import Path

sys.dont_write_bytecode = True
from speed import PLAIN, instructions

LONGEST = 600
TICKS = os.sysconf("SC_CLK_TCK")
# What of a DNS query for the address of a host stands before and behind its name, and the code of
# an answer that there is no such name.
QUERY_HEAD = b"\x12\x34\x01\x00\x00\x01\x00\x00\x00\x00\x00\x00"
QUERY_TAIL = b"\x00\x00\x01\x00\x01"
NO_NAME = 3
GET = b"GET http://%s/ HTTP/1.1\r\nHost: %s\r\n\r\n"
SQUID = """http_port 127.0.0.1:{port}
acl blocked dstdomain "{folder}/list"
http_access deny blocked
cache deny all
access_log none
cache_log {folder}/log
pid_filename none
coredump_dir {folder}
visible_hostname here
pinger_enable off
max_filedescriptors 1024
"""
PRIVOXY = """listen-address 127.0.0.1:{port}
confdir {folder}
templdir /etc/privoxy/templates
logdir {folder}
actionsfile list
"""
UNBOUND = """server:
 interface: 127.0.0.1
 port: {port}
 username: ""
 chroot: ""
 directory: "{folder}"
 pidfile: ""
 use-syslog: no
 logfile: "{folder}/log"
 num-threads: 1
 module-config: "iterator"
 include: "{folder}/list"
remote-control:
 control-enable: no
"""
DNSMASQ = """listen-address=127.0.0.1
bind-interfaces
port={port}
no-resolv
no-hosts
user=root
conf-file={folder}/list
"""
LINE = "host-list list It is on the list.\n"
OWN = "listen-address 127.0.0.1:{port}\n" + LINE


def by_http(port, host):
    """Whether a proxy refuses a host."""
    with socket.create_connection(("127.0.0.1", port), 10) as link:
        link.sendall(GET % (host, host))
        return link.recv(65536).split(b" ", 2)[1:2] == [b"403"]


def by_dns(port, host):
    """Whether a resolver says that there is no such host."""
    with socket.socket(socket.AF_INET, socket.SOCK_DGRAM) as link:
        link.settimeout(0.2)
        link.connect(("127.0.0.1", port))
        name = b"".join(bytes([len(label)]) + label for label in host.split(b"."))
        link.send(QUERY_HEAD + name + QUERY_TAIL)
        return link.recv(4096)[3] & 15 == NO_NAME


class NotMeasured(Exception):
    """A program that isn't measured, with the reason."""


class Blocker:
    """A program that blocks by a list: its configuration, a line of the list, its words, how a
    refusal is seen, and the list's first line."""

    def __init__(self, name, package, config, line, words, asks, head=b""):
        self.name, self.package, self.config, self.line = name, package, config, line
        self.words, self.asks, self.head = words, asks, head
        self.environment = {**os.environ, "PATH": os.environ["PATH"] + ":/usr/sbin"}

    def is_here(self):
        return shutil.which(self.words[0], path=self.environment["PATH"]) is not None

    def version(self):
        words = ["dpkg-query", "-W", "-f", "${Version}", self.package]
        said = subprocess.run(words, capture_output=True, text=True).stdout if self.package else ""
        return f"{self.name} {said}".strip()

    def measured(self, hosts):
        """Seconds until the list's last host is refused, and the processor's; and the kilobytes
        that are resident then, and were at most."""
        with tempfile.TemporaryDirectory() as folder:
            os.chmod(folder, 0o777)
            port = free_port()
            Path(folder, "config").write_text(self.config.format(folder=folder, port=port))
            lines = (self.line.replace(b"HOST", host) for host in hosts)
            Path(folder, "list").write_bytes(self.head + b"".join(lines))
            words = [it.format(folder=folder) for it in self.words]
            quiet = {"stdout": subprocess.DEVNULL, "stderr": subprocess.DEVNULL}
            began = time.monotonic()
            process = subprocess.Popen(words, env=self.environment, **quiet)
            try:
                self.wait(process, port, hosts[-1], began)
                return (time.monotonic() - began, spent(process.pid), *memory(process.pid))
            finally:
                process.kill()
                process.wait()

    def wait(self, process, port, host, began):
        """Waits until the host is refused."""
        while time.monotonic() < began + LONGEST:
            if process.poll() is not None:
                raise NotMeasured(f"it ended with {process.returncode}")
            with contextlib.suppress(OSError):
                if self.asks(port, host):
                    return
            time.sleep(0.002)
        raise NotMeasured(f"it takes more than {LONGEST} s")


def others():
    own = "{folder}/config"
    squid = ["squid", "-N", "-f", own]
    privoxy = ["privoxy", "--no-daemon", own]
    unbound = ["unbound", "-d", "-c", own]
    dnsmasq = ["dnsmasq", "-k", "-C", own]
    zone = b'local-zone: "HOST" always_nxdomain\n'
    return [
        Blocker("squid", "squid", SQUID, b".HOST\n", squid, by_http),
        Blocker("Privoxy", "privoxy", PRIVOXY, b".HOST\n", privoxy, by_http, b"{+block{ads}}\n"),
        Blocker("unbound", "unbound", UNBOUND, zone, unbound, by_dns),
        Blocker("dnsmasq", "dnsmasq-base", DNSMASQ, b"address=/HOST/\n", dnsmasq, by_dns),
    ]


def free_port():
    with socket.socket() as it:
        it.bind(("127.0.0.1", 0))
        return it.getsockname()[1]


def spent(number):
    """The processor's seconds of a process so far."""
    fields = Path(f"/proc/{number}/stat").read_text().rsplit(")", 1)[1].split()
    return (int(fields[11]) + int(fields[12])) / TICKS


def memory(number):
    """The kilobytes of a process that are resident, and the most that were."""
    lines = Path(f"/proc/{number}/status").read_text().splitlines()
    found = {name: value for name, _, value in (line.partition(":") for line in lines)}
    return tuple(int(found[name].split()[0]) for name in ("VmRSS", "VmHWM"))


def made_hosts(many):
    """So many hosts of three labels, none twice, in no order."""
    dice, hosts, sites = random.Random(3), {}, max(many // 8, 1)
    while len(hosts) < many:
        hosts[b"h%x.site%d.example" % (dice.getrandbits(24), dice.randrange(sites))] = True
    return list(hosts)


def differences(blocker, hosts, runs):
    """What the list takes more than a list of one host: the least of the runs."""
    full = [min(it) for it in zip(*(blocker.measured(hosts) for _ in range(runs)))]
    empty = [min(it) for it in zip(*(blocker.measured(hosts[-1:]) for _ in range(runs)))]
    return [more - less for more, less in zip(full, empty)]


def session(folder, hosts, names):
    """The words of `pass` over a list of these hosts, and its input: a request for each name."""
    origin, config = Path(folder, "origin"), Path(folder, "config")
    origin.write_bytes((b"%d\n" % len(PLAIN) + PLAIN) * len(names))
    config.write_text(LINE if hosts else "")
    Path(folder, "list").write_bytes(b"".join(b"%s\n" % host for host in hosts))
    words = ["pass", str(config), str(origin), os.path.join(folder, "sent")]
    return words, b"".join(GET % (name, name) for name in names)


def lookup(program, hosts, many):
    """The instructions by which a request costs more for a list on which its host isn't."""
    names, costs = [b"www.page%d.example" % number for number in range(many + 10)], []
    with tempfile.TemporaryDirectory() as folder:
        for listed in (hosts, []):
            few = instructions(program, *session(folder, listed, names[:10]))
            costs.append((instructions(program, *session(folder, listed, names)) - few) / many)
    return costs[0] - costs[1]


def row(name, found):
    load, processor, *sizes = found
    size, most = (1024 * kilobytes / 1e6 for kilobytes in sizes)
    told = f"{load:.2f} s | {processor:.2f} s | {size:.0f} MB | {most:.0f} MB"
    print(f"| {name} | {told} |", flush=True)


def measure(blocker, hosts, runs):
    """Prints the row of a program, or why there is none; gives the figures."""
    try:
        if not blocker.is_here():
            raise NotMeasured("it isn't here")
        found = differences(blocker, hosts, runs)
        row(blocker.version(), found)
        return found
    except NotMeasured as fault:
        print(f"| {blocker.version()} | {fault} | | | |", flush=True)
        return None


def main():
    plain = argparse.RawDescriptionHelpFormatter
    parser = argparse.ArgumentParser(description=__doc__, formatter_class=plain)
    parser.add_argument("--hosts", type=int, default=1000000)
    parser.add_argument("--asked", type=int, default=80)
    parser.add_argument("--runs", type=int, default=3)
    parser.add_argument("program", nargs="?", metavar="PROGRAM")
    chosen = parser.parse_args()
    hosts = made_hosts(chosen.hosts)
    length = sum(map(len, hosts)) / len(hosts)
    day = time.strftime("%Y-%m-%d")
    print(f"Measured on {day}; {len(hosts):,} made hosts of {length:.1f} bytes:\n")
    print("| Program | Load | Of the processor | Memory | Most memory |\n|---|---|---|---|---|")
    if chosen.program:
        words = [os.path.abspath(chosen.program), "serve", "{folder}/config", "8"]
        own = Blocker("Helmthread", "", OWN, b"HOST\n", words, by_http)
        found = measure(own, hosts, chosen.runs)
    for blocker in others():
        measure(blocker, hosts, chosen.runs)
    if chosen.program and found:
        cost = lookup(chosen.program, hosts, chosen.asked)
        beside = 1024 * found[2] / len(hosts) - length
        told = "Helmthread: %.1f bytes a host beside its text, and %s instructions a lookup."
        print("\n" + told % (beside, format(round(cost), ",")))


if __name__ == "__main__":
    main()
