#!/usr/bin/env python3
"""Counts what the program spends: instructions (valgrind's callgrind), allocations (memcheck) and time. docs/SPEED.md has the figures.

Each count but that of `check` of conf/, which is a whole run, is a difference of two runs of `pass` or `check` that differ in the
number of one thing, so that what a start costs drops out. Only the program's own instructions are counted, so they are the same on
each machine.

It prints the table of docs/SPEED.md, with its day, as it stands there.

Run: docs/tools/speed.py PROGRAM     PROGRAM: crates/px_main/out/px_main
"""
import os
import re
import subprocess
import sys
import tempfile
import time
from pathlib import Path

ROOT = os.path.dirname(os.path.dirname(os.path.dirname(os.path.abspath(__file__))))
FIELDS = """Host: www.example.com
User-Agent: Mozilla/5.0 (X11; Linux x86_64; rv:140.0) Gecko/20100101 Firefox/140.0
Accept: text/html,application/xhtml+xml,application/xml;q=0.9,*/*;q=0.8
Accept-Language: en-US,en;q=0.5
Accept-Encoding: gzip, deflate
Referer: http://www.example.net/page
Connection: keep-alive
Cookie: session=0123456789abcdef
Upgrade-Insecure-Requests: 1
Pragma: no-cache
Cache-Control: no-cache""".splitlines()
PLAIN = b"HTTP/1.1 200 OK\r\nContent-Type: application/json\r\nContent-Length: 100\r\nServer: x\r\n\r\n" + b"a" * 100


def run(program, words, given, tool):
    """What valgrind says of a run."""
    call = ["valgrind", *tool, program, *words]
    ran = subprocess.run(call, input=given, stdout=subprocess.PIPE, stderr=subprocess.PIPE)
    if ran.returncode:
        sys.exit(f"{words} ended with {ran.returncode}: {ran.stderr.decode()[-500:]}")
    return ran.stderr.decode()


def instructions(program, words, given=b""):
    said = run(program, words, given, ["--tool=callgrind", "--callgrind-out-file=/dev/null"])
    return int(re.search(r"Collected : (\d+)", said)[1])


def allocations(program, words, given=b""):
    said = run(program, words, given, ["--tool=memcheck"])
    return int(re.search(r"total heap usage: ([\d,]+) allocs", said)[1].replace(",", ""))


def with_own_links(folder):
    """The main file of conf/, but that each request makes a link of its own: here an entry of ORIGIN has one answer."""
    conf = os.path.join(ROOT, "conf")
    text = Path(conf, "config").read_text(encoding="utf-8")
    main = Path(folder, "main")
    main.write_text(f"{text}\nconfdir {conf}\nlink-reuse 0\n", encoding="utf-8")
    return str(main)


def session(folder, requests, answer=PLAIN, more=0, config=None):
    """The words of `pass` and its input: so many requests on one connection, each with so many fields more; under conf/ where no
    configuration is given."""
    origin = os.path.join(folder, "origin")
    with open(origin, "wb") as file:
        file.write((b"%d\n" % len(answer) + answer) * requests)
    fields = [*FIELDS, *(f"X-Field-{number}: a value of some length" for number in range(more))]
    heads = ("\r\n".join([f"GET http://www.example.com/page/{number} HTTP/1.1", *fields, "", ""]) for number in range(requests))
    return ["pass", config or with_own_links(folder), origin, os.path.join(folder, "sent")], "".join(heads).encode()


def chunked(many):
    chunk = b"64\r\n" + b"a" * 100 + b"\r\n"
    return b"HTTP/1.1 200 OK\r\nContent-Type: application/json\r\nTransfer-Encoding: chunked\r\n\r\n" + chunk * many + b"0\r\n\r\n"


def page(size):
    line = b"<p>A line of a page, with a <a href=\"/x\">link</a> and no picture.</p>\n"
    text = (line * (size // len(line) + 1))[:size]
    return b"HTTP/1.1 200 OK\r\nContent-Type: text/html\r\nContent-Length: %d\r\n\r\n" % len(text) + text


def configuration(folder, hosts, expressions=0):
    """A configuration that blocks so many hosts, and those that so many host expressions fit."""
    config = os.path.join(folder, "config")
    with open(config, "w") as file:
        file.write("actionsfile many.action\npattern-limit 40000\n")
    with open(os.path.join(folder, "many.action"), "w") as file:
        file.write("{+block{ads}}\n" + "".join(f".host{number}.example\n" for number in range(hosts)))
        file.write("".join(f"PCRE-HOST-PATTERN:(ad|track)[0-9]*{number}\\.example\n" for number in range(expressions)))
    return config


def patterns(folder, many):
    return ["check", configuration(folder, many)]


def under(program, folder, hosts, expressions):
    """The instructions of a GET that no pattern of such a configuration fits."""
    config = configuration(folder, hosts, expressions)
    few, many = (instructions(program, *session(folder, count, config=config)) for count in (10, 90))
    return (many - few) / 80


def seconds(program, words):
    begun = time.monotonic()
    subprocess.run([program, *words], stdout=subprocess.DEVNULL, check=True)
    return time.monotonic() - begun


def each(count, one, other, step):
    return (count(*other) - count(*one)) / step


def least(program, words):
    """The milliseconds of the fastest of five runs."""
    return 1000 * min(seconds(program, words) for _ in range(5))


def rows(program, folder):
    """What is measured, each with its figure."""
    counted = lambda *given: instructions(program, *session(folder, *given))
    allocated = lambda *given: allocations(program, *session(folder, *given))
    check = lambda many: instructions(program, patterns(folder, many))
    gets = [each(count, (10,), (90,), 80) for count in (counted, allocated)]
    yield "a GET with eleven fields under conf/", "{:,.0f} instructions, {:.1f} allocations".format(*gets)
    yield "a field more", f"{each(counted, (50, PLAIN, 0), (50, PLAIN, 20), 50 * 20):,.0f} instructions"
    yield "a chunk of 100 bytes", f"{each(counted, (1, chunked(1000)), (1, chunked(3000)), 2000):,.0f} instructions"
    yield "a byte of a page that conf/ filters", f"{each(counted, (1, page(20000)), (1, page(60000)), 40000):.1f} instructions"
    empty, hosts, both = (under(program, folder, *given) for given in ((0, 0), (20000, 0), (20000, 100)))
    yield "a GET that nothing fits, under an empty configuration", f"{empty:,.0f} instructions"
    yield "the same beside 20,000 host patterns", f"{hosts - empty:,.0f} instructions more"
    yield "for each host expression beside these", f"{(both - hosts) / 100:,.0f} instructions more"
    yield "a host pattern, loaded", f"{(check(20000) - check(1000)) / 19000:,.0f} instructions"
    conf = instructions(program, ["check", os.path.join(ROOT, "conf", "config")])
    yield "`check` of conf/", f"{conf / 1e6:.1f} million instructions"
    for many in (20000, 40000):
        yield f"`check` of {many:,} host patterns", f"{least(program, patterns(folder, many)):.0f} ms"


def main():
    program = os.path.abspath(sys.argv[1])
    print(f"Measured on {time.strftime('%Y-%m-%d')}:\n\n| What | How much |\n|---|---|")
    with tempfile.TemporaryDirectory() as folder:
        for what, figure in rows(program, folder):
            print(f"| {what} | {figure} |", flush=True)


if __name__ == "__main__":
    main()
