#!/usr/bin/env python3
"""Runs the built program with its standard streams over pipes that are cut after each byte, closed early, and full.

The adapters over standard input, output and error tell no bytes to the proofs, so they are tried here. Usage: pipes.py PROGRAM..
"""
import os
import subprocess
import sys
import tempfile
import threading
import time

REQUEST = b"GET http://a.test/x HTTP/1.1\r\nHost: a.test\r\n\r\n"
ANSWER = b"HTTP/1.1 200 OK\nContent-Length: 2\n\nhi"
REPLY = b"HTTP/1.1 200 OK\r\nContent-Length: 2\r\nConnection: keep-alive\r\n\r\nhi"
SENT = b"GET /x HTTP/1.1\r\nHost: a.test\r\nConnection: close\r\n\r\n"
LARGE = bytes(range(256)) * 4096

failures = []


def entry(answer):
    """An entry of the file ORIGIN."""
    return b"%d\n" % len(answer) + answer


def large_answer():
    head = b"HTTP/1.1 200 OK\r\nContent-Length: %d\r\n" % len(LARGE)
    return entry(head + b"\r\n" + LARGE), head + b"Connection: keep-alive\r\n\r\n" + LARGE


def feed(stream, data, size):
    """Writes the data in pieces of that size, and closes."""
    try:
        for at in range(0, len(data), size):
            os.write(stream, data[at : at + size])
    except BrokenPipeError:
        pass
    os.close(stream)


def drain(stream, size, wait):
    """Reads to the end in pieces of at most that size, the first after so many seconds."""
    time.sleep(wait)
    got = b""
    while piece := os.read(stream, size):
        got += piece
    os.close(stream)
    return got


class Run:
    """One run of the program in a folder of its own."""

    def __init__(self, program, origin=entry(ANSWER), config=b""):
        self.program = program
        self.folder = tempfile.TemporaryDirectory(prefix="helmthread-pipes-")
        if config is not None:
            self.put("config", config)
        if origin is not None:
            self.put("origin", origin)

    def path(self, name):
        return os.path.join(self.folder.name, name)

    def put(self, name, data):
        with open(self.path(name), "wb") as file:
            file.write(data)

    def start(self, words, stdin, stdout, stderr):
        return subprocess.Popen([self.program, *words], cwd=self.folder.name, stdin=stdin, stdout=stdout, stderr=stderr)

    def through_pipes(self, data=REQUEST, write=65536, read=65536, wait=0.0, words=("pass", "config", "origin", "sent")):
        """Gives the status and what was written to standard output, with both streams over pipes."""
        in_read, in_write = os.pipe()
        out_read, out_write = os.pipe()
        process = self.start(words, in_read, out_write, subprocess.DEVNULL)
        os.close(in_read)
        os.close(out_write)
        writer = threading.Thread(target=feed, args=(in_write, data, write))
        writer.start()
        got = drain(out_read, read, wait)
        writer.join()
        return process.wait(timeout=600), got

    def sent(self):
        try:
            with open(self.path("sent"), "rb") as file:
                return file.read()
        except FileNotFoundError:
            return None


def expect(what, got, wanted):
    if got != wanted:
        failures.append(what)
        short = lambda it: it if len(repr(it)) < 300 else repr(it)[:300] + " .."
        print(f"pipes: {what}: got {short(got)}, wanted {short(wanted)}")


def sent_file(text):
    return b"a.test:80 %d\n" % len(text) + text


def try_cuts(program):
    """The streams are cut after each byte, and the input is closed after each byte."""
    run = Run(program)
    expect("bytes one by one", (run.through_pipes(write=1, read=1), run.sent()), ((0, REPLY), sent_file(SENT)))
    for count in range(len(REQUEST)):
        run = Run(program)
        expect(f"input closed after {count} bytes", (run.through_pipes(data=REQUEST[:count]), run.sent()), ((0, b""), b""))


def try_full(program):
    """A pipe that is full, since it isn't read for a while, loses nothing."""
    origin, reply = large_answer()
    run = Run(program, origin)
    expect("a full pipe", run.through_pipes(wait=0.5, read=4096), (0, reply))


def try_closed(program):
    """An output that is closed early, or takes nothing, is status 4, and so is an error output that takes nothing."""
    origin, _ = large_answer()
    for name, source in (("a small answer", entry(ANSWER)), ("a large answer", origin)):
        run = Run(program, source)
        out_read, out_write = os.pipe()
        os.close(out_read)
        process = run.start(("pass", "config", "origin", "sent"), subprocess.PIPE, out_write, subprocess.DEVNULL)
        os.close(out_write)
        process.communicate(REQUEST, timeout=600)
        expect(f"an output closed before {name}", (process.returncode, run.sent()), (4, sent_file(SENT)))
    run = Run(program)
    with open("/dev/full", "wb") as full:
        process = run.start(("pass", "config", "origin", "sent"), subprocess.PIPE, full, subprocess.DEVNULL)
        process.communicate(REQUEST, timeout=600)
    expect("an output that takes nothing", (process.returncode, run.sent()), (4, sent_file(SENT)))
    run = Run(program, config=None)
    with open("/dev/full", "wb") as full:
        process = run.start(("pass", "config", "origin", "sent"), subprocess.DEVNULL, subprocess.DEVNULL, full)
    expect("an error output that takes nothing", process.wait(timeout=600), 4)


def try_faults(program):
    """An input, a file that is read, and a file that is put, each of which fails."""
    run = Run(program)
    at = os.open(run.folder.name, os.O_RDONLY)
    process = run.start(("pass", "config", "origin", "sent"), at, subprocess.PIPE, subprocess.DEVNULL)
    got, _ = process.communicate(timeout=600)
    os.close(at)
    expect("an input that can't be read", (process.returncode, got, run.sent()), (3, b"", b""))
    run = Run(program, origin=None)
    os.mkdir(run.path("origin"))
    expect("an ORIGIN that can't be read", run.through_pipes(), (3, b""))
    run = Run(program)
    expect("a SENT that can't be put", run.through_pipes(words=("pass", "config", "origin", "none/sent")), (4, REPLY))


def main():
    for program in map(os.path.abspath, sys.argv[1:]):
        for attempt in (try_cuts, try_full, try_closed, try_faults):
            attempt(program)
    print(f"pipes: {len(sys.argv) - 1} programs, {len(failures)} failed" + "".join("\nfailed: " + it for it in failures))
    return 1 if failures else 0


if __name__ == "__main__":
    sys.exit(main())
