#!/usr/bin/env python3
"""Converts jobs and small folders with tools/helmthread-from-privoxy, and compares with what was worked out by hand.

Usage: converted.py PROGRAM..   Each job that is made is loaded by the programs, too, and so are lists that are over a limit, and what the
manual's commands make for the service of the package. Says which row failed, and ends with 1 then.
"""
import os
import re
import shutil
import subprocess
import sys
import tempfile

HERE = os.path.dirname(os.path.abspath(__file__))
TOP = os.path.realpath(os.path.join(HERE, ".."))
SCRIPT = os.path.join(HERE, "..", "tools", "helmthread-from-privoxy")
sys.path.insert(0, os.path.join(HERE, "..", "tools"))
from helmthread_tools import jobs  # noqa: E402
from helmthread_tools.expressions import Unread  # noqa: E402

# The manual's commands for the service of the package, and the file that the service reads.
COMMANDS = re.compile(r"^```\n(sudo helmthread-from-privoxy .*?)^```$", re.M | re.S)
READS = re.compile(r"^ExecStartPre=/usr/bin/helmthread check (\S+)$", re.M)
NOBODY = 65534

PAGE, HEADER = True, False
# A job of Privoxy's, what it runs on, and the job that it becomes; None where it has no form.
JOBS = [
    (r"s/a/b/", PAGE, r"s/a/b/"),
    (r"s-</b>--i", PAGE, r"s-(?\-u)</b>--i"),
    (r"s/(f\()([" "\"'" r"]?)no\2/$1$2yes$2/iU", PAGE, r"s/(?-u)(f\()(?:no|(" + '"' + r")no" + '"' + r"|(')no')/$1$2$3yes$2$3/iU"),
    (r"s/(f\()([" "\"'" r"]?)no\2/$1$2yes$2/i", PAGE, r"s/(?-u)(f\()(?:(" + '"' + r")no" + '"' + r"|(')no'|no)/$1$2$3yes$2$3/i"),
    (r"s/x=(['" + '"' + r"])[^>\1\s]*\1/y/", PAGE, "s/(?-u)x=(?:\"[^>\\x01\\s]*\"|'[^>\\x01\\s]*')/y/"),
    (r"s/(a)\d/$1\40/", PAGE, r"s/(?-u)(a)\d/$140/"),
    (r"s/a\d/$1x/", PAGE, None),
    (r"s/a+/[$0]/i", PAGE, r"s/(?-u)a+/[$&]/i"),
    (r"s/a(?=\s)/b/", PAGE, r"s/(?-u)a(\s)/b$1/"),
    (r"s/(?<=,)a/b/", PAGE, r"s/(,)a/$1b/"),
    (r"s/(?<=\W)open\(/x/", PAGE, r"s/(?-u)\bopen\(/x/"),
    (r"s/x[01](?=\D)[^>]*\s/y/i", PAGE, r"s/(?-u)x[01](?:[^0-9>][^>]*)?\s/y/i"),
    (r"s/(?!a)b/x/", PAGE, r"s/b/x/"),
    (r"s/ab(?!cd)/x/", PAGE, r"s/(?-u)ab(\z|[^c]|c(?:\z|[^d]))/x$1/"),
    (r"s/foo$/bar/", PAGE, r"s/foo(\n?)$/bar$1/"),
    (r"s/foo$/bar/", HEADER, r"s/foo$/bar/"),
    (r"s/\<b\>/x/", PAGE, r"s/<b>/x/"),
    (r"s/a\h{/x/", PAGE, r"s/(?-u)a[\t \xA0]\{/x/"),
    (r"s/[a b] c/x/x", PAGE, r"s/(?-u)[a b]c/x/"),
    (r"s/\101\x2e\Qa.b\E/x/", PAGE, r"s/A\.a\.b/x/"),
    (r"s/a/\x41\t$/", PAGE, r"s/a/A\t\$/"),
    (r"s|a\|b|c|g", PAGE, r"s|a\|b|c|g"),
    (r"s/a++(?>b)/x/", PAGE, r"s/a+(?:b)/x/"),
    (r"s/a/b/gq  ", PAGE, r"s/a/b/g"),
    (r"s/([^<]*)=\1/x/", PAGE, None),
    (r"s/(?R)/x/", PAGE, None),
    (r"s/a/b", PAGE, None),
    ("s/\xe4/x/", PAGE, r"s/(?-u)\xE4/x/"),
]
FOLDER = {
    "config": "confdir /etc/privoxy\nactionsfile /etc/privoxy/my.action\nactionsfile gone.action\nfilterfile my.filter\n"
    "listen-address 0.0.0.0:8119\nlisten-address 192.168.1.2:8118\nforward-socks5t .onion 127.0.0.1:9050 .\nforward-socks4a .i2p 127.0.0.1:4447 .\n"
    "forward / me:secret@p.test:3128\nforward .near .\ntoggle on\nbuffer-limit 99999\ndebug 1\nlogfile l\n"
    "permit-access 192.168.1.0/24\ntrustfile trust\nenforce-blocks 0\naccept-intercepted-requests 0\nclient-specific-tag guest Of a guest\n"
    "templdir /etc/privoxy/own\nconnection-sharing 1\nforward .far/(?!x)y p.test\n",
    "my.action": "{{alias}}\nads = +block\n{ads}\n.a.test/x/(?!(?:.*/)?y)\n.b.test/z(?!w)\nhttp://c.test/\n{+hide-referrer{Block} "
    "-hide-user-agent{x} +limit-connect{0-443} +add-header{Host: x} +nonsense}\n/caf\xe9\n{+limit-connect{https}}\n.p.test\n",
    "my.filter": "FILTER: one Gr\xfc\xdfe\ns/a/b/\ns/(?R)/x/\nFILTER: one\ns/a/c/\n",
}
# Lines of the files that are made, and words of the report.
MADE = {
    "config": ["actionsfile from-privoxy.action", "actionsfile my.action", "actionsfile gone.action", "listen-address 127.0.0.1:8119",
               "#listen-address 192.168.1.2:8118", "forward-socks5t .onion 127.0.0.1:9050 .", "forward-socks4a .i2p 127.0.0.1:4447 .", "forward / me:secret@p.test:3128",
               "forward .near .", "toggle 1", "buffer-limit 16384", "#debug 1", "client-specific-tag guest Of a guest",
               "#templdir /etc/privoxy/own", "forward .far/y p.test"],
    "my.action": ["ads = +block{}", "{ads}", ".a.test/x/", "{-block}", ".a.test/x/(?:(?:.*/)?y)", r".b.test/z(?:\z|[^Ww])", "c.test/",
                  "{+hide-referrer{block} -hide-user-agent +limit-connect{-443}}", r"/caf\xE9"],
    "my.filter": ["FILTER: one Gr\u00fc\u00dfe", "s/a/b/", "#s/(?R)/x/", "#FILTER: one", "#s/a/c/"],
    "from-privoxy.action": ["{+prevent-compression}", "/"],
}
HEADS = ["First: who is served, and by which way", "One line a kind", "No longer does what it did", "Line by line"]
# Words that the report's first part has, and none of the others.
FIRST = ["config:3: `actionsfile gone.action` is kept", "`listen-address 0.0.0.0:8119` became 127.0.0.1:8119", "`listen-address 192.168.1.2:8118`",
         "`forward-socks4a .i2p 127.0.0.1:4447 .` is kept, and `check` refuses it (29): SOCKS4", "`forward / me:secret@p.test:3128` is kept",
         "`+limit-connect{https}`: a value that isn't taken here", "`permit-access 192.168.1.0/24` has no effect", "`trustfile trust` has no effect", "`client-specific-tag guest`: a start of `serve` begins without it; a client puts it on at http://p.p/client-tags/on?guest",
         "`templdir /etc/privoxy/own`: Helmthread's pages", "/old/templates: Helmthread's pages"]
# Lines of the second part, which is one line a kind, and words of the rest.
KINDS = ["1 filters: 0 the same, 1 nearly the same, 0 nothing left", "without effect: `debug`, `logfile` (there is no log)",
         "without effect: `accept-intercepted-requests` (requests that were led here without the browser's knowledge aren't served)"]
REST = ["filter one: nearly the same (1 of 2 jobs left out)", "line 3: `(?R` has no form here", "`+nonsense`: no such action", "a second filter one"]


def job_rows(fail):
    """The jobs; gives those that were made."""
    made = []
    for text, content, wanted in JOBS:
        try:
            got = [jobs.write_job(job) for job in jobs.convert(text, content).jobs]
        except Unread:
            got = [None]
        if got != [wanted]:
            fail(text, "became %s, and not %s" % (got[0], wanted))
        made += [job for job in got if job]
    return made


def put(folder, files):
    for name, text in files.items():
        with open(os.path.join(folder, name), "w", encoding="latin-1") as file:
            file.write(text)


def report_row(text, fail):
    """Whether the report has its four parts, and in each what belongs there."""
    places = [text.find(head) for head in HEADS]
    if places[0] != 0 or places != sorted(places):
        fail("the report", "its parts are missing, or stand otherwise\n" + text)
        return
    first, kinds, _, rest = (text[start:end] for start, end in zip(places, [*places[1:], None]))
    for words in FIRST:
        if words not in first or words in kinds + rest:
            fail("the report's first part", "it alone should have `%s`\n%s" % (words, text))
    for line in KINDS:
        if "  %s\n" % line not in kinds:
            fail("the report's kinds", "lack the line `%s`\n%s" % (line, kinds))
    if "link-reuse" not in kinds:
        fail("the report's kinds", "connection-sharing doesn't name link-reuse\n" + kinds)
    for words in REST:
        if words not in rest:
            fail("the report", "lacks `%s`\n%s" % (words, text))


def folder_row(folder, fail):
    """The folder, its files and its report."""
    old, new = os.path.join(folder, "old"), os.path.join(folder, "new")
    os.makedirs(os.path.join(old, "templates"))
    put(old, FOLDER)
    ran = subprocess.run([sys.executable, SCRIPT, old, new], capture_output=True, text=True, timeout=600)
    if ran.returncode:
        fail("the folder", ran.stderr)
        return
    for name, wanted in MADE.items():
        with open(os.path.join(new, name), encoding="utf-8") as file:
            lines = file.read().splitlines()
        for line in wanted:
            if line not in lines:
                fail("the folder's " + name, "lacks the line %s\n%s" % (line, "\n".join(lines)))
    with open(os.path.join(new, "my.action"), encoding="utf-8") as file:
        lines = file.read().splitlines()
    if lines.index(".a.test/x/") > lines.index(r".b.test/z(?:\z|[^Ww])"):
        fail("the folder", "the pair doesn't stand in front")
    report_row(ran.stdout, fail)
    again = subprocess.run([sys.executable, SCRIPT, old, new], capture_output=True, text=True, timeout=600)
    if again.returncode != 1 or "isn't empty" not in again.stderr:
        fail("a folder that is there", again.stderr)


def loaded(program, folder, made, fail):
    """Whether the program reads each job that was made."""
    with open(os.path.join(folder, "c"), "w", encoding="utf-8") as file:
        file.write("filterfile f\n")
    with open(os.path.join(folder, "f"), "w", encoding="utf-8") as file:
        file.write("FILTER: a\n" + "".join(job.replace("#", "\\#") + "\n" for job in made))
    ran = subprocess.run([program, "check", "c"], cwd=folder, capture_output=True, text=True, timeout=600)
    if ran.stdout != "ok: 0 action files, 0 sections, 0 patterns, 1 filter files, 1 filters\n":
        fail(program, ran.stdout + ran.stderr)


def converted(folder, files, fail, row):
    """The new folder of these files, the lines of its config, and the report's first part."""
    old, new = os.path.join(folder, row), os.path.join(folder, row + ".new")
    os.mkdir(old)
    put(old, files)
    ran = subprocess.run([sys.executable, SCRIPT, old, new], capture_output=True, text=True, timeout=600)
    if ran.returncode:
        fail(row, "status %d, %s" % (ran.returncode, ran.stderr))
        return None
    with open(os.path.join(new, "config"), encoding="utf-8") as file:
        return new, file.read().splitlines(), ran.stdout.partition(HEADS[1])[0]


def tags_row(folder, fail):
    """A way that hangs on a tag that clients put on, or that a tagger with a job left out makes."""
    files = {
        "config": "actionsfile t.action\nfilterfile t.filter\n",
        "t.filter": "CLIENT-HEADER-TAGGER: agents\ns/(?R)/$0/\nCLIENT-HEADER-TAGGER: whole\ns/a/b/\n",
        "t.action": "{+forward-override{forward 127.0.0.1:9}}\nTAG:^x$\nCLIENT-TAG:^tor$\n{+block{x}}\nTAG:^y$\nCLIENT-TAG:^z$\n",
    }
    made = converted(folder, files, fail, "tags")
    if not made:
        return
    for words in ("t.action:2: the way hangs on a tag, and jobs of taggers are left out (agents)", "t.action:3: `CLIENT-TAG:^tor$`: this way is taken only while a client"):
        if words not in made[2]:
            fail("tags", "the report's first part lacks `%s`\n%s" % (words, made[2]))
    if "t.action:5" in made[2] or "t.action:6" in made[2]:
        fail("tags", "the first part names what says no way\n" + made[2])


def links_row(folder, fail):
    """The blocked page has the link that puts a tag on where the main file declares it, and no such link elsewhere."""
    tag = "client-specific-tag untouched Of the page\n"
    for row, config, wanted in (("no tag", "client-specific-tag other Of none\n", 0), ("the tag", tag, 1)):
        made = converted(folder, {"config": config}, fail, row)
        if made:
            with open(os.path.join(made[0], "templates", "blocked"), encoding="utf-8") as file:
                found = file.read().count('href="http://p.p/client-tags/on?')
            if found != wanted:
                fail(row, "the page blocked has %d links that put a tag on" % found)


def hosts_file(many):
    """An actions file of so many hosts of 60 bytes below an alias, between two other sections."""
    hosts = "".join("h%06d.%s.test\n" % (at, "x" * 47) for at in range(many))
    return "{{alias}}\nads = +block{In the list.}\n{+prevent-compression}\n/\n{ \\\nads }\n%s{-block}\n.h000001.%s.test\n" % (hosts, "x" * 47)


def asked(program, folder, host):
    """Whether a host is blocked for the alias's reason, or what went wrong."""
    url = "http://%s/" % host
    ran = subprocess.run([program, "show", "config", url], cwd=folder, capture_output=True, text=True, timeout=600)
    return "+block{In the list.}" in ran.stdout if ran.returncode == 0 else ran.stderr


def limit_rows(folder, programs, fail):
    """Lists that are too long for a file, or for all patterns; files that can't be taken over."""
    config = "actionsfile hosts.action\nactionsfile last.action\n"
    last = {"last.action": "{+block{Last.}}\nlast.test\n"}
    many = converted(folder, {"config": config, "hosts.action": hosts_file(30000), **last}, fail, "a long list")
    too_many = converted(folder, {"config": config, "hosts.action": hosts_file(45000), **last}, fail, "too many patterns")
    broken = converted(folder, {"config": config, "hosts.action": "{+block{x}\n.a.test\n", **last}, fail, "a broken file")
    empty = converted(folder, {"config": "actionsfile\n" + config, **last}, fail, "a line without a name")
    seventeen = {"%d.action" % at: "{+block{x}}\n.a.test\n" for at in range(17)}
    files = converted(folder, {"config": "".join("actionsfile %s\n" % it for it in seventeen), **seventeen}, fail, "many files")
    if not (many and too_many and broken and empty and files):
        return
    named = [line.split()[1] for line in many[1] if line.startswith("actionsfile")]
    if named[:2] != ["from-privoxy.action", "hosts.action"] or len(named) < 4 or named[-1] != "last.action":
        fail("a long list", "its parts aren't named: %s" % named)
    if "pattern-limit 40000" not in many[1] or max(os.path.getsize(os.path.join(many[0], it)) for it in named) > 1048576:
        fail("a long list", "no pattern-limit, or a part is too long")
    if "patterns of its blocks aren't read" not in too_many[2]:
        fail("too many patterns", "the report's first part doesn't say it\n" + too_many[2])
    with open(os.path.join(too_many[0], "hosts.action.left-out"), encoding="utf-8") as file:
        left = [line.split(".")[0] for line in file if line.startswith("h0")]
    if left != ["h%06d" % at for at in range(45000 - 5004, 45000)]:
        fail("too many patterns", "not the last 5,004 hosts are left out: %s" % left[:1] + left[-1:])
    if "this file isn't taken over" not in broken[2] or "actionsfile last.action" not in broken[1]:
        fail("a broken file", "the report doesn't say first what is lost, or the rest isn't taken over\n" + broken[2])
    if "`check` refuses more than 16" not in files[2]:
        fail("many files", "the report's first part doesn't say it\n" + files[2])
    for program in programs:
        for row, made, patterns in (("a long list", many, 30004), ("too many patterns", too_many, 40000), ("a broken file", broken, 2)):
            ran = subprocess.run([program, "check", "config"], cwd=made[0], capture_output=True, text=True, timeout=600)
            if ran.returncode or " %d patterns," % patterns not in ran.stdout:
                fail(row, "check: " + ran.stdout + ran.stderr)
        for at, blocked in ((1, False), (29999, True)):
            host = "h%06d.%s.test" % (at, "x" * 47)
            if asked(program, many[0], host) is not blocked:
                fail("a long list", "%s: %s" % (host, asked(program, many[0], host)))


def text_of(*names):
    with open(os.path.join(TOP, *names), encoding="utf-8") as file:
        return file.read()


def without_rights():
    """Makes the present process one of a user who may read what all may read."""
    if os.getuid() == 0:
        os.setgid(NOBODY)
        os.setuid(NOBODY)


def service_row(folder, program, fail):
    """The manual's way from Privoxy's folder to the service of the package: the file that its unit reads for the instance px is there,
    and a user of no rights may load it, also where files are made for their owner alone."""
    old, etc, programs = (os.path.join(folder, it) for it in ("service", "etc", "bin"))
    for it in (old, etc, programs):
        os.makedirs(it, exist_ok=True)
    os.chmod(folder, 0o755)
    put(old, {"config": "confdir /etc/privoxy\nactionsfile u.action\n", "u.action": "{+block{x}}\n.a.test\n"})
    shutil.copy(program, os.path.join(programs, "helmthread"))
    os.chmod(os.path.join(programs, "helmthread"), 0o755)
    link = os.path.join(programs, "helmthread-from-privoxy")
    if not os.path.lexists(link):
        os.symlink(os.path.realpath(SCRIPT), link)
    found = COMMANDS.search(text_of("docs", "MANUAL.md"))
    unit = READS.search(text_of("packaging", "helmthread@.service"))
    if not found or not unit:
        fail("the service", "the manual has no commands for it, or the unit no file")
        return
    lines = [line.replace("sudo ", "") for line in found[1].splitlines() if "systemctl" not in line]
    told = "\n".join(lines).replace("/etc/privoxy", old).replace("/etc/helmthread", etc)
    paths = {**os.environ, "PATH": programs + ":" + os.environ["PATH"]}
    ran = subprocess.run(["bash", "-euc", "umask 077\n" + told], env=paths, capture_output=True, text=True, timeout=600)
    main = unit[1].replace("%i", "px").replace("/etc/helmthread", etc)
    words = [os.path.join(programs, "helmthread"), "check", main]
    checked = subprocess.run(words, cwd="/", preexec_fn=without_rights, capture_output=True, text=True, timeout=600)
    if ran.returncode or checked.returncode or not checked.stdout.startswith("ok: 2 action files"):
        fail("the service", "%s\n%s%s%s" % (told, ran.stderr, checked.stdout, checked.stderr))
    shutil.rmtree(etc)


def main():
    programs = [os.path.abspath(program) for program in sys.argv[1:]]
    if not programs:
        print(__doc__.split("\n\n")[1], file=sys.stderr)
        return 2
    failures = []

    def fail(row, text):
        failures.append(row)
        print("converted.py: %s: %s" % (row, text))

    with tempfile.TemporaryDirectory() as folder:
        made = job_rows(fail)
        folder_row(folder, fail)
        tags_row(folder, fail)
        links_row(folder, fail)
        limit_rows(folder, programs, fail)
        for program in programs:
            loaded(program, folder, made, fail)
            service_row(folder, program, fail)
    print("converted.py: %d jobs and some folders, %s" % (len(JOBS), "%d failed: %s" % (len(failures), "; ".join(failures)) if failures else "all as expected"))
    return 1 if failures else 0


if __name__ == "__main__":
    sys.exit(main())
