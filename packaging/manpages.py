"""Makes man pages: one of the manual's chapter on the commands, and one of a script's help."""
import importlib.machinery
import importlib.util
import os
import re
import sys

SYNOPSIS = [
    r"\fBhelmthread serve\fR \fICONFIG\fR [\fIWORKERS\fR [\fICONNECTIONS\fR]]",
    r"\fBhelmthread check\fR \fICONFIG\fR",
    r"\fBhelmthread show\fR \fICONFIG\fR \fIURL\fR [\fITAG\fR]...",
    r"\fBhelmthread pass\fR \fICONFIG\fR \fIORIGIN\fR \fISENT\fR [\fITAG\fR]...",
    r"\fBhelmthread exercise\fR \fIN\fR",
]
FILES = [
    ("/etc/helmthread/config", "the main file, which names the others"),
    ("/etc/helmthread/user.action", "what you want otherwise"),
    ("/etc/helmthread/user.filter", "filters of your own"),
    ("/etc/helmthread/lists", "from where helmthread-update-lists fetches lists of hosts"),
    ("/etc/helmthread/templates", "the pages that the proxy itself answers with"),
]


def plain(text):
    """A text as roff has it."""
    text = text.replace("\\", "\\e").replace("-", "\\-")
    return "\n".join("\\&" + line if line[:1] in (".", "'") else line for line in text.split("\n"))


def inline(text):
    """A paragraph: code and strong words become bold, links their words."""
    text = re.sub(r"\[([^\]]*)\]\([^)]*\)", r"\1", text)
    out = []
    for at, part in enumerate(re.split(r"`([^`]*)`", text)):
        if at % 2:
            out.append("\\fB%s\\fR" % plain(part).replace("\\&", ""))
        else:
            out.append(re.sub(r"\*\*([^*]*)\*\*", r"\\fB\1\\fR", plain(part).replace("\\&", "")))
    joined = "".join(out)
    return "\\&" + joined if joined[:1] in (".", "'") else joined


def body(text):
    """A piece of the manual."""
    out, lines, at = [], text.strip("\n").split("\n"), 0
    while at < len(lines):
        line = lines[at]
        if line.startswith("```"):
            end = lines.index("```", at + 1)
            out += (
                [".PP", ".RS 4", ".nf"] + [plain(it) for it in lines[at + 1 : end]] + [".fi", ".RE"]
            )
            at = end
        elif line.startswith("|"):
            rows = []
            while at < len(lines) and lines[at].startswith("|"):
                rows.append(
                    [
                        cell.strip().replace("\\|", "|")
                        for cell in re.split(r"(?<!\\)\|", lines[at].strip())[1:-1]
                    ]
                )
                at += 1
            for row in rows[2:]:
                out += [".TP", inline(row[0]), inline(". ".join(cell for cell in row[1:] if cell))]
            continue
        elif re.match(r"(-|\d+\.) ", line):
            out += [".IP \\(bu 2", inline(re.sub(r"^(-|\d+\.) ", "", line))]
        elif line:
            out += [".PP", inline(line)]
        at += 1
    return out


def head(name, section, version, said):
    return [
        '.TH %s %d 2026 "Helmthread %s" "Helmthread"' % (name.upper(), section, version),
        ".SH NAME",
        "%s \\- %s" % (plain(name), plain(said)),
    ]


def of_manual(manual, version):
    """The page helmthread(8): chapter 11, with the exit statuses."""
    chapter = manual[manual.index("\n## 11. ") : manual.index("\n## 12. ")]
    parts = re.split(r"^### (.*)$", chapter, flags=re.MULTILINE)
    sections = dict(zip(parts[1::2], parts[2::2]))
    out = head("helmthread", 8, version, "filtering proxy for http") + [".SH SYNOPSIS"]
    for line in SYNOPSIS:
        out += [line, ".br"]
    out += [
        ".SH DESCRIPTION",
        "It stands between a browser and the net, and does with requests and pages what its configuration says. "
        "/usr/share/doc/helmthread/MANUAL.md.gz is the whole manual.",
    ]
    for name in ("serve", "check", "show", "pass", "exercise"):
        out += [".SH " + name.upper()] + body(sections[name])
    out += [".SH EXIT STATUS"] + body(sections["Exit statuses"]) + [".SH FILES"]
    for name, said in FILES:
        out += [".TP", plain(name), plain(said)]
    return (
        "\n".join(
            out
            + [
                ".SH SEE ALSO",
                "helmthread\\-lint(1), helmthread\\-from\\-privoxy(1), helmthread\\-from\\-hosts(1), "
                "helmthread\\-update\\-lists(1)",
            ]
        )
        + "\n"
    )


def of_script(path, version):
    """A page of section 1 of a script's own help."""
    loader = importlib.machinery.SourceFileLoader("script", path)
    module = importlib.util.module_from_spec(importlib.util.spec_from_loader("script", loader))
    sys.dont_write_bytecode = True
    loader.exec_module(module)
    first, usage, *rest = module.__doc__.strip("\n").split("\n\n")
    name = os.path.basename(path)
    said = " ".join(first.split()).rstrip(".")
    out = head(name, 1, version, said[0].lower() + said[1:]) + [
        ".SH SYNOPSIS",
        plain(usage.replace("usage: ", "")),
        ".SH DESCRIPTION",
    ]
    for part in rest:
        out += (
            [".PP", ".nf", plain(part), ".fi"]
            if part.startswith("  ")
            else [".PP", plain(part.replace("\n", " "))]
        )
    return "\n".join(out + [".SH SEE ALSO", "helmthread(8)"]) + "\n"
