"""What the linter says of patterns. It is a part of `linting.Linter`."""

import re

from . import tables
from .scanning import scan


class PatternLints:
    """Patterns."""

    def pattern(self, name, line):
        text, number = line.text, line.number
        if (name, number) in self.cut:
            return
        word = next((it for it in tables.TAG_WORDS if text.startswith(it)), None)
        if word:
            unread = list(scan(text[len(word) :]))
            for part, what, write in unread:
                self.say(name, number, part, what + " isn't read", write)
            if word == tables.CLIENT_TAG and not unread:
                self.client_tag(name, number, text)
        elif re.match(r"(?i)(no-request-|no-response-|client-)?tag:", text):
            self.say(
                name,
                number,
                text.partition(":")[0] + ":",
                "these words stand in capitals",
                text.partition(":")[0].upper() + ":" + text.partition(":")[2],
            )
        elif text.startswith(tables.HOST_EXPRESSION):
            self.host_expression(name, number, text[len(tables.HOST_EXPRESSION) :])
        elif not self.adblock(name, line):
            self.url_pattern(name, number, text)

    def client_tag(self, name, number, text):
        """A pattern of a tag that no client of `serve` can put on."""
        expression = text[len(tables.CLIENT_TAG) :]
        try:
            finds = re.compile(expression, re.IGNORECASE).search
        except re.error:
            return
        if not any(map(finds, self.tags)):
            plain = re.fullmatch(r"\^?([\w-]+)\$?", expression)
            self.say(
                name,
                number,
                text,
                "%s declares no such tag, so no client of `serve` can put one on" % self.main,
                "client-specific-tag %s What it is for" % (plain[1] if plain else "NAME"),
            )

    def host_expression(self, name, number, text):
        host, _, path = text.partition("/")
        for part, what, write in [*scan(host), *scan(path)]:
            self.say(name, number, part, what + " isn't read", write)
        if host.startswith((" ", "\t")):
            self.say(
                name,
                number,
                text,
                "white space behind the word belongs to the expression",
                tables.HOST_EXPRESSION + text.lstrip(" \t"),
            )
        elif re.search(r":[\d,-]+$", host):
            self.say(
                name,
                number,
                text,
                "beside an expression for the host there is no port part",
                tables.HOST_EXPRESSION + re.sub(r":[\d,-]+($|/)", r"\1", text),
            )

    def adblock(self, name, line):
        """Whether the line is one of another kind of list, with a complaint where it is."""
        raw = line.raw[0].strip()
        host = re.match(r"(?:@@)?\|\|([^/^$|#*]+)", raw)
        if raw.startswith(("||", "@@", "|http")):
            section = "{-block}" if raw.startswith("@@") else "{+block{Why}}"
            self.say(
                name,
                line.number,
                raw,
                "this is a rule for Adblock",
                ".%s below %s; for whole lists there is helmthread-from-hosts"
                % (host[1] if host else "example.com", section),
            )
        elif (
            re.search(r"^[\w.,~-]*##?@?#?[.#\[\w]", raw) and "##" in raw and not raw.startswith("#")
        ):
            self.say(
                name,
                line.number,
                raw,
                "this is a rule for Adblock that hides a part of a page; here the whole host `%s` is meant"
                % line.text,
                "Nothing; take the line away, or write a filter",
            )
        elif raw.startswith("!"):
            self.say(name, line.number, raw, "a comment begins with #", "#" + raw[1:])
        elif re.match(r"(0\.0\.0\.0|127\.0\.0\.1|::1?)[ \t]+\S", raw):
            self.say(
                name,
                line.number,
                raw,
                "this is a line of a hosts file",
                "%s; for whole lists there is helmthread-from-hosts" % raw.split()[1],
            )
        else:
            return False
        return True

    def url_pattern(self, name, number, text):
        if re.match("(?i)https?://", text):
            self.say(
                name,
                number,
                text,
                "a pattern has no http:// in front",
                re.sub("(?i)^https?://", "", text),
            )
            return
        host, slash, path = text.partition("/")
        if re.search(r"\s", text):
            words = text.split()
            what = (
                "two patterns stand on one line"
                if all("." in word or "/" in word for word in words)
                else "a pattern has no space in it"
            )
            self.say(
                name, number, text, what, "Each in a line of its own: %s" % " and ".join(words[:2])
            )
            return
        if not self.host(name, number, host, slash + path):
            return
        for part, what, write in scan(path):
            self.say(name, number, part, what + " isn't read", write)
        if path.startswith("*"):
            self.say(
                name,
                number,
                text,
                "`/*` is any number of slashes; a path is an expression, where `.*` is any text",
                host + "/." + path,
            )
        elif re.search(r"\w\?\w+=", path):
            part = re.search(r"\w\?\w+=", path)[0]
            self.say(
                name,
                number,
                part,
                "`?` makes the letter before it optional",
                part.replace("?", "\\?"),
            )

    def host(self, name, number, host, rest):
        """Whether the host and the ports of a pattern are right."""
        if re.match(r"\[[0-9A-Fa-f.]*:[0-9A-Fa-f:.]*\]", host):
            self.say(
                name,
                number,
                host,
                "an IPv6 address stands in < and >",
                "<%s>%s" % (host.strip("[]"), rest),
            )
        elif host.count(":") > 1 and not host.startswith("<"):
            self.say(
                name, number, host, "an IPv6 address stands in < and >", "<%s>%s" % (host, rest)
            )
        elif host.startswith("<"):
            if not re.fullmatch(r"<[0-9A-Fa-f:.]+>(:.*)?", host):
                self.say(
                    name, number, host, "between < and > stands an address", "<2001:db8::1>" + rest
                )
        elif ":" in host and not tables.is_ports(host.partition(":")[2]):
            self.say(
                name,
                number,
                host,
                "behind the colon stands a list of ports",
                host.partition(":")[0] + ":80,8000-8100" + rest,
            )
        elif re.match(r"\*\.[^*]", host):
            self.say(
                name,
                number,
                host,
                "`*` stands for one label, so it matches neither %s nor a.b%s"
                % (host[2:], host[1:]),
                host[1:] + rest,
            )
        elif ".." in host:
            self.say(name, number, host, "two dots side by side", host.replace("..", ".") + rest)
        elif (
            host.count("[") != host.count("]")
            or "[]" in host
            or re.search(r"\[[^\]]*?([^\\])-([^\]])", host)
            and any(a > b for a, b in re.findall(r"([^\[])-([^\]])", host))
        ):
            self.say(
                name,
                number,
                host,
                "`[` and `]` hold the characters of one place",
                host.replace("[", "").replace("]", "") + rest,
            )
        elif host.endswith("^") or "$" in host or "|" in host:
            self.say(
                name,
                number,
                host,
                "this is a rule for Adblock",
                "." + re.split(r"[\^$|]", host.strip("|"))[0],
            )
        elif "," in host.partition(":")[0]:
            self.say(
                name, number, host, "one pattern stands on a line", "Each in a line of its own"
            )
        else:
            return True
        return False
