"""What the linter says of sections, aliases and their words. It is a part of `linting.Linter`."""

import re

from . import tables
from .nearness import near
from .letters import is_alnum

BLOCKS = ("alias", "settings", "description")
VALUES = {
    "field": "a field line as `X-Note: hello`, of no field that belongs to a connection",
    "text": "a text",
    "ports": "ports as `443,8000-8100`",
    "minutes": "minutes in digits, at most 100000000",
    "parent": "`forward HOST:PORT` or `forward .`",
}


class ActionLints:
    """Actions files."""

    def actions_file(self, number, name):
        self.aliases, block, seen_alias, seen_section = {}, None, False, False
        lines = self.place(number, name, "actionsfile") or []
        for line, after in zip(lines, [*lines[1:], None]):
            if line.text.startswith("{{"):
                block = line.text.strip("{} \t").lower()
                self.block(name, line, block, seen_alias, seen_section)
                seen_alias = seen_alias or block == "alias"
            elif line.text.startswith("{"):
                block, seen_section = "section", True
                self.section(name, line, after)
            elif block == "alias":
                self.alias(name, line)
            elif block == "section":
                self.patterns += 1
                if self.patterns > self.most_patterns and not self.too_many:
                    self.too_many = (name, line.number)
                self.pattern(name, line)
            elif block is None:
                guess = (
                    " Actions stand in braces: {%s}" % line.text if line.text[:1] in "+-" else ""
                )
                self.say(
                    name,
                    line.number,
                    line.text[:40],
                    "it stands before the first section",
                    "{+block{Why}} in a line above." + guess,
                )

    def block(self, name, line, block, seen_alias, seen_section):
        if block not in BLOCKS:
            self.say(
                name,
                line.number,
                line.text,
                "there is no such block",
                "{{%s}}" % (near(block, BLOCKS, 0.5) or "alias"),
            )
        elif block == "alias" and seen_alias:
            self.say(
                name, line.number, line.text, "a second alias block", "One block, with all aliases"
            )
        elif block == "alias" and seen_section:
            self.say(
                name,
                line.number,
                line.text,
                "the alias block stands behind a section",
                "The block before the first section",
            )

    def alias(self, name, line):
        word, equals, rest = line.text.partition("=")
        word = word.strip(" \t")
        if not equals or not word or re.search(r"[ \t{}]", word):
            self.say(
                name,
                line.number,
                line.text[:40],
                "an alias is NAME = ACTIONS, and its name has no space",
                "my-name = +block{Why}",
            )
            return
        if word.lower() in self.aliases:
            above = "an alias of this name stands above, in line %d" % self.aliases[word.lower()]
            self.say(name, line.number, word, above, "Another name")
        self.words(name, line, rest)
        self.aliases.setdefault(word.lower(), line.number)

    def section(self, name, line, after):
        end = tables.heading_end(line.text)
        if (name, line.number) in self.cut:
            self.cut.add((name, line.number + 1))
        elif end < 0:
            raw = " ".join(line.raw)
            if re.search(r"\{[^}]*(?<!\\)#", raw):
                self.say(
                    name, line.number, "#", "a # begins a comment, so the brace isn't closed", "\\#"
                )
            else:
                self.say(
                    name,
                    line.number,
                    line.text[:60],
                    "a brace isn't closed",
                    line.text + "}" * (line.text.count("{") - line.text.count("}")),
                )
        elif end != len(line.text) - 1:
            rest = line.text[end + 1 :].strip(" \t")
            self.say(
                name,
                line.number,
                rest,
                "something stands behind the section's last brace",
                "It in a line of its own",
            )
        else:
            self.words(name, line, line.text[1:-1])
            self.without_pattern(name, line, after)

    def without_pattern(self, name, line, after):
        """A section without a pattern. Where a comment stands right below it, its patterns are
        out of use on purpose."""
        below = line.number + len(line.raw)
        has_none = after is None or after.text.startswith("{")
        if has_none and (name, below) not in self.comments:
            self.say(
                name,
                line.number,
                line.text[:60],
                "the section has no pattern, so it does nothing",
                "A pattern in the line below, as .example.com, or / for all pages",
            )

    def words(self, name, line, text):
        """The words of a section or an alias."""
        words, put, at = tables.words_of(text), {}, 0
        while at < len(words):
            word, after = words[at], words[at + 1] if at + 1 < len(words) else ""
            at += 1
            if word.lower() in self.aliases:
                continue
            number = self.line_of(line, word)
            if self.word(name, number, word, after):
                at += 1
                continue
            sign, key, value = tables.parted(word)
            key = "hide-referrer" if key.lower() == "hide-referer" else key.lower()
            shape = tables.ACTIONS.get(key, (None,))[0]
            if (
                sign == "+"
                and shape == tables.SINGLE
                and key in put
                and put[key] != value
                and key.startswith("crunch")
            ):
                self.say(
                    name,
                    number,
                    word,
                    "it replaces the one before, since %s has one value" % key,
                    "A header filter for the second",
                )
            if sign == "-" and value is None and shape == tables.LIST and key in put:
                self.say(
                    name,
                    number,
                    word,
                    "it takes out what stands before it in the braces",
                    "{%s ..}, first" % word,
                )
            if sign == "+":
                put[key] = value

    def line_of(self, line, word):
        """The physical line on which a word of a heading stands."""
        return next(
            (line.number + at for at, raw in enumerate(line.raw) if word in raw), line.number
        )

    def word(self, name, number, word, after):
        """Whether the next word belongs to this one, with a complaint where it does."""
        sign, key, value = tables.parted(word)
        low = "hide-referrer" if key.lower() == "hide-referer" else key.lower()
        if not sign:
            if low in tables.ACTIONS:
                self.say(name, number, word, "the + or - is missing", "+" + word)
            else:
                guess = near(low, [*tables.ACTIONS, *self.aliases])
                known = "; aliases hold in their own file alone" if not guess else ""
                self.say(
                    name,
                    number,
                    word,
                    "no alias of this file, and no action" + known,
                    guess
                    if guess in self.aliases
                    else "+" + guess
                    if guess
                    else "An action with + or -",
                )
            return False
        if low not in tables.ACTIONS:
            guess = near(low, tables.ACTIONS) or near(low, list(self.aliases))
            self.say(
                name,
                number,
                word,
                "there is no such action",
                (sign if guess in tables.ACTIONS else "")
                + guess
                + ("{%s}" % value if value is not None else "")
                if guess
                else "One of chapter 7 of the manual",
            )
            return False
        shape, rule = tables.ACTIONS[low]
        if shape == tables.FLAG or sign == "-" and shape == tables.SINGLE:
            if value is not None:
                self.say(name, number, word, "%s takes no value there" % key, sign + key)
        elif sign == "+" and value is None:
            return self.value_wanted(name, number, word, key, rule, after)
        elif sign == "+":
            self.value(name, number, word, low, rule, value)
        elif low in tables.FILTER_ACTIONS and value is not None:
            self.filter_name(name, number, word, low, value)
        return False

    def value_wanted(self, name, number, word, key, rule, after):
        follows = bool(after) and after[0] not in "+-{" and after.lower() not in self.aliases
        example = (
            after
            if follows
            else {"any": "Why it is blocked", "ports": "443", "minutes": "60"}.get(
                rule, rule[0] if isinstance(rule, tuple) else "VALUE"
            )
        )
        self.say(name, number, word, "it needs a value in braces", "+%s{%s}" % (key, example))
        return follows

    def value(self, name, number, word, key, rule, value):
        if not tables.value_is_allowed(key, value):
            if isinstance(rule, tuple):
                guess = near(value, rule, 0.5) or rule[0]
                self.say(
                    name,
                    number,
                    word,
                    "its values are " + ", ".join(rule),
                    "+%s{%s}" % (key, guess),
                )
            else:
                digits = re.match(r"\d+", value)
                write = {
                    "ports": "+%s{443}" % key,
                    "minutes": "+%s{%s}" % (key, digits[0] if digits else "60"),
                    "parent": self.other_way(key, value),
                    "field": "+%s{X-Note: hello}" % key,
                }.get(rule, "+%s{VALUE}" % key)
                self.say(
                    name, number, word, "its value is %s" % VALUES.get(rule, "another one"), write
                )
        elif key in tables.FILTER_ACTIONS:
            self.filter_name(name, number, word, key, value)
        elif key == "redirect":
            self.redirect(name, number, word, value)
        elif key == "set-image-blocker" and value in ("blank", "pattern"):
            if self.templates:
                self.no_templates(0)
        elif key in tables.FIXED_WORDS and value not in tables.FIXED_WORDS[key]:
            self.fixed_word(name, number, word, key, value)

    def other_way(self, key, value):
        """What to write in place of a value that says which way requests go."""
        words = value.split()
        if words[:1] and words[0] in tables.SOCKS5:
            line = "`%s PATTERN %s`" % (words[0], " ".join(words[1:]))
            return "A line %s in %s for each pattern of the section" % (line, self.main)
        return "+%s{forward HOST:PORT}" % key

    def fixed_word(self, name, number, word, key, value):
        """A value beside those that mean something of their own."""
        guess = near(value, tables.FIXED_WORDS[key], 0.6)
        if key == "set-image-blocker" and not re.match("https?://", value):
            self.say(
                name,
                number,
                word,
                "it is blank, pattern, or an address that begins with http://",
                "+%s{%s}" % (key, guess or "pattern"),
            )
        elif guess:
            self.say(
                name,
                number,
                word,
                "`%s` would be sent to servers as it stands" % value,
                "+%s{%s}" % (key, guess),
            )
        elif key == "hide-referrer" and not re.match("https?://", value):
            self.say(
                name,
                number,
                word,
                "`%s` would be sent to servers as the referrer" % value,
                "+%s{%s}, or an address" % (key, tables.FIXED_WORDS[key][0]),
            )

    def redirect(self, name, number, word, value):
        if (
            len(value) > 2
            and value[0] == "s"
            and not is_alnum(value[1])
            and value[1] not in " \t\\"
        ):
            self.job(name, number, value)
        elif not re.match("https?://|/", value):
            self.say(
                name,
                number,
                word,
                "it leads to a place on the same server, since it doesn't begin with http://",
                "+redirect{http://%s}" % value,
            )

    def filter_name(self, name, number, word, key, value):
        kind = tables.FILTER_ACTIONS[key]
        if value in self.filters.get(kind, ()):
            return
        other = next(
            (
                action
                for action, k in tables.FILTER_ACTIONS.items()
                if value in self.filters.get(k, ())
            ),
            None,
        )
        if other:
            self.say(
                name,
                number,
                word,
                "the filter %s is of another kind" % value,
                "%s%s{%s}" % (word[0], other, value),
            )
            return
        guess = near(value, list(self.filters.get(kind, ())), 0.6)
        files = (
            ", ".join(file for _, file in self.named["filterfile"])
            or "no filterfile is named in " + self.main
        )
        self.say(
            name,
            number,
            word,
            "no filter has this name (looked in: %s)" % files,
            "%s%s{%s}" % (word[0], key, guess)
            if guess
            else "The name of a filter, or a line `filterfile` in " + self.main,
        )
