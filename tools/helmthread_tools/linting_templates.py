"""What the linter says of templates. It is a part of `linting.Linter`."""
import os

from . import tables
from .lines import physical


class TemplateLints:
    """Templates of pages."""

    def pages(self):
        """All pages of the templates folder that are there."""
        for name in tables.PAGES:
            lines = self.page_lines(name)
            self.page("\n".join(line for _, _, line in lines), lines)
            for place in lines:
                self.tag_links(*place)

    def tag_links(self, name, number, text):
        """The links of a line that put a tag on which the main file doesn't declare."""
        for tag in tables.linked_tags(text):
            if tag not in self.tags:
                self.say(
                    name,
                    number,
                    tables.tag_link("on", tag),
                    "%s declares no such tag, so the link leads to `no such page`" % self.main,
                    "Take the link away, or write client-specific-tag %s What it is for" % tag,
                )

    def template(self, name):
        """The lines of a template that count, each with its file and number; of lines that begin
        with # the ones that include another file."""
        path = os.path.join(self.pages_folder, name)
        if "/" in name or not os.path.isfile(path):
            return []
        with open(path, "rb") as file:
            lines = enumerate(physical(file.read()), 1)
        shown = os.path.join(os.path.basename(self.pages_folder), name)
        kept = ((shown, number, line) for number, line in lines)
        return [it for it in kept if not it[2].startswith("#") or it[2].startswith("#include ")]

    def page_lines(self, name):
        out = []
        for it in self.template(name):
            if it[2].startswith("#"):
                included = self.template(it[2][len("#include ") :].strip())
                out += [line for line in included if not line[2].startswith("#")]
            else:
                out.append(it)
        return out

    def page(self, text, lines):
        """One page. A block goes to the first end behind its start."""
        at = 0
        while True:
            starts = {text.find("@if-%s-start" % it, at): it for it in tables.CONDITIONS}
            starts.pop(-1, None)
            if not starts:
                return
            start = min(starts)
            begins, ends = ("@if-%s-start" % starts[start], "if-%s-end@" % starts[start])
            end = text.find(ends, start + len(begins))
            if end < 0:
                name, number, _ = lines[text.count("\n", 0, start)]
                what = "the block isn't ended; `check` refuses it (28)"
                self.say(name, number, begins, what, ends + " behind what it holds")
                return
            at = end + len(ends)
