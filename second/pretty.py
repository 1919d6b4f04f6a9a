"""The lines of a report for people, without colours: what `replay --pretty` writes of the lines of a report, given the names of objects and contacts and how a moment is shown."""
from who import fields


def padded(text, width):
    return text + " " * (width - len(text))


def width(names):
    return min(40, max((len(name) for name in names), default=0))


class Page:
    """Writes lines, and keeps for each object the suppressions in a row."""

    def __init__(self, objects, contacts, local):
        self.objects, self.local, self.lines, self.rows = list(objects), local, [], {}
        self.object_width, self.contact_width = width(self.objects), width(contacts)

    def head(self, of):
        return "  ".join([self.local(int(of["moment"])), padded(of["object"], self.object_width), padded(of["kind"], 13), padded(of["state"], 11)])

    def end_row(self, name):
        row = self.rows.pop(name, [])
        if len(row) > 1:
            self.lines.append(f"{self.head(row[-1])}  stopped  {row[-1]['filter']}, {len(row) - 1} times more")

    def add(self, of):
        if of["letter"] == "R":
            self.lines.append(f"line {of['line']} of the feed: {of['fault']}")
            return
        row = self.rows.get(of["object"])
        if row and not (of["letter"] == "S" and all(of[name] == row[-1][name] for name in ("kind", "state", "filter"))):
            self.end_row(of["object"])
        if of["letter"] == "S":
            row = self.rows.setdefault(of["object"], [])
            row.append(of)
            if len(row) == 1:
                self.lines.append(f"{self.head(of)}  stopped  {of['filter']}")
            return
        what, last = ("told     ", of["command"]) if of["letter"] == "N" else ("refused  ", of["filter"])
        self.lines.append("  ".join([self.head(of), what + padded(of["number"], 2), padded(of["contact"], self.contact_width), last]))


def pretty(lines, objects, contacts, local):
    """The lines, of objects in number order."""
    page = Page(objects, contacts, local)
    for line in lines:
        page.add(fields(line))
    for name in page.objects:
        page.end_row(name)
    return "".join(f"{line}\n" for line in page.lines)
