"""What the commands `replay`, `trace` and `diff` write, their status, and what they say on standard error."""
import time
from collections import Counter
from configuration import Configuration
from feed import answers
from object_text import Refused, read
from rules import GOOD, Rules
from steps import World


def parted(data, mark):
    """What stands before the first line that is the mark, and what stands after it."""
    if data.startswith(mark + b"\n") or data == mark:
        return b"", data[len(mark) + 1:]
    before, found, after = data.partition(b"\n" + mark + b"\n")
    if not found and data.endswith(b"\n" + mark):
        return data[: -len(mark)], b""
    return (before + b"\n", after) if found else (data, b"")


def replay(data, choices=()):
    objects, feed = parted(data, b"%events")
    try:
        configuration = Configuration(read(objects, "text" in choices), choices)
    except Refused as refusal:
        return 1, [], str(refusal)
    rules, status = Rules(configuration), 0
    for number, event, fault in answers(configuration, feed):
        if fault:
            rules.lines.append(f"R;{number};{fault}")
            status = 1 if fault == "Cut" else status
        else:
            rules.take(*event)
    return status, rules.lines, ""


def trace(data, deciders, queue, tries, standbys, choices=()):
    objects, rest = parted(data, b"%events")
    feed, steps = parted(rest, b"%steps")
    configuration = Configuration(read(objects, "text" in choices), choices)
    given = list(answers(configuration, feed))
    lines = [f"R;{number};{fault}" for number, _, fault in given if fault]
    world = World(configuration, [event for _, event, fault in given if not fault], deciders, queue, tries, standbys)
    for number, line in enumerate(steps.removesuffix(b"\n").split(b"\n") if steps else [], 1):
        why = world.do(line.decode("utf-8", "surrogateescape"))
        if why:
            lines.append(f"E;{number};{why}")
    return lines + list(world.lines())


class Told:
    """What a configuration gives of a feed, line by line, and what its contacts were told."""

    def __init__(self, configuration):
        self.configuration, self.rules = configuration, Rules(configuration)
        self.pages, self.night, self.silence, self.last = Counter(), Counter(), Counter(), {}

    def take(self, event):
        """The N lines of an event."""
        since = len(self.rules.lines)
        self.rules.take(*event)
        lines = [line for line in self.rules.lines[since:] if line.startswith("N;")]
        for line in lines:
            self.count(*line.split(";"))
        if event[1] == "STATE" and event[3] in GOOD:
            name = self.configuration.objects[event[2]].name
            self.last = {key: moment for key, moment in self.last.items() if key[0] != name}
        return lines

    def count(self, _letter, _event, moment, name, kind, _state, _number, contact, _command):
        self.pages[contact] += 1
        self.night[contact] += not 7 <= time.localtime(int(moment)).tm_hour < 22
        if kind in ("PROBLEM", "RECOVERY"):
            before = self.last.get((name, contact), int(moment))
            self.silence[contact] = max(self.silence[contact], int(moment) - before)
            self.last[name, contact] = int(moment)


def without(lines, others):
    """The lines beyond those of others that tell of the same object, to the same contact, by the same command."""
    def keys(of):
        return [tuple(line.split(";")[at] for at in (3, 7, 8)) for line in of]
    taken, left = Counter(keys(others)), []
    for key, line in zip(keys(lines), lines):
        if taken[key]:
            taken[key] -= 1
        else:
            left.append(line)
    return left


def diff(before, after, feed):
    sides = []
    for name, objects in (("objects", before), ("with", after)):
        try:
            sides.append(Told(Configuration(read(objects))))
        except Refused as refusal:
            return 1, [], str(refusal).replace("objects", name, 1)
    status, lines, answered = 0, [], [answers(one.configuration, feed) for one in sides]
    for given in zip(*answered, strict=True):
        each = [[] if fault else side.take(event) for side, (_, event, fault) in zip(sides, given)]
        status = 1 if any(fault == "Cut" for _, _, fault in given) else status
        lines += [f"-{line[1:]}" for line in without(each[0], each[1])] + [f"+{line[1:]}" for line in without(each[1], each[0])]
    names = [person.name for person in sides[0].configuration.people]
    names += [person.name for person in sides[1].configuration.people if person.name not in names]
    for name in names:
        lines.append(";".join(["P", name, *(str(told[name]) for what in ("pages", "night", "silence") for told in (getattr(side, what) for side in sides))]))
    return status, lines, ""
