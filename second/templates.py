"""What a block has for a directive, by itself or by its templates, and how values are read."""
import re

BLANKS = " \t"
MOST_OF_A_NUMBER = 1_000_000
DAYS = "sunday monday tuesday wednesday thursday friday saturday".split()
MONTHS = "january february march april may june july august september october november december".split()
STATES = {"host": {"d": "down", "u": "unreachable"}, "service": {"w": "warning", "u": "unknown", "c": "critical"}}
OTHERS = {"r": "recovery", "f": "flapping", "s": "downtime"}
ALL_LETTERS = set("duwcrfs")


def entries_of(value):
    return [entry.strip(BLANKS) for entry in value.split(",") if entry.strip(BLANKS)]


def number_in(value):
    """The number that a value is, if it is one."""
    is_number = re.fullmatch("[0-9]+", value) and int(value) <= MOST_OF_A_NUMBER
    return int(value) if is_number else None


def letters_in(value, words):
    """The letters of a list in which `words` may stand: none of them where it has `n`; `a` is answered as it is."""
    found = set()
    for part in filter(None, re.split("[, \t]+", value)):
        letters = [letter for letter, word in words.items() if part in (letter, word)]
        if part in ("n", "none"):
            found.add("n")
        elif part in ("a", "all"):
            found.add("a")
        elif letters:
            found.update(letters)
        else:
            return None
    return set() if "n" in found else found


def options_in(value, kind, of_escalation=False):
    """The option letters of a list, or none where it has a part that isn't one."""
    others = {"r": "recovery"} if of_escalation else OTHERS
    found = letters_in(value, STATES[kind] | others)
    return ALL_LETTERS if found and "a" in found else found


def criteria_in(value, kind):
    """The states of failure criteria, or none where they have a part that isn't one."""
    names = STATES[kind] | {"o": "up" if kind == "host" else "ok", "p": "pending"}
    found = letters_in(value, names)
    if found is None:
        return None
    return {names[letter].upper() for letter in (names if "a" in found else found)}


def ranges_in(value):
    """The seconds of a day line, from the first of each two on and before the second; or none where it isn't ranges."""
    found = []
    for part in value.split(","):
        clock = re.fullmatch("([0-9]{1,2}):([0-9]{2})-([0-9]{1,2}):([0-9]{2})", part)
        if not clock:
            return None
        hour, minute, last_hour, last_minute = map(int, clock.groups())
        start, end = hour * 3600 + minute * 60, last_hour * 3600 + last_minute * 60
        if max(minute, last_minute) > 59 or start > end or end > 86_400:
            return None
        found.append((start, end))
    return found


def is_dated(name):
    words = name.split(" ")
    return name[0] in "0123456789" or words[0] in ["day", *MONTHS] or words[0] in DAYS and len(words) > 1


def in_bounds(number, most, from_end=False):
    """The number, or none where it is out of bounds."""
    return number if 1 <= (abs(number) if from_end else number) <= most else None


def rule_in(name):
    """What the name of a dated line says: its class and its numbers; an empty rule, where it has a number that nothing has; none, where it
    says something else."""
    date = re.fullmatch("([0-9]{4})-([0-9]{1,2})-([0-9]{1,2})", name)
    if date:
        year, month, day = map(int, date.groups())
        return (1, year, month, day) if in_bounds(month, 12) and in_bounds(day, 31) else ()
    words = name.split(" ")
    if len(words) not in (2, 3) or not re.fullmatch("-?[0-9]+", words[1]):
        return None
    number = int(words[1])
    if len(words) == 2 and words[0] in ["day", *MONTHS]:
        if not in_bounds(number, 31, True):
            return ()
        return (3, number) if words[0] == "day" else (2, MONTHS.index(words[0]) + 1, number)
    if words[0] not in DAYS or len(words) == 3 and words[2] not in MONTHS:
        return None
    if not in_bounds(number, 5, True):
        return ()
    weekday = DAYS.index(words[0])
    return (5, weekday, number) if len(words) == 2 else (4, weekday, number, MONTHS.index(words[2]) + 1)


class Site:
    """All blocks of a text that mean something, by their places."""

    def __init__(self, blocks):
        self.blocks = [block for block in blocks if not block.type.endswith("extinfo")]
        self.templates = {}
        for place, block in enumerate(self.blocks):
            name = self.own(place, "name")
            if name is not None:
                self.templates.setdefault((block.type, name), place)

    def own(self, place, name):
        """What the block itself gives: the last of that name."""
        given = [it.value for it in self.blocks[place].directives if it.name == name]
        return given[-1] if given else None

    def uses(self, place):
        """The templates that the block uses, each by its type and name."""
        used = self.own(place, "use")
        return [] if used is None else [(self.blocks[place].type, name) for name in entries_of(used)]

    def above(self, place):
        return [self.templates[use] for use in self.uses(place) if use in self.templates]

    def first_above(self, place, ask):
        """What `ask` finds of the first template of which it finds something."""
        return next((found for found in map(ask, self.above(place)) if found is not None), None)

    def line(self, place, name):
        """The line of the directive that gives what the block has: its own, or that of a template; none where nothing gives it."""
        lines = [it.line for it in self.blocks[place].directives if it.name == name]
        return lines[-1] if lines else self.first_above(place, lambda other: self.line(other, name))

    def value(self, place, name):
        own = self.own(place, name)
        return own if own is not None else self.first_above(place, lambda other: self.value(other, name))

    def list(self, place, name):
        """The entries of a list, or none where nothing gives it."""
        own = self.own(place, name)
        if own == "null":
            return []
        if own is not None and not own.startswith("+"):
            return entries_of(own)
        inherited = self.first_above(place, lambda other: self.list(other, name))
        return inherited if own is None else (inherited or []) + entries_of(own[1:])

    def days(self, place):
        """The lines of a time period, by their names: what the block gives, and then what its templates do."""
        found = {it.name: it for it in self.blocks[place].directives}
        for other in self.above(place):
            found = self.days(other) | found
        return found

    def is_registered(self, place):
        register = self.own(place, "register")
        return register is None or number_in(register) != 0

    def is_on_template_loop(self, place):
        waiting, found = self.above(place), set()
        while waiting:
            other = waiting.pop()
            if other not in found:
                found.add(other)
                waiting += self.above(other)
        return place in found
