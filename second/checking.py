"""All faults of the first pass that finds any: what `check` tells, from the rules and the formats alone."""
import re
from configuration import NAMES, NUMBERS, OTHER_LISTS, OWN_NAME, PERIODS, WITHOUT_ALL, Checked
from object_text import Refused, read
from templates import DAYS, Site, criteria_in, entries_of, is_dated, number_in, options_in, ranges_in, rule_in


class All(Checked):
    """The blocks, looked at without stopping at the first fault."""

    def look(self, places, fault_of):
        pass

    def holder(self, place, name):
        """The block that gives what the block has for the directive: itself, or the first template that has it."""
        if self.own(place, name) is not None:
            return place
        return self.first_above(place, lambda other: self.holder(other, name))

    def entries(self, place, name):
        """The entries of a list, each with the block that holds it and its number there."""
        own = self.own(place, name)
        if own is not None and not own.startswith("+"):
            return [(place, number, entry) for number, entry in enumerate([] if own == "null" else entries_of(own))]
        inherited = self.first_above(place, lambda other: None if self.holder(other, name) is None else self.entries(other, name))
        if own is None:
            return inherited or []
        return [(place, number, entry) for number, entry in enumerate(entries_of(own[1:]))] + (inherited or [])

    # ---- values

    def of_values(self):
        """Each fault with the block that holds the value and the block that has it."""
        for place in self.registered:
            yield from self.missing(place)
            kind = self.blocks[place].type
            for name in [*NUMBERS.get(kind, []), "register"]:
                yield from self.plain(place, name, "BadNumber", lambda value: value if number_in(value) is None else None)
            yield from self.bad_options(place)
            if kind == "timeperiod":
                yield from self.bad_days(place)
            if kind == "service":
                yield from self.plain(place, "is_volatile", "Volatile", lambda value: value if number_in(value) not in (None, 0) else None)
            for name in [*NAMES[kind], *OTHER_LISTS.get(kind, [])]:
                for holder, number, entry in self.entries(place, name):
                    if entry.startswith("!"):
                        yield holder, place, "Exclusion", name, entry, number

    def missing(self, place):
        kind = self.blocks[place].type
        if kind in OWN_NAME and self.name(place) is None:
            yield place, place, "MissingDirective", OWN_NAME[kind], "", 0
        if kind in OWN_NAME and kind != "service":
            return
        for role in ["", "dependent_"] if kind.endswith("dependency") else [""]:
            has = self.list(place, f"{role}host_name") or self.list(place, f"{role}hostgroup_name")
            if kind.startswith("service") and kind != "service":
                has = has and self.list(place, f"{role}service_description") or self.list(place, f"{role}servicegroup_name")
            if not has:
                yield place, place, "MissingDirective", f"{role}host_name", "", 0

    def plain(self, place, name, fault, wrong):
        if name == "register":
            holder = place if self.own(place, name) is not None else None
        else:
            holder = self.holder(place, name)
        if holder is not None:
            found = wrong(self.own(holder, name))
            if found is not None:
                yield holder, place, fault, name, found, 0

    def bad_options(self, place):
        kind = self.blocks[place].type
        subject = "host" if kind.startswith("host") else "service"
        asked = {"host": [("notification_options", "host")], "service": [("notification_options", "service")],
                 "contact": [("host_notification_options", "host"), ("service_notification_options", "service")]}.get(kind, [])
        asked = [(name, lambda part, of=of: options_in(part, of)) for name, of in asked]
        if kind.endswith("escalation"):
            asked = [("escalation_options", lambda part: options_in(part, subject, True))]
        if kind.endswith("dependency"):
            asked = [("notification_failure_criteria", lambda part: criteria_in(part, subject))]
        for name, reading in asked:
            def wrong(value, reading=reading):
                return next((part for part in re.split("[, \t]", value) if part and reading(part) is None), None)
            yield from self.plain(place, name, "BadOption", wrong)

    def bad_days(self, place):
        def first_wrong(value):
            return next((part for part in value.split(",") if ranges_in(part) is None), None)

        for day in DAYS:
            yield from self.plain(place, day, "BadRange", first_wrong)
        for name, line in self.days(place).items():
            if is_dated(name) and self.is_bad_line(line):
                yield place, place, "BadRange", name, None, 0
            elif is_dated(name) and rule_in(name) is None:
                yield place, place, "DatedException", name, None, 0

    # ---- names

    def of_names(self):
        for place in self.registered:
            kind = self.blocks[place].type
            for name, of in NAMES[kind].items():
                whole = self.list(place, name) or []
                if whole == ["*"] and of not in WITHOUT_ALL:
                    continue
                for holder, number, entry in self.entries(place, name):
                    if (entry.split("!")[0] if of == "command" else entry) not in self.named[of]:
                        yield holder, place, "UnknownName", name, entry, number
            for name in PERIODS.get(kind, []):
                yield from self.plain(place, name, "UnknownName",
                                      lambda value: value if value != "null" and value not in self.named["timeperiod"] else None)
            if kind in OWN_NAME and kind != "service" and self.named[kind][self.name(place)] != place:
                yield place, place, "Doubled", OWN_NAME[kind], self.name(place), 0

    def folded(self, faults):
        """Each fault of one holder, directive and entry once, with how many blocks have it; by the lines of the holders."""
        found = {}
        for holder, place, fault, name, value, number in faults:
            found.setdefault((holder, fault, name, number), [value, set()])[1].add(place)
        return sorted(((self.blocks[holder].line, fault, name, value, len(places) - 1)
                       for (holder, fault, name, number), (value, places) in found.items()), key=str)


def of_templates(site):
    for place, block in enumerate(site.blocks):
        for name in entries_of(site.own(place, "use") or ""):
            if (block.type, name) not in site.templates:
                yield place, "UnknownTemplate", "use", name
        if site.is_on_template_loop(place):
            yield place, "TemplateLoop", "use", None
        name = site.own(place, "name")
        if name is not None and site.templates[block.type, name] != place:
            yield place, "Doubled", "name", name


def faults(data):
    """The pass that finds faults, and each of them: the line, the fault, the directive, the value and how many other blocks have it;
    or the line and the fault of a text that isn't blocks. Empty where the blocks have none of these."""
    try:
        blocks = read(data)
    except Refused as refused:
        return "lines", str(refused)
    site = Site(blocks)
    found = sorted(((site.blocks[place].line, fault, name, value, 0) for place, fault, name, value in of_templates(site)), key=str)
    if found:
        return "templates", found
    every = All(blocks)
    found = every.folded(every.of_values())
    if found:
        return "values", found
    return "names", every.folded(every.of_names())
