"""What the command `why` writes of the lines of a report, as text and as JSON: of each attempt on an object what became of it."""
from who import fields, of_escalations

FILTERS = ["Program", "Disabled", "Downtime", "Flapping", "Options", "NoProblem", "Period", "Dependency", "Acknowledged", "FirstDelay", "Interval"]
LAST = 32_503_679_999
LETTERS = {"host": "du", "service": "wuc"}
# The directive by which a filter of an object goes, and that of a contact, after the kind of the object; and what a service takes from its host.
DIRECTIVES = {"Disabled": "notifications_enabled", "Options": "notification_options", "Period": "notification_period", "FirstDelay": "first_notification_delay",
              "Interval": "notification_interval"}
RIGHTS = {"ContactDisabled": "notifications_enabled", "ContactOptions": "notification_options", "ContactPeriod": "notification_period"}
OF_HOST = ("Period", "Interval")


def behind(place):
    return f"  {place}" if place else ""


class Reasons:
    """Writes of the attempts on an object, given its number, how a moment is shown, the contact that is asked for, if one is, and the file of the object text."""

    def __init__(self, configuration, number, contact, local, file):
        self.configuration, self.number, self.contact, self.local, self.file = configuration, number, contact, local, file
        self.object, self.text, self.row, self.attempt = configuration.objects[number], "", [], []

    def period(self, number):
        return "none" if number is None else list(self.configuration.period_numbers)[number]

    def letters(self, options):
        return "".join(f" {letter}" for letter in LETTERS[self.object.kind] + "rfs" if letter in options)

    def value(self, name):
        """A filter of the object, with its value."""
        of = self.object
        value = {"Options": f" notification_options{self.letters(of.options)}", "Period": f" notification_period {self.period(of.period)}",
                 "FirstDelay": f" first_notification_delay {of.delay}", "Interval": f" notification_interval {of.interval}"}
        return name + value.get(name, "")

    def contact_value(self, person, name):
        rights = self.configuration.people[person].rights[self.object.kind]
        return name + {"ContactOptions": f" notification_options{self.letters(rights.options)}", "ContactPeriod": f" notification_period {self.period(rights.period)}"}.get(name, "")

    def line(self, places, directive):
        """The line that gives the directive to the first of the places that has it; none where none has."""
        lines = [self.configuration.line(place, directive) for place in places]
        return next((f"{self.file}:{line}" for line in lines if line is not None), None)

    def place(self, name):
        """Where the value stands that a filter of the object goes by, if it is known."""
        own, host = self.configuration.places_of(self.number)
        return self.line([own, host] if name in OF_HOST else [own], DIRECTIVES[name]) if name in DIRECTIVES else None

    def contact_place(self, person, name):
        return self.line([self.configuration.of("contact")[person]], f"{self.object.kind}_{RIGHTS[name]}")

    def head(self, of, number, passed):
        notice = f", notice {number}" if number != "-" else ""
        self.text += f"{self.local(int(of['moment']))}  {of['kind']} {of['state']}{notice}\n"
        if passed:
            self.text += f"    passed       {', '.join(map(self.value, passed))}\n"

    def missing(self):
        """Whom the configuration names besides those that the open attempt tells of, and why they aren't told."""
        people, met = self.configuration.people, {of["contact"] for of in self.attempt}
        named = {*self.object.contacts, *(person for it in self.configuration.escalations if it.object == self.number for person in it.contacts)}
        for person in sorted(named) if self.attempt else []:
            name = people[person].name
            if name not in met and self.contact in (None, name):
                has = people[person].rights[self.object.kind].lanes
                yield name, of_escalations(self.configuration, self.number, person, self.attempt) if has else "no notification command; "

    def close(self):
        """Ends what is open."""
        if len(self.row) > 1:
            self.text += f"    and again    {len(self.row) - 1} times, up to {self.local(int(self.row[-1]['moment']))}\n"
        for name, reason in self.missing():
            self.text += f"    no receiver  {name}  {reason}not told\n"
        self.row, self.attempt = [], []

    def add(self, of):
        if of["letter"] == "S":
            if not self.row or any(of[name] != self.row[-1][name] for name in ("kind", "state", "filter")):
                self.close()
                self.head(of, "-", FILTERS[: FILTERS.index(of["filter"])])
                self.text += f"    stopped      {self.value(of['filter'])}{behind(self.place(of['filter']))}\n"
            self.row.append(of)
            return
        if not self.attempt or self.attempt[-1]["event"] != of["event"]:
            self.close()
            self.head(of, of["number"], FILTERS)
        self.attempt.append(of)
        if self.contact not in (None, of["contact"]):
            return
        if of["letter"] == "N":
            self.text += f"    told         {of['contact']}  {of['command']}\n"
        else:
            person = [it.name for it in self.configuration.people].index(of["contact"])
            self.text += f"    refused      {of['contact']}  {self.contact_value(person, of['filter'])}{behind(self.contact_place(person, of['filter']))}\n"


class Objects(Reasons):
    """The same as objects of JSON: each a list of its members in order. What a line of the report gives is that line itself."""

    def __init__(self, configuration, number, contact, file):
        super().__init__(configuration, number, contact, str, file)
        self.made = []

    def tried(self, of, passed, stopped):
        self.made.append([("letter", "A"), ("event", int(of["event"])), ("passed", [self.value(name) for name in passed]), ("stopped", stopped and self.value(stopped)),
                          ("at", stopped and self.place(stopped))])

    def close(self):
        for name, reason in self.missing():
            self.made.append([("letter", "M"), ("contact", name), ("reason", reason[:-2]), ("event", int(self.attempt[0]["event"]))])
        self.row, self.attempt = [], []

    def add(self, of):
        if of["letter"] == "S":
            self.close()
            self.tried(of, FILTERS[: FILTERS.index(of["filter"])], of["filter"])
            self.made.append(of)
            return
        if not self.attempt or self.attempt[-1]["event"] != of["event"]:
            self.close()
            self.tried(of, FILTERS, None)
        self.attempt.append(of)
        if self.contact in (None, of["contact"]):
            self.made.append(of)


def in_span(lines, name, begin, end):
    """The fields of the lines of a report that are of the object of a name, before a span, and in it."""
    of = [it for it in map(fields, lines) if it.get("object") == name]
    return [it for it in of if int(it["moment"]) < begin], [it for it in of if begin <= int(it["moment"]) <= end]


def why(configuration, lines, number, name, contact, begin, end, local, file):
    """What is written of the lines of a report, of the object of a number and a name, from one moment up to another, either of which may be none, given the file of the object text."""
    before, within = in_span(lines, name, begin or 0, LAST if end is None else end)
    reasons = Reasons(configuration, number, contact, local, file)
    for of in within:
        reasons.add(of)
    reasons.close()
    if within:
        return reasons.text
    span = (f" from {local(begin)}" if begin else "") + (f" up to {local(end)}" if end not in (None, LAST) else "")
    last = f"; the last one before: {local(int(before[-1]['moment']))}  {before[-1]['kind']} {before[-1]['state']}" if before else ""
    return f"no attempt on {name}{span}{last}\n"


def why_json(configuration, lines, number, name, contact, begin, end, file):
    """The same as JSON: the fields of a line of the report, or the members of another object in order."""
    objects = Objects(configuration, number, contact, file)
    for of in in_span(lines, name, begin or 0, LAST if end is None else end)[1]:
        objects.add(of)
    objects.close()
    return objects.made
