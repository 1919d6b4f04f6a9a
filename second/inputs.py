"""Inputs drawn at random: object text with a bit of everything, a feed of its objects, and steps of the world."""
import random

DAYS = "sunday monday tuesday wednesday thursday friday saturday".split()
TEMPLATE_TYPES = "host service contact hostescalation serviceescalation hostdependency servicedependency timeperiod hostgroup".split()
RANGES = "00:00-24:00 09:00-17:00 0:00-6:00 12:00-13:00 12:30-12:45 22:00-24:00 10:00-10:00 08:00-12:00".split()
BAD_RANGES = "9:00-17 09:00-08:00 00:00-24:01 foo 09:00-10:00, 09:60-10:00 1:00-2:00,,3:00-4:00".split()
MONTHS = "january february march april may june july august september october november december".split()
ODD_DATES = ["day", "9:00", "monday x", "alias x", "monday", "day 1 - 3", "monday 1 / 2", "december 0", "day -32", "monday 6", "2024-13-01", "2024-1",
             "day -0", "may", "1", "monday 2 mai"]
OPTIONS = {"host": ["d", "u", "r", "f", "s", "a", "n", "d,u,r", "down recovery", "d u", "unreachable,downtime", "all", ","],
           "service": ["w", "u", "c", "r", "f", "s", "a", "n", "w,u,c,r", "critical recovery", "unknown,warning", "c,r,f,s"]}
ESCALATION_OPTIONS = {"host": ["d", "u", "r", "d,r", "a", "n", "u,d"], "service": ["w", "u", "c", "r", "c,r", "a", "n"]}
CRITERIA = {"host": ["o", "d", "u", "p", "n", "d,u", "a", "down", "up,pending"],
            "service": ["o", "w", "u", "c", "p", "n", "w,c", "a", "critical", "ok pending"]}
STATES = {"HOST": ("DOWN", "DOWN", "UNREACHABLE", "UP", "UP"), "SERVICE": ("WARNING", "CRITICAL", "UNKNOWN", "OK", "OK")}


class Site:
    """Object text. `oddity` is how likely it is at each place that something is written that may be a fault."""

    def __init__(self, seed):
        self.draw = random.Random(seed)
        self.oddity = self.draw.choice([0, 0, 0, 0.02, 0.12])
        self.hosts, self.services = self.some("h", 1, 4), self.some("s", 0, 3)
        self.contacts, self.commands = self.some("c", 1, 4), self.some("m", 1, 3)
        self.host_groups, self.contact_groups, self.service_groups = self.some("hg", 0, 3), self.some("cg", 0, 3), self.some("sg", 0, 2)
        self.periods = self.some("p", 0, 3)
        self.templates = {kind: self.some(f"{kind[0]}t", 0, 3) if self.chance(0.6) else [] for kind in TEMPLATE_TYPES}
        self.pairs, self.blocks = [], []

    def some(self, letter, least, most):
        return [f"{letter}{number}" for number in range(self.draw.randint(least, most))]

    def chance(self, part):
        return self.draw.random() < part

    def odd(self):
        return self.chance(self.oddity)

    # ---- values

    def names(self, names, of_all=0.1, added=0.15, most=3, empty=0.04):
        """A list of names: mostly of those there are."""
        if self.chance(empty) or not names and not self.odd():
            return "null"
        if self.chance(of_all):
            return self.draw.choice(["*", "*", "*", "*,"])
        entries = [self.draw.choice(names or ["zz"]) for _ in range(self.draw.randint(1, most))]
        if self.odd():
            entries.append(self.draw.choice(["zz", "!" + entries[0], "*", "", "null"]))
        return ("+" if self.chance(added) else "") + self.draw.choice([",", ", ", " ,"]).join(entries)

    def name(self, names):
        return self.draw.choice(names) if names and not self.odd() else self.draw.choice(["zz", "null"])

    def number(self, *numbers):
        return self.draw.choice(["x", "1000001", "-1", "1.5", "+1"] if self.odd() else numbers)

    def letters(self, lists):
        return self.draw.choice(["x", "d,x", "o", "q"] if self.odd() else lists)

    def ranges(self):
        if self.odd():
            return self.draw.choice(BAD_RANGES)
        return ",".join(self.draw.choice(RANGES) for _ in range(self.draw.choice([1, 1, 2])))

    def maybe(self, part, name, value):
        """The directive, so likely."""
        return [(name, value())] if self.chance(part) else []

    # ---- what blocks have in common

    def use(self, kind, below=None):
        """Templates, of a template itself only those before it, so that there is no loop."""
        names = self.templates[kind][:None if below is None or self.odd() else below]
        if self.odd() and not names:
            return [("use", "zz")]
        return self.maybe(0.5, "use", lambda: ",".join(self.draw.choice(names) for _ in range(self.draw.randint(1, 2)))) if names else []

    def period(self, part, name):
        return self.maybe(part, name, lambda: "null" if self.chance(0.08) else self.name(self.periods)) if self.periods else []

    def people(self):
        return self.maybe(0.6, "contacts", lambda: self.names(self.contacts)) + (
            self.maybe(0.4, "contact_groups", lambda: self.names(self.contact_groups)) if self.contact_groups else [])

    def settings(self, kind):
        return (self.people() + self.maybe(0.6, "notification_interval", lambda: self.number("0", "1", "2", "10", "01", "30"))
                + self.period(0.4, "notification_period") + self.maybe(0.3, "notification_options", lambda: self.letters(OPTIONS[kind]))
                + self.maybe(0.15, "notifications_enabled", lambda: self.number("0", "1", "1", "1", "2"))
                + self.maybe(0.25, "first_notification_delay", lambda: self.number("0", "1", "2")))

    def escalation(self, kind):
        return (self.people() + self.maybe(0.7, "first_notification", lambda: self.number("0", "1", "2", "3"))
                + self.maybe(0.7, "last_notification", lambda: self.number("0", "1", "2", "3", "5"))
                + self.maybe(0.5, "notification_interval", lambda: self.number("0", "1", "2", "5"))
                + self.period(0.3, "escalation_period") + self.maybe(0.3, "escalation_options", lambda: self.letters(ESCALATION_OPTIONS[kind])))

    def dependency(self, kind):
        return (self.maybe(0.85, "notification_failure_criteria", lambda: self.letters(CRITERIA[kind]))
                + self.maybe(0.4, "inherits_parent", lambda: self.number("0", "1")) + self.period(0.2, "dependency_period"))

    def in_groups(self, part, name, groups):
        return self.maybe(part, name, lambda: self.names(groups, 0)) if groups else []

    def some_hosts(self, role=""):
        by_group = self.in_groups(0.3, f"{role}hostgroup_name", self.host_groups)
        return by_group + self.maybe(0.75 if by_group else 1, f"{role}host_name", lambda: self.names(self.hosts, empty=self.oddity))

    def some_services(self, pairs, role=""):
        """Services, mostly of these pairs of host and description."""
        if pairs and not self.odd():
            description = self.draw.choice(pairs)[1]
            hosts = [host for host, other in pairs if other == description]
            listed = self.draw.sample(hosts, self.draw.randint(1, len(hosts)))
            return [(f"{role}host_name", ",".join(listed)), (f"{role}service_description", description)]
        by_group = self.in_groups(0.5, f"{role}servicegroup_name", self.service_groups)
        described = self.maybe(0.95, f"{role}service_description", lambda: self.names(self.services, 0.5, 0.1, 2))
        return by_group + self.some_hosts(role) + described

    def in_two(self, names):
        """Names, mostly parted in those that may be masters and those that may depend on them."""
        place = self.draw.randint(0, len(names))
        return (names, names) if self.odd() else (names[:place], names[place:])

    # ---- blocks

    def add(self, kind, rows):
        if self.chance(0.1):
            self.draw.shuffle(rows)
        self.blocks.append((kind, rows + self.maybe(self.oddity, "bogus", lambda: "1")))

    def add_templates(self):
        own = {"host": lambda: self.settings("host") + self.in_groups(0.3, "hostgroups", self.host_groups),
               "service": lambda: self.settings("service") + self.in_groups(0.2, "servicegroups", self.service_groups),
               "contact": lambda: self.commands_of("host", 0.7) + self.commands_of("service", 0.7),
               "timeperiod": lambda: [(self.draw.choice(DAYS), self.ranges()), *self.dated_lines()],
               "hostgroup": lambda: self.maybe(0.5, "members", lambda: self.names(self.hosts))}
        for kind, names in self.templates.items():
            subject = kind.removesuffix("escalation").removesuffix("dependency")
            others = self.escalation if kind.endswith("escalation") else self.dependency
            for below, name in enumerate(names):
                rows = own[kind]() if kind in own else others(subject)
                register = [] if self.odd() else [("register", "0")]
                self.add(kind, [("name", name), *register, *self.use(kind, below), *rows])

    def commands_of(self, kind, part):
        names = [f"{name}{arguments}" for name in self.commands for arguments in ("", "", "!a", "!b!c")]
        return self.maybe(part, f"{kind}_notification_commands", lambda: self.names(names, 0))

    def add_people(self):
        for name in self.commands:
            self.add("command", [("command_name", name), *self.maybe(0.5, "command_line", lambda: "/bin/x $A$")])
        for name in self.contacts:
            rows = [("contact_name", name), *self.use("contact"), *self.in_groups(0.3, "contactgroups", self.contact_groups)]
            for kind in ("host", "service"):
                rows += (self.commands_of(kind, 0.85) + self.maybe(0.2, f"{kind}_notification_options", lambda: self.letters(OPTIONS[kind]))
                         + self.period(0.25, f"{kind}_notification_period")
                         + self.maybe(0.15, f"{kind}_notifications_enabled", lambda: self.number("0", "1", "1")))
            self.add("contact", rows)
        for name in self.contact_groups:
            self.add("contactgroup", [("contactgroup_name", name), *self.maybe(0.7, "members", lambda: self.names(self.contacts)),
                                      *self.maybe(0.3, "contactgroup_members", lambda: self.names(self.contact_groups))])

    def date(self):
        """The name of a dated line of one of the five classes."""
        day, place = self.draw.choice([1, 2, 15, 20, 28, 29, 30, 31, -1, -2, -31, "01"]), self.draw.choice([1, 2, 3, 4, 5, -1, -2, -5])
        month, weekday = self.draw.choice(MONTHS), self.draw.choice(DAYS)
        year = self.draw.choice([1970, 1970, 2000, 2024, 2024, 2024, 2100])
        return self.draw.choice([f"{year}-{self.draw.randint(1, 12):02}-{self.draw.randint(1, 31)}", f"{month} {day}", f"day {day}", f"day  {day}",
                                 f"{weekday} {place} {month}", f"{weekday} {place}", f"{weekday} {place}"])

    def dated_lines(self):
        return [(self.date(), self.ranges()) for _ in range(self.draw.choice([0, 0, 0, 1, 2, 6]))]

    def add_periods(self):
        for below, name in enumerate(self.periods):
            others = self.periods[:None if self.odd() else below]
            rows = [("timeperiod_name", name), *self.use("timeperiod"), *self.maybe(0.2, "alias", lambda: "a: b"),
                    *self.maybe(0.4, "exclude", lambda: self.names(others, 0, 0.1, 2))]
            rows += [row for day in DAYS for row in self.maybe(0.6, day, self.ranges)] + self.dated_lines()
            if self.odd():
                rows.append((self.draw.choice(ODD_DATES), self.draw.choice(["09:00-10:00", "foo"])))
            self.add("timeperiod", rows)

    def add_objects(self):
        for name in self.host_groups:
            self.add("hostgroup", [("hostgroup_name", name), *self.use("hostgroup"), *self.maybe(0.6, "members", lambda: self.names(self.hosts)),
                                   *self.maybe(0.3, "hostgroup_members", lambda: self.names(self.host_groups))])
        for name in self.hosts + ([self.hosts[0]] if self.odd() else []):
            register = [("register", self.draw.choice(["0", "1", "00", "x"]))] if self.odd() else []
            self.add("host", [*([] if self.odd() else [("host_name", name)]), *self.use("host"), *register, *self.settings("host"),
                              *self.in_groups(0.3, "hostgroups", self.host_groups)])
        for description in self.services:
            hosts = self.draw.sample(self.hosts, self.draw.randint(1, len(self.hosts)))
            if self.chance(0.25):
                continue
            self.pairs += [(host, description) for host in hosts]
            volatile = [("is_volatile", self.draw.choice(["0", "1", "x"]))] if self.odd() else []
            self.add("service", [("service_description", description), ("host_name", ",".join(hosts)), *self.use("service"), *volatile,
                                 *self.settings("service"), *self.in_groups(0.3, "servicegroups", self.service_groups)])
        if self.host_groups and self.chance(0.3):
            groups = self.names(self.host_groups) if self.odd() else self.draw.choice(self.host_groups)
            self.add("service", [("service_description", "of-group"), ("hostgroup_name", groups), *self.settings("service")])
        for name in self.service_groups:
            members = [word for _ in range(self.draw.randint(0, 2)) for word in self.draw.choice(self.pairs)] if self.pairs else []
            members += [self.draw.choice(["h0", "zz"])] if self.odd() else []
            self.add("servicegroup", [("servicegroup_name", name), *([("members", ",".join(members))] if members else []),
                                      *self.maybe(0.3, "servicegroup_members", lambda: self.names(self.service_groups, 0))])

    def add_rules(self):
        for _ in range(self.draw.choice([0, 0, 1, 2, 3])):
            self.add("hostescalation", self.some_hosts() + self.use("hostescalation") + self.escalation("host"))
        for _ in range(self.draw.choice([0, 0, 1, 2, 3]) if self.pairs or self.odd() else 0):
            pairs = [] if self.chance(0.2) else self.pairs
            self.add("serviceescalation", self.some_services(pairs) + self.use("serviceescalation") + self.escalation("service"))
        for _ in range(self.draw.choice([0, 0, 1, 2])):
            masters, dependents = self.in_two(self.hosts)
            if masters and dependents:
                lists = [("host_name", self.name(masters)), ("dependent_host_name", self.names(dependents, self.oddity, empty=0))]
                self.add("hostdependency", lists + self.use("hostdependency") + self.dependency("host"))
        for _ in range(self.draw.choice([0, 0, 1, 2])):
            masters, dependents = self.in_two(self.pairs)
            if masters and dependents:
                lists = self.some_services(masters) + self.some_services(dependents, "dependent_")
                self.add("servicedependency", lists + self.use("servicedependency") + self.dependency("service"))

    def line(self, name, value):
        if self.chance(self.oddity / 3):
            return f" {name}" + (" ; note" if self.odd() else "")
        if self.chance(self.oddity / 3):
            name = self.draw.choice(["host", "hosts", "hostgroup", "hostgroups", "host_groups", "service_groups", "description", "contact_groups", "master_host",
                                     "dependent_host", "dependent_description", "notification_failure_options", name])
        line = f" {name}{self.draw.choice([' ', chr(9), '  '])}{value}"
        if self.chance(0.03) and "," in line:
            line = line.replace(",", ",\\\n   ", 1)
        return line + (" ; note" if self.chance(0.03) else "")

    def text(self):
        for add in (self.add_templates, self.add_people, self.add_periods, self.add_objects, self.add_rules):
            add()
        if self.chance(0.5):
            self.draw.shuffle(self.blocks)
        lines = []
        for kind, rows in self.blocks:
            lines += [self.draw.choice(["define %s{", "define %s {", "define  %s\t{"]) % kind + (" ; x" if self.chance(0.05) else "")]
            lines += [self.line(name, value) for name, value in rows] + ["# a comment"] * self.chance(0.02) + ["}"]
        text = "".join(f"{line}\n" for line in lines)
        if self.odd():
            text = text.replace("\n", "\r\n")
        if self.odd():
            place = self.draw.randrange(len(text))
            text = text[:place] + self.draw.choice(["}", "{", "define host{\n", "\\", "\n", ";", "x"]) + text[place:]
        return text

    # ---- feeds and steps

    def event(self):
        kind = self.draw.choice(["HOST", "SERVICE"] if self.pairs else ["HOST", "HOST", "SERVICE"])
        host, description = self.draw.choice(self.pairs) if self.pairs and self.chance(0.8) else (self.draw.choice(self.hosts), "s0")
        name = host if kind == "HOST" else f"{host};{description}"
        what = self.draw.random()
        if what < 0.28:
            return "CLOCK"
        if what < 0.7:
            return f"{kind}_STATE;{name};{self.draw.choice(STATES[kind])}"
        if what < 0.77:
            return f"{kind}_DOWNTIME;{name};{self.draw.choice(['START', 'END', 'CANCELLED'])}"
        if what < 0.84:
            return f"{kind}_FLAPPING;{name};{self.draw.choice(['START', 'STOP'])}"
        if what < 0.87:
            return self.draw.choice(["ENABLE_NOTIFICATIONS", "ENABLE_NOTIFICATIONS", "DISABLE_NOTIFICATIONS"])
        if what < 0.95:
            return f"{kind}_ACK;{name};{self.draw.choice(['STICKY', 'NORMAL', 'NONE', 'STICKY;NOTIFY', 'NORMAL;NOTIFY'])}"
        if what < 0.97:
            return f"{kind}_NOTIFICATIONS;{name};{self.draw.choice(['ON', 'ON', 'OFF'])}"
        return self.draw.choice(["NOPE", "CLOCK;", "HOST_STATE;zz;UP", f"HOST_STATE;{host};OK", f"HOST_STATE;{host}",
                                 f"SERVICE_STATE;{host};UP", "HOST_STATE;zz;XX", f"HOST_DOWNTIME;{host};STOP", f"HOST_ACK;{host};2", f"HOST_ACK;{host};NONE;NOTIFY", f"HOST_ACK;zz;NORMAL;NOTIFY", f"HOST_STATE;{host};UP;NOTIFY", f"HOST_NOTIFICATIONS;{host};NONE"])

    def feed(self, begin):
        """A feed from this moment on; a line of a hundred has no stamp, and a feed of thirty is cut."""
        moment, lines = begin, []
        for _ in range(self.draw.choice([0, 5, 30, 80])):
            moment += self.draw.choice([0, 0, 1, 10, 30, 60, 60, 120, 600, 3600, 30_000])
            stamp = max(moment - self.draw.choice([0, 0, 0, 5]), 0)
            line = f"[{'0' if self.chance(0.03) else ''}{stamp}] {self.event()}"
            lines.append(self.draw.choice(["", "x", "[1]CLOCK", "[] CLOCK", "[ 1] CLOCK", "[99999999999999] CLOCK"]) if self.chance(0.01) else line)
        return "".join(f"{line}\n" for line in lines) + ("[5] CL" if self.chance(0.03) else "")

    def steps(self, lanes, deciders):
        """Steps that a world of these lanes and so many deciders mostly takes."""
        lines = []
        for _ in range(self.draw.choice([50, 300])):
            lane, decider = self.draw.choice(lanes), self.draw.randrange(deciders)
            kinds = ("post", "decide", "put", "pick", "settle", "fail", "ask", "wear", "replace", "close", "drain", "odd")
            kind = self.draw.choices(kinds, (10, 14, 12, 10, 10, 4, 0.3, 3, 2, 2, 2, 0.6))[0]
            if kind == "wear":
                # A letter that fails one to four times, mostly as often as it may be tried, and then a box that takes over.
                lines += [f"pick {lane}"] + self.draw.choice([1, 3, 3, 4]) * [f"fail {lane}"]
                kind = "replace"
            lines.append({"post": "post", "decide": f"decide {decider}", "put": f"put {decider} {lane}",
                          "odd": self.draw.choice(["", "post ", "decide 9", "decide x", "put 0 zz", "pick", "pick zz", "replace", "replace zz", "Post", f"decide 0{decider}"]),
                          }.get(kind, f"{kind} {lane}"))
        return "".join(f"{line}\n" for line in lines)
