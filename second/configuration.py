"""The configuration that blocks give, or the first block with a fault."""
from dataclasses import dataclass
from object_text import Refused
from templates import (ALL_LETTERS, DAYS, Site, criteria_in, is_dated, number_in, options_in, ranges_in, rule_in)

CONTACTS = {"contacts": "contact", "contact_groups": "contactgroup"}
HOSTS = {"host_name": "host", "hostgroup_name": "hostgroup"}
DEPENDENT_HOSTS = {f"dependent_{name}": kind for name, kind in HOSTS.items()}
# The lists of each type in which names of objects of a type stand. In those of service groups, periods and commands `*` is a name.
NAMES = {
    "host": {"hostgroups": "hostgroup", **CONTACTS},
    "service": {**HOSTS, "servicegroups": "servicegroup", **CONTACTS},
    "hostgroup": {"members": "host", "hostgroup_members": "hostgroup"},
    "servicegroup": {"servicegroup_members": "servicegroup"},
    "contact": {"contactgroups": "contactgroup", "host_notification_commands": "command", "service_notification_commands": "command"},
    "contactgroup": {"members": "contact", "contactgroup_members": "contactgroup"},
    "timeperiod": {"exclude": "timeperiod"},
    "command": {},
    "hostescalation": {**HOSTS, **CONTACTS},
    "serviceescalation": {**HOSTS, "servicegroup_name": "servicegroup", **CONTACTS},
    "hostdependency": {**HOSTS, **DEPENDENT_HOSTS},
    "servicedependency": {**HOSTS, "servicegroup_name": "servicegroup", **DEPENDENT_HOSTS, "dependent_servicegroup_name": "servicegroup"},
}
# Lists whose entries aren't names of one type: pairs of host and service, descriptions of services.
OTHER_LISTS = {"servicegroup": ["members"], "serviceescalation": ["service_description"],
               "servicedependency": ["service_description", "dependent_service_description"]}
WITHOUT_ALL = ("servicegroup", "timeperiod", "command")
OWN_NAME = {"host": "host_name", "service": "service_description", "hostgroup": "hostgroup_name", "servicegroup": "servicegroup_name",
            "contact": "contact_name", "contactgroup": "contactgroup_name", "timeperiod": "timeperiod_name", "command": "command_name"}
PERIODS = {"host": ["notification_period"], "service": ["notification_period"],
           "contact": ["host_notification_period", "service_notification_period"],
           "hostescalation": ["escalation_period"], "serviceescalation": ["escalation_period"],
           "hostdependency": ["dependency_period"], "servicedependency": ["dependency_period"]}
OF_OBJECT = ["notification_interval", "first_notification_delay", "notifications_enabled"]
OF_ESCALATION = ["first_notification", "last_notification", "notification_interval"]
NUMBERS = {"host": OF_OBJECT, "service": [*OF_OBJECT, "is_volatile"],
           "contact": ["host_notifications_enabled", "service_notifications_enabled"],
           "hostescalation": OF_ESCALATION, "serviceescalation": OF_ESCALATION,
           "hostdependency": ["inherits_parent"], "servicedependency": ["inherits_parent"]}


@dataclass
class Object:
    """A host, or a service on the host of this number."""
    name: str
    kind: str
    host: int
    enabled: bool
    options: set
    period: int
    interval: int
    delay: int
    contacts: list
    volatile: bool = False


@dataclass
class Rights:
    enabled: bool
    options: set
    period: int
    lanes: list


@dataclass
class Contact:
    name: str
    rights: dict


@dataclass
class Period:
    """The ranges of each weekday, and of each rule of a dated line."""
    days: list
    dated: list
    excludes: list


@dataclass
class Escalation:
    object: int
    first: int
    last: int
    interval: int
    period: int
    options: set
    contacts: list


@dataclass
class Dependency:
    dependent: int
    master: int
    inherits: bool
    states: set
    period: int


def reached(starts, ends):
    """What chains of one step or more lead to."""
    waiting, found = list(starts), set()
    while waiting:
        node = waiting.pop()
        if node not in found:
            found.add(node)
            waiting += ends(node)
    return found


class Names(Site):
    """The registered blocks by their names, and what lists of names mean, where no template has a fault."""
    # The fields in which the daemon's rule decides.
    choices = frozenset()

    def __init__(self, blocks):
        super().__init__(blocks)
        self.look(range(len(self.blocks)), self.template_fault)
        self.registered = [place for place in range(len(self.blocks)) if self.is_registered(place)]
        self.named = {kind: {} for kind in OWN_NAME}
        for place in self.registered:
            kind = self.blocks[place].type
            if kind in OWN_NAME and kind != "service":
                self.named[kind].setdefault(self.name(place), place)

    def look(self, places, fault_of):
        for place in places:
            self.refuse(place, fault_of(place))

    def refuse(self, place, fault):
        if fault:
            raise Refused(fault, self.blocks[place].line)

    def template_fault(self, place):
        if any(use not in self.templates for use in self.uses(place)):
            return "UnknownTemplate"
        if self.is_on_template_loop(place):
            return "TemplateLoop"
        name = self.own(place, "name")
        if name is not None and self.templates[self.blocks[place].type, name] != place:
            return "Doubled"
        return None

    def name(self, place):
        return self.value(place, OWN_NAME[self.blocks[place].type])

    def of(self, kind):
        """The registered blocks of a type, in file order."""
        return [place for place in self.registered if self.blocks[place].type == kind]

    def listed(self, place, name, kind):
        entries = self.list(place, name) or []
        if entries == ["*"] and kind not in WITHOUT_ALL:
            return self.of(kind)
        return [self.named[kind][entry] for entry in entries if entry in self.named[kind]]

    def members(self, group, kind, names_groups):
        """The objects of a type that a group has, itself or by groups that it lists."""
        of_group = f"{kind}group"
        groups = reached([group], lambda other: self.listed(other, f"{of_group}_members", of_group))
        found = {member for other in groups for member in self.listed(other, "members", kind)}
        return found | {place for place in self.of(kind) if groups & set(self.listed(place, names_groups, of_group))}

    def hosts(self, place, role=""):
        """The hosts that a block lists or reaches by host groups, in file order."""
        found = set(self.listed(place, f"{role}host_name", "host"))
        for group in self.listed(place, f"{role}hostgroup_name", "hostgroup"):
            found |= self.members(group, "host", "hostgroups")
        return sorted(found)

    def contacts(self, place):
        """The contacts that a block lists or reaches by contact groups, or none where it gives neither list."""
        if self.list(place, "contacts") is None and self.list(place, "contact_groups") is None:
            return None
        found = set(self.listed(place, "contacts", "contact"))
        for group in self.listed(place, "contact_groups", "contactgroup"):
            found |= self.members(group, "contact", "contactgroups")
        numbers = {contact: number for number, contact in enumerate(self.of("contact"))}
        return sorted(numbers[contact] for contact in found)


class Checked(Names):
    """The same, where the values and the names have no fault either."""

    def __init__(self, blocks):
        super().__init__(blocks)
        self.look(self.registered, self.value_fault)
        self.service_hosts = {place: self.hosts(place) for place in self.of("service")}
        self.services = {(self.name(host), self.name(place)) for place, hosts in self.service_hosts.items() for host in hosts}
        self.given = set()
        self.look(self.registered, self.name_fault)

    # ---- values

    def lacks(self, place):
        kind = self.blocks[place].type

        def hosts(role):
            return self.list(place, f"{role}host_name") or self.list(place, f"{role}hostgroup_name")

        def services(role):
            described = hosts(role) and self.list(place, f"{role}service_description")
            return described or self.list(place, f"{role}servicegroup_name")

        if kind in OWN_NAME:
            return self.name(place) is None or kind == "service" and not hosts("")
        has = hosts if kind.startswith("host") else services
        return not all(has(role) for role in (["", "dependent_"] if kind.endswith("dependency") else [""]))

    def has_bad_number(self, place):
        values = [self.value(place, name) for name in NUMBERS.get(self.blocks[place].type, [])] + [self.own(place, "register")]
        return any(value is not None and number_in(value) is None for value in values)

    def has_bad_option(self, place):
        kind = self.blocks[place].type
        subject = "host" if kind.startswith("host") else "service"

        def is_bad(name, reading):
            value = self.value(place, name)
            return value is not None and reading(value) is None

        if kind in ("host", "service"):
            return is_bad("notification_options", lambda value: options_in(value, kind))
        if kind == "contact":
            return any(is_bad(f"{of}_notification_options", lambda value, of=of: options_in(value, of)) for of in ("host", "service"))
        if kind.endswith("escalation"):
            return is_bad("escalation_options", lambda value: options_in(value, subject, True))
        return kind.endswith("dependency") and is_bad("notification_failure_criteria", lambda value: criteria_in(value, subject))

    def value_fault(self, place):
        kind = self.blocks[place].type
        lines = self.days(place).values() if kind == "timeperiod" else []
        dated = [line for line in lines if is_dated(line.name)]
        lists = [*NAMES[kind], *OTHER_LISTS.get(kind, [])]
        if self.lacks(place):
            return "MissingDirective"
        if self.has_bad_number(place):
            return "BadNumber"
        if self.has_bad_option(place):
            return "BadOption"
        if any(line.name in DAYS and ranges_in(line.value) is None for line in lines) or any(self.is_bad_line(line) for line in dated):
            return "BadRange"
        if kind == "service" and "text" not in self.choices and number_in(self.value(place, "is_volatile") or "0") != 0:
            return "Volatile"
        if any(entry.startswith("!") for name in lists for entry in self.list(place, name) or []):
            return "Exclusion"
        return "DatedException" if any(rule_in(line.name) is None for line in dated) else None

    def is_bad_line(self, line):
        """Whether a dated line has no times, a number that nothing has, or a rule without ranges."""
        rule = rule_in(line.name)
        return not line.has_colon or rule == () or rule is not None and ranges_in(line.value) is None

    # ---- names

    def lacks_service(self, place, role):
        """Whether the block names a host and a description that no service is."""
        descriptions = self.list(place, f"{role}service_description") or []
        if descriptions == ["*"]:
            return False
        return any((self.name(host), description) not in self.services for host in self.hosts(place, role) for description in descriptions)

    def names_unknown(self, place):
        kind = self.blocks[place].type
        for name, of in NAMES[kind].items():
            entries = self.list(place, name) or []
            if entries == ["*"] and of not in WITHOUT_ALL:
                continue
            if any((entry.split("!")[0] if of == "command" else entry) not in self.named[of] for entry in entries):
                return True
        periods = [self.value(place, name) for name in PERIODS.get(kind, [])]
        if any(period not in (None, "null") and period not in self.named["timeperiod"] for period in periods):
            return True
        if kind == "servicegroup":
            members = self.list(place, "members") or []
            return len(members) % 2 == 1 or any(pair not in self.services for pair in zip(members[::2], members[1::2]))
        roles = {"serviceescalation": [""], "servicedependency": ["", "dependent_"]}.get(kind, [])
        return any(self.lacks_service(place, role) for role in roles)

    def name_fault(self, place):
        if self.names_unknown(place):
            return "UnknownName"
        kind = self.blocks[place].type
        if kind not in OWN_NAME:
            return None
        own = {(kind, host, self.name(place)) for host in self.service_hosts[place]} if kind == "service" else {(kind, self.name(place))}
        if own & self.given:
            return "Doubled"
        self.given |= own
        return None


class Configuration(Checked):
    """Objects, contacts, lanes, periods, escalations and dependencies, each by its number. Limits aren't looked at. The choices are the
    fields in which the daemon's rule decides."""

    def __init__(self, blocks, choices=()):
        self.choices = frozenset(choices)
        super().__init__(blocks)
        self.period_numbers = {self.name(place): number for number, place in enumerate(self.of("timeperiod"))}
        self.periods = [self.period_of(place) for place in self.of("timeperiod")]
        self.lanes = self.lanes_used()
        self.people = [Contact(self.name(place), {kind: self.rights(place, kind) for kind in ("host", "service")}) for place in self.of("contact")]
        self.objects, self.numbers, self.found = [], {}, {}
        for place in self.of("host"):
            self.add_object(place, None)
        for place, hosts in self.service_hosts.items():
            for host in hosts:
                self.add_object(place, host)
        self.refuse_loops(self.of("timeperiod"), [(number, other) for number, period in enumerate(self.periods) for other in period.excludes],
                          range(len(self.periods)), "PeriodLoop")
        self.escalations = [it for place in self.registered if self.blocks[place].type.endswith("escalation") for it in self.escalations_of(place)]
        kept = [(place, it) for place in self.registered if self.blocks[place].type.endswith("dependency") for it in self.dependencies_of(place)]
        self.dependencies = [it for _, it in kept]
        self.refuse_loops([place for place, _ in kept], [(it.dependent, it.master) for it in self.dependencies],
                          [it.master for it in self.dependencies], "DependencyLoop", [it.dependent for it in self.dependencies])

    def refuse_loops(self, places, edges, starts, fault, ends=None):
        """Refuses the first place whose start leads back to its end, which is the start where no ends are given."""
        for number, (place, start) in enumerate(zip(places, starts)):
            def next_of(node):
                return [to for of, to in edges if of == node]
            leads_to = reached(next_of(start), next_of) if ends is None else reached([start], next_of)
            if (start if ends is None else ends[number]) in leads_to:
                self.refuse(place, fault)

    def number(self, place, name, default):
        value = self.value(place, name)
        return default if value is None else number_in(value)

    def options(self, place, name, kind, of_escalation=False, unlisted=ALL_LETTERS):
        value = self.value(place, name)
        return unlisted if value is None else options_in(value, kind, of_escalation)

    def period(self, place, name, default=None):
        """The number of a period; none is always."""
        value = self.value(place, name)
        return default if value is None else None if value == "null" else self.period_numbers[value]

    def period_of(self, place):
        lines = self.days(place)
        excluded = [self.period_numbers[name] for name in self.list(place, "exclude") or []]
        dated = [(rule_in(name), ranges_in(line.value)) for name, line in lines.items() if is_dated(name)]
        return Period([ranges_in(lines[day].value) if day in lines else [] for day in DAYS], dated, excluded)

    def commands(self, place, kind):
        return {entry.split("!")[0] for entry in self.list(place, f"{kind}_notification_commands") or []}

    def lanes_used(self):
        used = {name for place in self.of("contact") for kind in ("host", "service") for name in self.commands(place, kind)}
        return [self.name(place) for place in self.of("command") if self.name(place) in used]

    def rights(self, place, kind):
        lanes = sorted(self.lanes.index(name) for name in self.commands(place, kind))
        unlisted = frozenset() if "contact_none" in self.choices else ALL_LETTERS
        return Rights(self.number(place, f"{kind}_notifications_enabled", 1) != 0,
                      self.options(place, f"{kind}_notification_options", kind, unlisted=unlisted),
                      self.period(place, f"{kind}_notification_period"), lanes)

    def add_object(self, place, host):
        on = None if host is None else self.objects[self.numbers[host]]
        own = self.contacts(place)
        number = len(self.objects)
        self.numbers[place if host is None else (place, host)] = number
        self.found.setdefault((self.name(place), None) if host is None else (self.name(host), self.name(place)), number)
        self.objects.append(Object(
            self.name(place) if on is None else f"{on.name}/{self.name(place)}", "host" if on is None else "service",
            None if on is None else self.numbers[host], self.number(place, "notifications_enabled", 1) != 0,
            self.options(place, "notification_options", "host" if on is None else "service"),
            self.period(place, "notification_period", on and on.period), self.number(place, "notification_interval", on.interval if on else 30),
            self.number(place, "first_notification_delay", 0), own if own is not None else on.contacts if on else [],
            on is not None and self.number(place, "is_volatile", 0) != 0))

    def places_of(self, number):
        """Where the block of an object stands, and the block of its host, which is a host's own."""
        key = next(key for key, found in self.numbers.items() if found == number)
        return key if isinstance(key, tuple) else (key, key)

    def find(self, host, description=None):
        """The number of a host, or of its service of this description; none where there is none."""
        return self.found.get((host, description))

    def services_of_group(self, group):
        groups = reached([group], lambda other: self.listed(other, "servicegroup_members", "servicegroup"))
        found = set()
        for other in groups:
            members = self.list(other, "members") or []
            found |= {self.find(host, description) for host, description in zip(members[::2], members[1::2])}
        for place, hosts in self.service_hosts.items():
            if groups & set(self.listed(place, "servicegroups", "servicegroup")):
                found |= {self.numbers[place, host] for host in hosts}
        return found

    def objects_at(self, place, role):
        """The objects of which an escalation or dependency speaks in this role, in number order."""
        hosts = self.hosts(place, role)
        if self.blocks[place].type.startswith("host"):
            return sorted(self.numbers[host] for host in hosts)
        descriptions = self.list(place, f"{role}service_description") or []
        found = {number for (service, host), number in self.service_numbers()
                 if host in hosts and (descriptions == ["*"] or self.name(service) in descriptions)}
        for group in self.listed(place, f"{role}servicegroup_name", "servicegroup"):
            found |= self.services_of_group(group)
        return sorted(found)

    def service_numbers(self):
        return [(key, number) for key, number in self.numbers.items() if isinstance(key, tuple)]

    def escalations_of(self, place):
        kind, own = self.blocks[place].type.removesuffix("escalation"), self.contacts(place)
        for number in self.objects_at(place, ""):
            it = self.objects[number]
            yield Escalation(number, self.number(place, "first_notification", 0), self.number(place, "last_notification", 0),
                             self.number(place, "notification_interval", it.interval), self.period(place, "escalation_period", it.period),
                             self.options(place, "escalation_options", kind, True), it.contacts if own is None else own)

    def dependencies_of(self, place):
        kind, criteria = self.blocks[place].type.removesuffix("dependency"), self.value(place, "notification_failure_criteria")
        if criteria is None:
            return
        for dependent in self.objects_at(place, "dependent_"):
            for master in self.objects_at(place, ""):
                yield Dependency(dependent, master, self.number(place, "inherits_parent", 0) != 0, criteria_in(criteria, kind),
                                 self.period(place, "dependency_period"))
