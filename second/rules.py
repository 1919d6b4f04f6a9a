"""The rules of notification, event by event."""
import calendar
import time
from dataclasses import dataclass
from math import gcd

GOOD = ("UP", "OK")
NO_PROBLEM = (*GOOD, "PENDING")
LETTERS = {"DOWN": "d", "UNREACHABLE": "u", "WARNING": "w", "UNKNOWN": "u", "CRITICAL": "c"}
MOST_AHEAD = 34_560_000
# The fields in which either this project's rule decides or the daemon's.
CHOICES = ("host_down", "host_repeats", "host_dep", "nobody", "told", "reset_wait", "delay", "dep_pending", "period_wait", "downtime_wait", "esc_other",
           "at_results", "order", "contact_none", "text")
# The daemon's order of filters.
OF_DAEMON = ("Program", "Period", "Disabled", "Acknowledged", "Dependency", "Options", "NoProblem", "FirstDelay", "Flapping", "Downtime", "Interval", "HostDown",
             "ContactDisabled", "ContactPeriod", "ContactOptions", "ContactNotTold")


def is_named(rule, local):
    """Whether the rule of a dated line names the local day."""
    year, month, day, weekday = local.tm_year, local.tm_mon, local.tm_mday, (local.tm_wday + 1) % 7
    length = calendar.monthrange(year, month)[1]
    days = (day, day - length - 1)
    places = ((day + 6) // 7, -((length - day) // 7 + 1))
    return {1: lambda: rule[1:] == (year, month, day), 2: lambda: rule[1] == month and rule[2] in days, 3: lambda: rule[1] in days,
            4: lambda: rule[1] == weekday and rule[2] in places and rule[3] == month,
            5: lambda: rule[1] == weekday and rule[2] in places}[rule[0]]()


def ranges_of(period, local):
    """The ranges of the local day: of all lines of the first class that has one for it, or else of the weekday."""
    named = [(rule[0], ranges) for rule, ranges in period.dated if is_named(rule, local)]
    if not named:
        return period.days[(local.tm_wday + 1) % 7]
    first = min(kind for kind, _ in named)
    return [one for kind, ranges in named if kind == first for one in ranges]


@dataclass
class Status:
    """What is known of an object."""
    state: str = "PENDING"
    downtimes: int = 0
    flapping: bool = False
    # Since when the first delay runs.
    since: int = 0
    sent: int = 0
    # Of the last problem notice: its state, its moment, and how long the next of that state waits.
    last: tuple = None
    # Whether that wait is over, by a rule of the daemon; the letters of the states of which notices of the problem told.
    over: bool = False
    letters: frozenset = frozenset()
    ready: int = None
    # Of the acknowledgement that holds: its word, and the state in which it came.
    taken_on: tuple = None
    # What its own switch says, if it was switched.
    switched: bool = None


class Rules:
    """The events so far, and what each gave. Local times are those of the zone in the environment variable TZ."""

    def __init__(self, configuration):
        self.configuration, self.choices = configuration, configuration.choices
        self.statuses = [Status() for _ in configuration.objects]
        self.moment, self.is_on, self.count = 0, True, 0
        # The volatile service that has a hard state at this event.
        self.renewed = None
        self.lines, self.notices = [], []
        # Whether a period holds changes at multiples of this alone, as far as zones are whole quarters of an hour from UTC.
        days = [day for it in configuration.periods for day in [*it.days, *(ranges for _, ranges in it.dated)]]
        self.step = gcd(900, *(second for day in days for span in day for second in span))

    # ---- time periods

    def holds(self, period, moment):
        if period is None:
            return True
        it, local = self.configuration.periods[period], time.localtime(moment)
        second = local.tm_hour * 3600 + local.tm_min * 60 + local.tm_sec
        within = any(start <= second < end for start, end in ranges_of(it, local))
        return within and not any(self.holds(other, moment) for other in it.excludes)

    def next(self, period, moment):
        """The first moment of the period from this one on, at most 400 days later."""
        if self.holds(period, moment):
            return moment
        later = range(moment // self.step * self.step + self.step, moment + MOST_AHEAD + 1, self.step)
        return next((other for other in later if self.holds(period, other)), None)

    # ---- one attempt

    def counts(self, state, criteria):
        """Whether a master in this state is among an entry's criteria."""
        if state == "PENDING" and "dep_pending" in self.choices:
            return "UP" in criteria or "OK" in criteria
        return state in criteria

    def depends(self, number):
        return any(self.holds(it.period, self.moment)
                   and (self.counts(self.statuses[it.master].state, it.states) or it.inherits and self.depends(it.master))
                   for it in self.configuration.dependencies if it.dependent == number)

    def is_down(self, number):
        host = self.configuration.objects[number].host
        return self.statuses[number].downtimes > 0 or host is not None and self.statuses[host].downtimes > 0

    def is_held(self, number):
        """Whether the host of a service isn't UP, where that holds the service back."""
        host = self.configuration.objects[number].host
        return "host_down" in self.choices and host is not None and self.statuses[host].state not in NO_PROBLEM

    def first(self, tests):
        """The first test that fails, in the order that is chosen."""
        if "order" in self.choices:
            tests = sorted(tests, key=lambda test: OF_DAEMON.index(test[0]))
        return next((name for name, fails in tests if fails), None)

    def filter_of(self, number, kind, letter):
        """The first filter that stops the attempt, if one does."""
        it, now = self.configuration.objects[number], self.statuses[number]
        of_state, of_ack = kind in ("PROBLEM", "RECOVERY"), kind == "ACKNOWLEDGEMENT"
        same = now.last is not None and now.sent > 0 and now.last[0] == now.state and not now.over
        hosts = "host_dep" in self.choices and it.host is not None
        tests = [
            ("Program", not self.is_on),
            ("Disabled", not (it.enabled if now.switched is None else now.switched)),
            ("Downtime", not (of_ack or kind.startswith("DOWNTIME")) and self.is_down(number)),
            ("Flapping", of_state and now.flapping),
            ("Options", not of_ack and letter not in it.options),
            ("NoProblem", kind == "RECOVERY" and now.sent == 0),
            ("Period", not self.holds(it.period, self.moment)),
            ("Dependency", of_state and (self.depends(number) or hosts and self.depends(it.host))),
            ("Acknowledged", kind == "PROBLEM" and now.taken_on is not None),
            ("FirstDelay", kind == "PROBLEM" and now.sent == 0 and self.moment < now.since + 60 * it.delay),
            ("Interval", kind == "PROBLEM" and self.renewed != number and same and (now.last[2] == 0 or self.moment < now.last[1] + now.last[2])),
            ("HostDown", of_state and self.is_held(number)),
        ]
        return self.first(tests)

    def ready_after(self, number, stopped):
        """When the clock next attempts a problem that was stopped."""
        it, now = self.configuration.objects[number], self.statuses[number]
        if stopped == "Interval":
            return now.last[1] + now.last[2] if now.last[2] else None
        if stopped == "FirstDelay":
            return now.since + 60 * it.delay
        if stopped == "Acknowledged":
            return None
        return self.next(it.period, self.moment) if stopped == "Period" else self.moment + 60

    def ends_wait(self, number, kind, stopped):
        """Whether an attempt that was stopped ends the wait after the last notice, by a rule of the daemon."""
        it = self.configuration.objects[number]
        if kind == "PROBLEM" and self.is_held(number):
            return False
        outside = kind == "PROBLEM" and stopped != "Program" and not self.holds(it.period, self.moment)
        paused = kind != "RECOVERY" and it.host is not None and it.interval == 0 and self.is_down(number)
        return "period_wait" in self.choices and outside or "downtime_wait" in self.choices and paused

    def matching(self, number, reckoned, letter):
        return [one for one in self.configuration.escalations
                if one.object == number and one.first <= reckoned and (one.last == 0 or reckoned <= one.last)
                and letter in one.options and self.holds(one.period, self.moment)]

    def attempt(self, number, kind):
        it, now = self.configuration.objects[number], self.statuses[number]
        letter = LETTERS[now.state] if kind in ("PROBLEM", "ACKNOWLEDGEMENT") else "r" if kind == "RECOVERY" else "f" if kind.startswith("FLAPPING") else "s"
        head = f"{self.count};{self.moment};{it.name};{kind};{now.state}"
        stopped = self.filter_of(number, kind, letter)
        if stopped:
            self.lines.append(f"S;{head};{stopped}")
            if kind == "PROBLEM":
                now.ready = self.ready_after(number, stopped)
            if now.last is not None and now.last[2] and self.ends_wait(number, kind, stopped):
                now.over = True
            return
        matching = []
        if kind in ("PROBLEM", "RECOVERY"):
            matching = self.matching(number, now.sent + (kind == "PROBLEM"), letter)
            head = f"{head};{now.sent + 1}"
        else:
            if "esc_other" in self.choices and now.state not in NO_PROBLEM:
                matching = self.matching(number, now.sent, LETTERS[now.state])
            head = f"{head};-"
        receivers = sorted({contact for one in matching for contact in one.contacts}) if matching else it.contacts
        asks = "told" in self.choices and kind == "RECOVERY" and it.host is not None
        passed = [self.tell(number, head, contact, letter, now.letters if asks else None) for contact in receivers]
        if kind == "PROBLEM":
            gap = 60 * min((one.interval for one in matching), default=it.interval)
            if "nobody" in self.choices and not any(passed):
                now.ready = self.moment + 60
                return
            now.sent, now.last, now.ready = now.sent + 1, (now.state, self.moment, gap), self.moment + gap if gap else None
            now.over, now.letters = False, now.letters | {letter}

    def tell(self, number, head, contact, letter, letters):
        """Tells a contact, or says what stopped it. Whether the contact's filters passed."""
        person = self.configuration.people[contact]
        rights = person.rights[self.configuration.objects[number].kind]
        stopped = self.first([("ContactDisabled", not rights.enabled), ("ContactOptions", letter not in rights.options),
                              ("ContactPeriod", not self.holds(rights.period, self.moment)),
                              ("ContactNotTold", letters is not None and not letters & set(rights.options))])
        if stopped:
            self.lines.append(f"C;{head};{person.name};{stopped}")
            return False
        for lane in rights.lanes:
            self.lines.append(f"N;{head};{person.name};{self.configuration.lanes[lane]}")
            self.notices.append((self.count, number, contact, lane))
        return True

    # ---- one event

    def take(self, stamp, kind, number=None, word=None):
        self.moment = max(self.moment, stamp)
        if kind == "CLOCK":
            self.clock()
        elif kind in ("ENABLE_NOTIFICATIONS", "DISABLE_NOTIFICATIONS"):
            self.is_on = kind == "ENABLE_NOTIFICATIONS"
        else:
            {"STATE": self.state, "DOWNTIME": self.downtime, "FLAPPING": self.flapping, "ACK": self.take_on, "TOLD_ACK": self.take_on_aloud,
             "NOTIFICATIONS": self.switch}[kind](number, word)
        self.count += 1

    def clock(self):
        if "at_results" in self.choices:
            return
        for number, now in enumerate(self.statuses):
            if now.state not in NO_PROBLEM and now.ready is not None and now.ready <= self.moment:
                self.attempt(number, "PROBLEM")

    def state(self, number, word):
        now, host = self.statuses[number], self.configuration.objects[number].host
        before, now.state = now.state, word
        begins = word not in GOOD and before in NO_PROBLEM
        # By the daemon's rule a problem of a service that stays as it was attempts the problem of its host.
        if "host_repeats" in self.choices and host is not None and word not in GOOD and word == before:
            if self.statuses[host].state not in NO_PROBLEM:
                self.attempt(host, "PROBLEM")
        if now.taken_on is not None and (word in GOOD or now.taken_on[0] == "NORMAL" and word != now.taken_on[1]):
            now.taken_on = None
        if word != before if "delay" in self.choices else begins:
            now.since = self.moment
        if word != before and "reset_wait" in self.choices:
            now.over = True
        if word in GOOD:
            if before not in NO_PROBLEM:
                self.attempt(number, "RECOVERY")
            return
        if begins:
            now.sent, now.last, now.ready, now.letters = 0, None, None, frozenset()
        self.renewed = number if self.configuration.objects[number].volatile else None
        self.attempt(number, "PROBLEM")
        self.renewed = None

    def take_on(self, number, word):
        now = self.statuses[number]
        if word == "NONE":
            if now.taken_on is not None:
                now.taken_on, now.ready = None, self.moment
        elif now.state not in NO_PROBLEM:
            now.taken_on = (word, now.state)

    def take_on_aloud(self, number, word):
        """Somebody takes the problem on, and contacts are told of that."""
        self.take_on(number, word)
        if self.statuses[number].state not in NO_PROBLEM:
            self.attempt(number, "ACKNOWLEDGEMENT")

    def switch(self, number, word):
        self.statuses[number].switched = word == "ON"

    def downtime(self, number, word):
        now = self.statuses[number]
        if word == "START":
            now.downtimes += 1
            if now.downtimes == 1:
                self.attempt(number, "DOWNTIMESTART")
        elif now.downtimes:
            now.downtimes -= 1
            if now.downtimes == 0:
                self.attempt(number, "DOWNTIMEEND" if word == "END" else "DOWNTIMECANCELLED")

    def flapping(self, number, word):
        now = self.statuses[number]
        if now.flapping != (word == "START"):
            now.flapping = word == "START"
            self.attempt(number, f"FLAPPING{word}")
