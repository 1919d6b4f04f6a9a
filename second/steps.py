"""The world of steps: deciders, queues and lanes, each step by itself."""
from rules import Rules


class Lane:
    def __init__(self, standbys):
        self.queue, self.hand, self.taken, self.undelivered = [], [], [], []
        self.failures, self.standbys, self.asked, self.shut = 0, standbys, False, False


class World:
    def __init__(self, configuration, events, deciders, queue, tries, standbys):
        self.configuration, self.events = configuration, events
        self.most_queued, self.tries = queue, tries
        self.posted, self.decided = 0, [0] * deciders
        self.deciders = [Rules(configuration) for _ in range(deciders)]
        self.outboxes = [[[] for _ in configuration.lanes] for _ in range(deciders)]
        self.lanes = [Lane(standbys) for _ in configuration.lanes]

    def number(self, word):
        is_decider = word.isascii() and word.isdigit() and int(word) < len(self.deciders)
        return int(word) if is_decider else None

    def lane(self, name):
        return self.configuration.lanes.index(name) if name in self.configuration.lanes else None

    def do(self, line):
        """Does what a step line says: none where it did, else why not."""
        name, _, rest = line.partition(" ")
        if line == "post":
            return None if self.post() else "NotEnabled"
        if name == "decide":
            decider = self.number(rest)
            return "BadStep" if decider is None else None if self.decide(decider) else "NotEnabled"
        if name == "put":
            word, _, rest = rest.partition(" ")
            decider, lane = self.number(word), self.lane(rest)
            if decider is None or lane is None:
                return "BadStep"
            return None if self.put(decider, lane) else "NotEnabled"
        lane = self.lane(rest)
        if name not in ("pick", "settle", "fail", "ask", "replace", "close", "drain") or lane is None:
            return "BadStep"
        return None if getattr(self, name)(self.lanes[lane]) else "NotEnabled"

    def post(self):
        enabled = self.posted < len(self.events)
        self.posted += enabled
        return enabled

    def decide(self, decider):
        if self.decided[decider] >= self.posted:
            return False
        rules = self.deciders[decider]
        rules.notices = []
        rules.take(*self.events[self.decided[decider]])
        self.decided[decider] += 1
        for notice in rules.notices:
            if notice[1] % len(self.deciders) == decider:
                self.outboxes[decider][notice[3]].append(notice)
        return True

    def put(self, decider, number):
        outbox, lane = self.outboxes[decider][number], self.lanes[number]
        if not outbox or len(lane.queue) >= self.most_queued:
            return False
        lane.queue.append(outbox.pop(0))
        return True

    def pick(self, lane):
        if lane.shut or lane.asked or lane.hand or not lane.queue:
            return False
        lane.hand.append(lane.queue.pop(0))
        return True

    def settle(self, lane):
        if lane.shut or not lane.hand:
            return False
        lane.taken.append(lane.hand.pop())
        lane.failures = 0
        return True

    def fail(self, lane):
        if lane.shut or not lane.hand or lane.failures >= self.tries:
            return False
        lane.failures += 1
        return True

    def ask(self, lane):
        if lane.shut or lane.asked:
            return False
        lane.asked = True
        return True

    def replace(self, lane):
        if lane.shut or lane.asked or lane.failures < self.tries or not lane.standbys:
            return False
        lane.standbys -= 1
        lane.failures = 0
        return True

    def close(self, lane):
        if lane.shut or not (lane.asked or lane.failures == self.tries and not lane.standbys):
            return False
        lane.undelivered += lane.hand
        lane.hand, lane.shut = [], True
        return True

    def drain(self, lane):
        if not lane.shut or not lane.queue:
            return False
        lane.undelivered.append(lane.queue.pop(0))
        return True

    def lines(self):
        """What each lane holds of each object."""
        for number, lane in enumerate(self.lanes):
            for of, it in enumerate(self.configuration.objects):
                outbox = self.outboxes[of % len(self.deciders)][number]
                lists = (lane.taken, lane.hand, lane.undelivered, lane.queue, outbox)
                yield ";".join(["L", self.configuration.lanes[number], it.name, *(self.shown(notices, of) for notices in lists)])

    def shown(self, notices, of):
        return ",".join(f"{event}:{self.configuration.people[contact].name}" for event, number, contact, _ in notices if number == of) or "-"
