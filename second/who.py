"""What the command `who` writes, its status, and what it says on standard error: by the replay of a made feed, line by line."""
from commands import replay
from configuration import Configuration
from object_text import Refused, read

WEEK = 10_080
STATES = {False: ["UP", "DOWN", "UNREACHABLE"], True: ["OK", "WARNING", "UNKNOWN", "CRITICAL"]}
HEAD = ["letter", "event", "moment", "object", "kind", "state"]
FIELDS = {"N": [*HEAD, "number", "contact", "command"], "S": [*HEAD, "filter"], "C": [*HEAD, "number", "contact", "filter"], "R": ["letter", "line", "fault"]}


def fields(line):
    """The fields of a line of a report, by their names."""
    values = line.split(";")
    return dict(zip(FIELDS[values[0]], values, strict=True))


def made(supposed, minutes):
    """The feed of what is supposed."""
    down, host, service, state, moment = supposed
    stamp, of = f"[{moment}] ", f"{host};{service}" if service is not None else host
    feed = "".join(f"{stamp}HOST_STATE;{name};DOWN\n" for name in down) + f"{stamp}{'HOST' if service is None else 'SERVICE'}_STATE;{of};{state}\n"
    return feed + "".join(f"[{moment + 60 * minute}] CLOCK\n" for minute in range(1, minutes + 1))


def unknown(configuration, supposed):
    """What isn't known of it, the first that is found."""
    down, host, service, state, _ = supposed
    for name in [*down, host]:
        if configuration.find(name, None) is None:
            return f"no host {name}"
    if service is not None and configuration.find(host, service) is None:
        return f"no service {host}/{service}"
    if state not in STATES[service is not None]:
        return f"no {'host' if service is None else 'service'} state {state}"
    return None


def row(line, local):
    """The row of a line: a notice with its local time, a refused line as it is, and nothing of any other."""
    of = fields(line)
    if of["letter"] == "N":
        return "  ".join([local(int(of["moment"])), of["number"], of["contact"], of["command"], of["object"]]) + "\n"
    return f"{line}\n" if of["letter"] == "R" else ""


def of_escalations(configuration, number, person, within):
    """Which escalations of an object name somebody and haven't begun or don't match, or have begun and leave out one of the object's own."""
    # a recovery is matched with the number of the last notice, which is one less than its own
    numbers = {kind: [int(line["number"]) for line in within if line["letter"] in "NC" and line["kind"] == kind] for kind in ("PROBLEM", "RECOVERY")}
    begun = max([*numbers["PROBLEM"], *(number - 1 for number in numbers["RECOVERY"])], default=-1)
    own, said = person in configuration.objects[number].contacts, ""
    for at, escalation in enumerate((it for it in configuration.escalations if it.object == number), 1):
        begins = f"escalation {at} begins with notice {escalation.first}"
        if person in escalation.contacts:
            said += f"{begins} and doesn't match; " if begun >= escalation.first else f"{begins}; "
        elif own and begun >= escalation.first:
            said += f"{begins} without it; "
    return said


def why(configuration, number, person, name, within):
    """Why somebody isn't told of an object, by the fields of its lines."""
    if not configuration.people[person].rights[configuration.objects[number].kind].lanes:
        return "no notification command; "
    refused = [line["filter"] for line in within if line["letter"] == "C" and line["contact"] == name]
    if refused:
        return f"{refused[0]}; "
    if any(line["letter"] != "S" for line in within):
        return of_escalations(configuration, number, person, within)
    if within:
        return f"{within[0]['filter']}; "
    return of_escalations(configuration, number, person, within) or "nothing is due; "


def missing(configuration, number, person, until, lines):
    """What is said of somebody: nothing where a notice went to them up to a moment; else the name, why not, and the line by which they are told later on."""
    name = configuration.people[person].name
    told = [line for line in lines if line["letter"] == "N" and line["contact"] == name]
    if any(int(line["moment"]) <= until for line in told):
        return []
    within = [line for line in lines if int(line["moment"]) <= until]
    return [(name, why(configuration, number, person, name, within), told[0] if told else None)]


def missed_row(missed, local):
    """The row of somebody who isn't told."""
    name, reason, told = missed
    when = f"told {local(int(told['moment']))}, notice {told['number']}" if told else "not within a week"
    return f"not told  {name}  {reason}{when}\n"


def told_and_missed(text, supposed, minutes):
    """The status, the lines of the report of what is supposed for so many minutes, who is missing in it, and the fault."""
    try:
        configuration = Configuration(read(text.encode()))
    except Refused as refusal:
        return 1, [], [], str(refusal)
    _, host, service, _, moment = supposed
    fault = unknown(configuration, supposed)
    if fault:
        return 2, [], [], f"usage: {fault}"
    status, lines, _ = replay(f"{text}%events\n{made(supposed, minutes)}".encode())
    number, name = configuration.find(host, service), host if service is None else f"{host}/{service}"
    week = replay(f"{text}%events\n{made(supposed, WEEK)}".encode())[1]
    of = [line for line in map(fields, week) if line.get("object") == name]
    named = {*configuration.objects[number].contacts, *(person for it in configuration.escalations if it.object == number for person in it.contacts)}
    return status, lines, [it for person in sorted(named) for it in missing(configuration, number, person, moment + 60 * minutes, of)], ""


def who(text, supposed, minutes, local):
    """Who is told of what is supposed for so many minutes, given how a moment is shown, and who isn't."""
    status, lines, missed, fault = told_and_missed(text, supposed, minutes)
    if fault:
        return status, "", fault
    rows = "".join(row(line, local) for line in lines) or "nobody is told\n"
    return status, rows + "".join(missed_row(it, local) for it in missed), ""


def missed_json(missed, local):
    """The members of the object of somebody who isn't told, in order."""
    name, reason, told = missed
    moment, number = (int(told["moment"]), told["number"]) if told else (None, "-")
    return [("letter", "M"), ("contact", name), ("reason", reason[:-2]), ("moment", moment), ("local", None if moment is None else local(moment)), ("number", None if number == "-" else int(number))]
