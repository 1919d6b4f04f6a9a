"""The lines of a feed: what each says, or the first reason why it says nothing."""
import re

WORDS = {"HOST_STATE": ("UP", "DOWN", "UNREACHABLE"), "SERVICE_STATE": ("OK", "WARNING", "UNKNOWN", "CRITICAL")}
WORDS |= {f"{of}_DOWNTIME": ("START", "END", "CANCELLED") for of in ("HOST", "SERVICE")}
WORDS |= {f"{of}_FLAPPING": ("START", "STOP") for of in ("HOST", "SERVICE")}
WORDS |= {f"{of}_ACK": ("STICKY", "NORMAL", "NONE") for of in ("HOST", "SERVICE")}
WORDS |= {f"{of}_NOTIFICATIONS": ("ON", "OFF") for of in ("HOST", "SERVICE")}
PLAIN = ("CLOCK", "ENABLE_NOTIFICATIONS", "DISABLE_NOTIFICATIONS")
LAST_MOMENT, MOST_OF_A_LINE = 32_503_679_999, 4_096


def event_in(configuration, line):
    """The event of a line, as `Rules.take` takes it, or the fault of the line."""
    if len(line) > MOST_OF_A_LINE:
        return None, "LineTooLong"
    try:
        text = line.decode()
    except UnicodeDecodeError:
        return None, "NotUtf8"
    stamp = re.match(r"\[([0-9]+)\] ", text)
    if not stamp or int(stamp[1]) > LAST_MOMENT:
        return None, "BadStamp"
    name, *arguments = text[stamp.end():].split(";")
    if name not in WORDS and name not in PLAIN:
        return None, "UnknownKind"
    count = 0 if name in PLAIN else 2 if name.startswith("HOST") else 3
    # Behind the word of an acknowledgement this one may stand.
    told = name.endswith("_ACK") and len(arguments) == count + 1 and arguments[count] == "NOTIFY"
    if len(arguments) != count + told:
        return None, "BadState"
    if name in PLAIN:
        return (int(stamp[1]), name), None
    *names, word = arguments[:count]
    number = configuration.find(*names)
    if number is None:
        return None, "UnknownObject"
    if word not in WORDS[name] or told and word == "NONE":
        return None, "BadState"
    if told:
        return (int(stamp[1]), "TOLD_ACK", number, word), None
    return (int(stamp[1]), name.split("_")[1], number, word), None


def answers(configuration, data):
    """For each line of a feed its number, its event or none, and its fault or none. A line without an end is cut."""
    *lines, last = data.split(b"\n")
    for number, line in enumerate(lines, 1):
        if line:
            yield number, *event_in(configuration, line)
    if last:
        yield len(lines) + 1, None, "Cut"
