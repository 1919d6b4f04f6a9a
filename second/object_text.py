"""Object text: its lines, its blocks, and the first fault that a text has."""
import re
from dataclasses import dataclass, field
from nagios_text import day_value, is_lone, standard, without_value

TYPES = """host hostgroup service servicegroup contact contactgroup timeperiod command hostescalation serviceescalation
hostdependency servicedependency hostextinfo serviceextinfo""".split()
MOST_BYTES, MOST_OF_A_LINE = 16_777_216, 4_096
BLANKS = " \t"
# The words with which a day line of a time period begins, beside those that begin with a digit.
DAY_WORDS = """day sunday monday tuesday wednesday thursday friday saturday january february march april may june july august september
october november december""".split()


class Refused(Exception):
    """The text is refused, and what standard error says of it."""

    def __init__(self, fault, line=None):
        super().__init__(f"objects: {fault}" if line is None else f"objects: line {line}: {fault}")


@dataclass
class Directive:
    name: str
    value: str
    has_colon: bool
    line: int


@dataclass
class Block:
    type: str
    line: int
    directives: list = field(default_factory=list)


def joined_lines(data):
    """Gives each joined line with the number of its first physical line, and whether that is all of it."""
    physical = data.split(b"\n")
    ended = len(physical) - 1
    if physical[-1] == b"":
        physical.pop()
    place = 0
    while place < len(physical):
        first, text, goes_on = place + 1, b"", True
        while goes_on and place < len(physical):
            raw = physical[place]
            line = raw.removesuffix(b"\r") if place < ended else raw
            if len(raw) > MOST_OF_A_LINE:
                raise Refused("LineTooLong", first)
            try:
                line.decode()
            except UnicodeDecodeError:
                raise Refused("NotUtf8", first) from None
            goes_on = line.endswith(b"\\") and not line.endswith(b"\\\\")
            line = line.removesuffix(b"\\")
            text += line if place + 1 == first else line.lstrip(BLANKS.encode())
            place += 1
        yield first, text.decode(), place == first


def meant(text):
    """What a joined line says, without its comment and its escapes."""
    text = text.strip(BLANKS)
    if text[:1] in ("#", ";"):
        return ""
    return re.split(r"(?<!\\);", text, maxsplit=1)[0].strip(BLANKS).replace("\\;", ";")


def directive(kind, text, line, lone):
    """The directive that a line of a block is; none where Nagios reads it as nothing. A `lone` one may be without a value."""
    words = re.split(r"[ \t]+", text)
    with_colon = [place for place, word in enumerate(words) if ":" in word]
    is_day_line = kind == "timeperiod" and (words[0] in DAY_WORDS or words[0][0] in "0123456789")
    if is_day_line and len(words) > 1 and ":" not in words[0]:
        place = with_colon[0] if with_colon else len(words)
        return Directive(" ".join(words[:place]), "".join(words[place:]), bool(with_colon), line)
    value = text[len(words[0]):].strip(BLANKS)
    if not value and not (lone and is_lone(text) and not (words[0] in DAY_WORDS or words[0][0] in "0123456789")):
        raise Refused("NoValue", line)
    return Directive(words[0], value, bool(with_colon), line)


def as_nagios(kind, it):
    """What Nagios reads in a directive; none where that is nothing."""
    name = standard(kind, it.name)
    value = it.value or without_value(kind, name)
    if kind == "timeperiod" and (name in DAY_WORDS[1:8] or name.split(" ")[0] in DAY_WORDS or name[0] in "0123456789"):
        value = day_value(value)
    return None if value is None else Directive(name, value, it.has_colon, it.line)


def read(data, nagios=False):
    """The blocks of a text, as this project reads it or as Nagios does."""
    if len(data) > MOST_BYTES:
        raise Refused("TooLarge")
    blocks, block = [], None
    for line, joined, is_one in joined_lines(data):
        text = meant(joined)
        if not text:
            continue
        if block is None:
            opening = re.fullmatch(r"define[ \t]+([^ \t{]+)[ \t]*\{", text)
            if not opening:
                raise Refused("NotADefine", line)
            if opening[1] not in TYPES:
                raise Refused("UnknownType", line)
            block = Block(opening[1], line)
        elif text == "}":
            blocks.append(block)
            block = None
        elif re.split(r"[ \t]+", text)[0] == "define":
            raise Refused("Unclosed", block.line)
        else:
            given = directive(block.type, text, line, nagios and is_one)
            given = as_nagios(block.type, given) if nagios else given
            block.directives += [] if given is None else [given]
    if block is not None:
        raise Refused("Unclosed", block.line)
    return blocks
