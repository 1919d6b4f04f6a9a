"""Edits of a crate that the prover must refuse: how one is read, which function it changes, and how many are tried in one check.

An edit is a file of lines `file: PATH`, and pairs of `old: TEXT` and `new: TEXT`, one line each, as `rt help` says. Other lines are for a reader."""
import os
import re
import shutil
import signal
import subprocess
import tempfile
import threading
import time
from typing import NamedTuple, Optional

import kit
from kit import ONE_JOB, rt, rtlib

# What a check says of each function.
STATE = re.compile(r"(?m)^fn (\S+): (proved|not proved|no proof|could not tell)(.*)$")
# A line that places an error, or a goal that is not proved.
PLACED = re.compile(r"(?m)^(note: )?(?:\./)?((?:src|specs|proofs)/\S+?):(\d+):\d+: (.*)$")
# What is said of a name that is not there, since the file that has it was refused too. It tells nothing of the function that cites it.
OF_A_NAME = re.compile(r"is not in scope|has no field|has no `|is no name|was not admitted|could not be read")
HEAD_OF_FUNCTION = re.compile(r" *(?:pub(?:\([^)]*\))? )?(const )?(?:unsafe )?fn (\w+)")
HEAD_OF_ITEM = re.compile(r" *(?:pub(?:\([^)]*\))? )?(?:unsafe )?(?:impl|trait|mod|struct|enum|union|const|static|macro_rules)\b")
# A line that goes on with the head of an item.
GOES_ON = (")", "}", "]", ">", "where", "{")


class Function(NamedTuple):
    """A function in whose body alone an edit changes something: its file, its first and last line, a pattern of the name that the prover has for it,
    and that name where `--only` takes it."""

    file: str
    first: int
    last: int
    pattern: str
    name: Optional[str]


class Edit(NamedTuple):
    """An edit: its file, its triples of a path, an old and a new text, and the function that it changes, or None where it changes something else."""

    path: str
    pairs: list
    function: Optional[Function]


def pairs_of(text):
    """Returns the triples of a path, an old and a new text."""
    found, path, old = [], "", None
    for line in text.split("\n"):
        if line.startswith("file: "):
            path = line[len("file: ") :].strip()
        elif line.startswith("old: "):
            old = line[len("old: ") :]
        elif line.startswith("new:") and old:
            found.append((path, old, re.sub(r"\A ", "", line[len("new:") :])))
            old = None
    return found


def applied(texts, folder, pairs):
    """Returns the texts by their paths with these pairs applied, or None where an old text does not stand there once."""
    texts = dict(texts)
    for path, old, new in pairs:
        text = texts.get(path) or rtlib.text_of(f"{folder}/{path}") or ""
        if text.count(old) != 1:
            return None
        texts[path] = text.replace(old, new)
    return texts


def indent(line):
    return len(line) - len(line.lstrip(" "))


def head_above(lines, at, pattern):
    """Returns the number of the line above that one, at a smaller indent, which begins an item: the number is negative where it is of another kind."""
    low = indent(lines[at])
    for number in range(at - 1, -1, -1):
        line = lines[number]
        if not line.strip() or indent(line) >= low or line.lstrip().startswith(GOES_ON):
            continue
        low = indent(line)
        if pattern.match(line):
            return number
        if HEAD_OF_FUNCTION.match(line) or HEAD_OF_ITEM.match(line):
            return None
    return None


def type_of(lines, at):
    """Returns the type and the trait, or None, of the `impl` that holds the line, if it is one of a plain type."""
    head = head_above(lines, at, re.compile(r"impl\b"))
    if head is None:
        return None
    text = ""
    for line in lines[head:at]:
        text += f" {line.strip()}"
        if line.endswith("{"):
            break
    text = re.sub(r"->|=>", "", text)
    while re.search(r"<[^<>]*>", text):
        text = re.sub(r"<[^<>]*>", "", text)
    found = re.match(r" impl\s*(?:([\w:]+) for )?([\w:]+)\s*(?:where\b.*)?\{$", text)
    return (found[2].split("::")[-1], found[1] and found[1].split("::")[-1]) if found else None


def module_of(path):
    """Returns the module of a file below src/, after `::`."""
    return re.sub(r"::(lib|main|mod)$", "", "::".join(["", *path[len("src/") : -len(".rt")].split("/")]))


def declared_in(crate, path, type_name):
    """Returns the file that declares a type of which this file has an `impl`: the prover names a method after the type's own module."""
    item = re.compile(rf"(?m)^ *(?:pub(?:\([^)]*\))? )?(?:struct|enum|union) {type_name}\b")
    files = [os.path.relpath(it, crate.folder) for it in rtlib.files_of(crate.folder) if it.endswith(".rt")]
    found = [it for it in files if it.startswith("src/") and item.search(rtlib.text_of(f"{crate.folder}/{it}"))]
    return path if path in found or len(found) != 1 else found[0]


def function_at(crate, path, lines, at):
    """Returns the function whose body holds the line, by rt fmt's layout; None where there is none, or where more may rest on its body than its own proof, as on
    a `const fn`."""
    first = head_above(lines, at, HEAD_OF_FUNCTION)
    if first is None:
        return None
    head = HEAD_OF_FUNCTION.match(lines[first])
    low = " " * indent(lines[first])
    begins = next((it for it in range(first, at) if lines[it] == f"{low}{{" or lines[it].endswith("{") and (it == first or lines[it].startswith(f"{low})"))), None)
    last = next((it for it in range(at, len(lines)) if lines[it] == f"{low}}}"), None)
    if head[1] or begins is None or last is None:
        return None
    kind = type_of(lines, first) if low else ("", None)
    if kind is None:
        return None
    type_name, trait = kind
    module = module_of(declared_in(crate, path, type_name) if type_name and not trait else path)
    middle = f"::{type_name}" if type_name else ""
    name = f"{module[2:]}{middle}::{head[2]}".removeprefix("::")
    pattern = f"{crate.name}::{name}" if not trait else rf"{crate.name}{module}{middle}{trait}\w*::{head[2]}"
    return Function(path, first + 1, last + 1, pattern, None if trait else name)


def function_of(crate, pairs):
    """Returns the one function in whose body all lies that the pairs change but for white space, or None."""
    found, texts = set(), applied({}, crate.folder, pairs)
    for path, text in (texts or {}).items():
        lines = rtlib.text_of(f"{crate.folder}/{path}").split("\n")
        changed = [at for at, (old, new) in enumerate(zip(lines, text.split("\n"))) if re.sub(r"\s", "", old) != re.sub(r"\s", "", new)]
        if not path.startswith("src/") or any(re.search(r"\b(fn|ensures|requires|ghost|impl|struct|const|static|mod)\b", lines[at]) for at in changed):
            return None
        found.update(function_at(crate, path, lines, at) for at in changed)
    return found.pop() if len(found) == 1 else None


def read(crate, path):
    """Reads an edit of the crate."""
    pairs = pairs_of(rtlib.text_of(path) or "")
    return Edit(path, pairs, function_of(crate, pairs))


class Clock(threading.local):
    """The processor seconds of the checks that this thread started."""

    seconds = 0.0


class Budget:
    """Processor seconds that checks in several threads may take; none where any number may. A check that began ends, also once they are spent."""

    def __init__(self, seconds=None):
        self.left, self.taking = seconds, threading.Lock()

    def take(self, seconds):
        with self.taking:
            if self.left is not None:
                self.left -= seconds

    def is_spent(self):
        return self.left is not None and self.left <= 0


clock = Clock()
budget = Budget()


def run_check(crate, texts, words, kept):
    """Checks a copy of the crate with these texts in place of its own, over what `kept` holds where it is given, and counts its processor seconds."""
    with tempfile.TemporaryDirectory(prefix=f"rt-edit-{os.getpid()}-") as room, tempfile.TemporaryFile() as said:
        for part in rtlib.PARTS:
            if os.path.isdir(f"{crate.folder}/{part}"):
                shutil.copytree(f"{crate.folder}/{part}", f"{room}/{part}")
        for path, text in texts.items():
            with open(f"{room}/{path}", "w", encoding="utf-8") as it:
                it.write(text)
        line = [rtlib.RATTLE, "check", *crate.words(ONE_JOB, keeps=False), *words, *(["--incremental", kept] if kept else [])]
        started = subprocess.Popen([*rtlib.guarded(), *line], cwd=room, stdin=subprocess.DEVNULL, stdout=said, stderr=subprocess.STDOUT)
        _, status, usage = os.wait4(started.pid, 0)
        started.returncode = -os.WTERMSIG(status) if os.WIFSIGNALED(status) else os.WEXITSTATUS(status)
        clock.seconds += usage.ru_utime + usage.ru_stime
        budget.take(usage.ru_utime + usage.ru_stime)
        said.seek(0)
        text = said.read().decode("utf-8", "replace")
    return subprocess.CompletedProcess(line, started.returncode, text)


# The kit's own trial of one edit then counts its seconds too.
rt.checked = lambda crate, texts, flags, kept: run_check(crate, texts, [], kept)


class Said(NamedTuple):
    """What a check said: the state of each function, and the lines that place an error or an open goal."""

    states: dict
    placed: list


def said_by(text):
    states = {it[1]: (it[2], it[3]) for it in STATE.finditer(text)}
    return Said(states, [(it[2], int(it[3]), it[4]) for it in PLACED.finditer(text) if it[1] is None or it[2].startswith("src/")])


def has_own_fault(crate, said, name, function=None):
    """Returns whether that function fails for a reason of its own: an error in its own folder of proofs/, or at its own lines where they are given. That it
    calls a function which isn't proved is none. Nor is anything where a proof of its own cites a name that another's refused file would have."""
    state, why = said.states[name]
    if state not in ("not proved", "no proof"):
        return False
    folder = "/".join(["proofs", *name.split("::")[1:], ""])
    in_folder = [told for file, _, told in said.placed if file.startswith(folder)]
    if any(OF_A_NAME.search(it) for it in in_folder):
        return False
    if function:
        lines = range(function.first, function.last + 1)
        return bool(in_folder) or any(file == function.file and line in lines for file, line, _ in said.placed)
    return bool(in_folder) or state == "not proved" and not why or "did not prove" in why


def named(said, function):
    """Returns the name that the prover has for the function, if one alone fits."""
    fits = [it for it in said.states if re.fullmatch(function.pattern, it)]
    return fits[0] if len(fits) == 1 else None


def refused_in(crate, batch, said):
    """Returns those edits of a batch that are refused by the proofs of their own functions; None where a function fails for a reason of its own though nothing in it was
    changed, or where the check says nothing of functions."""
    owners = {named(said, it.function): it for it in batch}
    owners.pop(None, None)
    if not said.states or any(has_own_fault(crate, said, name) for name in said.states if name not in owners):
        return None
    return [it for name, it in owners.items() if has_own_fault(crate, said, name, it.function)]


def try_batch(crate, batch, kept, count):
    """Tries these edits, each of another function, in one check, and returns those that it refuses. Where the check is of no use, halves are tried."""
    texts, taken = {}, []
    for it in batch:
        made = applied(texts, crate.folder, it.pairs)
        if made is not None:
            texts, taken = made, [*taken, it]
    only = [it.function.name for it in taken]
    words = [word for name in only for word in ("--only", name)] if all(only) else []
    count()
    found = refused_in(crate, taken, said_by(run_check(crate, texts, words, kept).stdout))
    if found is None and len(taken) > 1:
        half = len(taken) // 2
        return try_batch(crate, taken[:half], kept, count) + try_batch(crate, taken[half:], kept, count)
    return found or []


def rounds_of(edits):
    """Returns the edits in rounds: each has one edit at most of each function."""
    rounds = []
    for it in edits:
        free = next((one for one in rounds if it.function not in [other.function for other in one]), None)
        if free is None:
            rounds.append([it])
        else:
            free.append(it)
    return rounds


def try_alone(crate, edit, kept):
    """Tries an edit by itself as `rt ci` does: over what is proved already, and from nothing where that shows nothing. Returns whether it was refused, and what to say."""
    if kept and os.listdir(kept):
        with tempfile.TemporaryDirectory(prefix=f"rt-edits-{os.getpid()}-") as room:
            kit.copied(kept, f"{room}/over")
            is_refused, text = kit.must_fail(crate, edit.path, f"{room}/over")
        if is_refused and kit.is_sound(crate, kept):
            return is_refused, text
    return kit.must_fail(crate, edit.path)


class Tried(NamedTuple):
    """What came of a crate's edits: those that were not refused, each with what to say; how many were tried; the processor seconds; and a line of what was done."""

    lost: list
    number: int
    seconds: int
    done: str


def try_all(crate, paths):
    """Tries these edits of a crate, those first that come first, until the budget is spent."""
    clock.seconds, began, checks = 0.0, time.time(), []
    edits = [read(crate, it) for it in paths]
    alone, refused, lost, number = [it for it in edits if not it.function], [], [], 0
    with tempfile.TemporaryDirectory(prefix=f"rt-edits-{os.getpid()}-") as kept:
        for batch in rounds_of([it for it in edits if it.function]):
            if budget.is_spent():
                break
            good = try_batch(crate, batch, kept, lambda: checks.append(1))
            refused += good
            alone += [it for it in batch if it not in good]
        for it in alone:
            if budget.is_spent():
                break
            number += 1
            is_refused, text = try_alone(crate, it, kept)
            if not is_refused:
                lost.append((it.path, text))
    tried = len(refused) + number
    done = f"{crate.name}: {tried - len(lost)} of {tried} edits refused, {len(refused)} of them in {len(checks)} checks of many, {number} tried alone"
    return Tried(lost, tried, round(clock.seconds), f"{done}, {time.time() - began:.0f} s, {clock.seconds:.0f} of a processor")
