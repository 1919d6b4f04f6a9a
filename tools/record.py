"""The file edits/RECORD: for each crate how many of its edits were refused, in how many processor seconds, on what day, and the sum of all that this rests on."""
import contextlib
import fcntl
import hashlib
import os
from typing import NamedTuple

import cited
import kit
from kit import rtlib

FILE = f"{kit.TOP}/edits/RECORD"


class Line(NamedTuple):
    """A line of the file but for its crate's name. The day is written as 2026-11-29."""

    number: int
    seconds: int
    day: str
    ground: str


def ground(crate, edits):
    """Returns the sum of all that the trial of a crate's edits rests on: the kit's logic, its line of crates.txt, the edits, its own text, and what that cites of the libraries below
    it by name. It is of texts alone, so nothing has to be built for it."""
    total = hashlib.sha256(f"{kit.logic()}\n{crate.name}: {sorted(crate.said.get('deps', []))}\n".encode())
    for file in edits:
        total.update(f"{os.path.basename(file)} {rtlib.sum_of(file)}\n".encode())
    for file in rtlib.files_of(crate.folder):
        total.update(f"{os.path.relpath(file, crate.folder)} {rtlib.sum_of(file)}\n".encode())
    total.update(cited.sum_of_cited(crate).encode())
    return total.hexdigest()


@contextlib.contextmanager
def alone():
    """Waits until no other thread or process writes the file."""
    folder = os.open(os.path.dirname(FILE), os.O_RDONLY)
    try:
        fcntl.flock(folder, fcntl.LOCK_EX)
        yield
    finally:
        os.close(folder)


class Record:
    """The lines of the file, by the names of their crates."""

    def __init__(self):
        self.read()

    def read(self):
        lines = [it.split() for it in (rtlib.text_of(FILE) or "").split("\n")]
        self.lines = {it[0]: Line(int(it[1]), int(it[2]), it[3], it[4]) for it in lines if len(it) == 5 and it[1].isdigit() and it[2].isdigit()}

    def holds(self, crate, edits, total):
        """Returns whether the line of the crate says that all these edits were refused over this ground."""
        known = self.lines.get(crate.name)
        return bool(known) and (known.number, known.ground) == (len(edits), total)

    def seconds(self, crate):
        """Returns how many processor seconds the crate's edits take: those of its line, or a guess by the length of its text."""
        known = self.lines.get(crate.name)
        return known.seconds if known else 20 + crate.count(rb"\n") // 5

    def day(self, crate):
        """Returns the day on which the crate's edits were last tried, or a text before all days."""
        known = self.lines.get(crate.name)
        return known.day if known else ""

    def write(self, crate, line):
        """Writes a line, or takes it away where it is None. The file is whole at each moment, and other runs here may write their lines meanwhile."""
        with alone():
            self.read()
            if line:
                self.lines[crate.name] = line
            else:
                self.lines.pop(crate.name, None)
            with open(f"{FILE}.new", "w", encoding="utf-8") as it:
                it.writelines(" ".join([name, *map(str, line)]) + "\n" for name, line in sorted(self.lines.items()))
            os.replace(f"{FILE}.new", FILE)
