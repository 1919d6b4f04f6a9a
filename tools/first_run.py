"""Proves the libraries below the program notify_run side by side, and then proves and builds the program. What is proved already stays, so a run that was broken off goes
on where it was. How far it is stands on standard error: one line that is written over, or a line for each crate where standard error is no terminal.

  python3 tools/first_run.py LOG      writes what the kit prints into the file LOG"""
import os
import subprocess
import sys
import threading
import time

sys.dont_write_bytecode = True
import kit  # noqa: E402
from kit import rt  # noqa: E402

PROGRAM = "notify_run"
# Measured: how many minutes of one processor all proofs of the libraries and the program take, and those along the longest chain of crates, which no number of processors
# shortens much.
PROOFS, CHAIN = 230, 64


class Progress:
    """How many crates are proved, told on standard error."""

    def __init__(self, done, of):
        self.done, self.of, self.began = done, of, time.time()
        self.is_terminal, self.telling, self.ended = sys.stderr.isatty(), threading.Lock(), threading.Event()
        if self.is_terminal:
            threading.Thread(target=self.tick, daemon=True).start()

    def line(self):
        return f"notify-run: {self.done} of {self.of} crates proved, {(time.time() - self.began) / 60:.0f} minutes"

    def tell(self):
        with self.telling:
            print(f"\r{self.line()}\x1b[K" if self.is_terminal else self.line(), end="" if self.is_terminal else "\n", file=sys.stderr, flush=True)

    def tick(self):
        while not self.ended.wait(5):
            self.tell()

    def one_more(self):
        self.done += 1
        self.tell()

    def end(self):
        self.ended.set()
        if self.is_terminal:
            print(file=sys.stderr)


def minutes(lacking, every):
    """Returns about how many minutes the proofs of the crates that are lacking take, of all these, with the processors that there are."""
    share = sum(it.count(rb"\n") for it in lacking) / sum(it.count(rb"\n") for it in every)
    return max(1, round(share * max(PROOFS / rt.processors(), CHAIN)))


def main(log):
    kit.begin()
    program = next(it for it in kit.crates() if it.name == PROGRAM)
    libraries = kit.libraries_below([program])
    lacking = kit.lacking(libraries)
    every, left = len(libraries) + 1, len(lacking) + 1
    say = f"notify-run: {left} of {every} crates are to be proved first: with {rt.processors()} processors some {minutes([*lacking, program], [*libraries, program])} minutes"
    print(f"{say}; what is proved stays, if it is broken off", file=sys.stderr, flush=True)
    progress = Progress(every - left, every)
    with open(log, "a", encoding="utf-8") as out:

        def tell(done, of, crate, is_proved, said):
            print(said, end="", file=out, flush=True)
            if is_proved:
                progress.one_more()

        well = kit.build(libraries, tell)
        kit.release()
        if well:
            ran = subprocess.run([f"{kit.TOP}/tools/rt", "run", "--", "--version"], cwd=program.folder, stdin=subprocess.DEVNULL, stdout=out, stderr=out)
            if os.path.exists(f"{program.folder}/out/{PROGRAM}") and not ran.returncode:
                progress.one_more()
    progress.end()


if __name__ == "__main__":
    main(sys.argv[1])
