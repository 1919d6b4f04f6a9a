"""Runs scripts of tests/ side by side, first those that took longest when this was written, and tells what each said once it has ended, and its seconds.

  python3 tools/run_tests.py LANES SCRIPT..

The last line is 'N passed, M failed', the sum of what the scripts' last lines say. A script that fails and doesn't say of what is one failure."""
import os
import re
import subprocess
import sys
import tempfile
import threading
import time
from concurrent.futures import ThreadPoolExecutor

COUNTED = re.compile(r"(?m)^(\d+) passed, (\d+) failed$")
LONGEST = ["growths", "planted-edits", "launcher", "devices", "schedules", "scale", "hostile"]
# The first measures how long things take; the other takes all processors and their memory.
ALONE = ["waits", "wrong-bodies"]
telling = threading.Lock()


def counted(said, status):
    """Returns how many passed and failed by what a script said and its exit status."""
    found = COUNTED.findall(said)
    if not found:
        return 0, 1
    passed, failed = map(int, found[-1])
    return passed, failed or int(status != 0)


def run(script):
    """Runs a script and tells what came of it. Returns its path, its seconds, how many passed and how many failed."""
    began = time.monotonic()
    with tempfile.TemporaryFile() as out:
        status = subprocess.run([script], stdin=subprocess.DEVNULL, stdout=out, stderr=subprocess.STDOUT).returncode
        out.seek(0)
        said = out.read().decode("utf-8", "replace")
    took = time.monotonic() - began
    with telling:
        print(f"== {script}\n{said.rstrip()}\n{script}: {took:.0f} s", flush=True)
    return (script, took, *counted(said, status))


def place(script):
    name = os.path.basename(script)
    return LONGEST.index(name) if name in LONGEST else len(LONGEST)


def main(lanes, *scripts):
    alone = sorted((it for it in scripts if os.path.basename(it) in ALONE), key=lambda it: ALONE.index(os.path.basename(it)))
    with ThreadPoolExecutor(int(lanes)) as pool:
        came = list(pool.map(run, sorted((it for it in scripts if it not in alone), key=place)))
    came += map(run, alone)
    print("seconds: " + ", ".join(f"{os.path.basename(script)} {took:.0f}" for script, took, _, _ in came))
    for script, _, _, bad in came:
        if bad:
            print(f"{script}: {bad} failed")
    failed = sum(it for _, _, _, it in came)
    print(f"{sum(it for _, _, it, _ in came)} passed, {failed} failed")
    return 1 if failed else 0


if __name__ == "__main__":
    sys.exit(main(*sys.argv[1:]))
