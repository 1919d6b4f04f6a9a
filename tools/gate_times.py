"""Runs a command, as `rt ci`, and writes into a file how many processor seconds each crate took in it: its proof, its tests, and its edits. `.ci/run` shows it in its last lines.

  python3 tools/gate_times.py FILE rt ci

It ends with the command's status. It looks at the kit's processes once a second, so what ends within a second is counted short."""
import os
import subprocess
import sys
import threading
import time

sys.dont_write_bytecode = True
import kit  # noqa: E402
from record import Record  # noqa: E402

TICKS = os.sysconf("SC_CLK_TCK")


def text_of(path):
    try:
        with open(path, "rb") as it:
            return it.read().decode("utf-8", "replace")
    except OSError:
        return ""


def look(seen):
    """Notes of each process of the kit that checks or builds a crate: the crate, what it does, and its processor seconds so far."""
    for pid in filter(str.isdigit, os.listdir("/proc")):
        words = text_of(f"/proc/{pid}/cmdline").split("\0")
        if len(words) < 3 or not words[0].endswith("/rattle") or "--crate-name" not in words:
            continue
        try:
            folder = os.readlink(f"/proc/{pid}/cwd")
        except OSError:
            continue
        stat = text_of(f"/proc/{pid}/stat").rpartition(")")[2].split()
        if len(stat) < 20:
            continue
        kind = "edits" if "/rt-edit-" in folder else "tests" if "--test" in words else "proof"
        crate = words[words.index("--crate-name") + 1]
        # (a copy that it forked has the parent's words, and is counted in the parent once it has ended)
        seen[pid, stat[19]] = (crate, kind, sum(map(int, stat[11:15])) / TICKS, stat[1])


def sums(seen):
    pids = {pid for pid, _ in seen}
    found = {}
    for crate, kind, seconds, parent in seen.values():
        if parent not in pids:
            found[crate, kind] = found.get((crate, kind), 0) + seconds
    return found


def table(found, record):
    names = [it.name for it in kit.crates()]
    rows = ["| crate | proof | tests | edits tried | edits in edits/ | their seconds by edits/RECORD |", "|---|---|---|---|---|---|"]
    total = [0, 0, 0, 0, 0]
    for name in names:
        number, seconds, *_ = record.lines.get(name, (0, 0))
        cells = [*(found.get((name, it), 0) for it in ("proof", "tests", "edits")), number, seconds]
        total = [one + other for one, other in zip(total, cells)]
        rows.append(f"| `{name}` | {' | '.join(f'{it:.0f}' if it else '' for it in cells)} |")
    return [*rows, f"| all | {' | '.join(f'{it:.0f}' for it in total)} |"]


def main(file, *command):
    seen, ended, began = {}, threading.Event(), time.time()
    ran = subprocess.Popen(command, stdout=subprocess.PIPE, text=True, errors="replace")

    def watch():
        while not ended.wait(1):
            look(seen)

    watching = threading.Thread(target=watch)
    watching.start()
    last = ""
    for line in ran.stdout:
        print(line, end="", flush=True)
        last = line.strip() or last
    ran.wait()
    ended.set()
    watching.join()
    took = time.time() - began
    head = [
        "# How long a gate takes",
        "",
        f"Written by `tools/gate_times.py`: processor seconds of each crate in a run of `{' '.join(command)}`, with {kit.identity()}, {len(os.sched_getaffinity(0))} processors "
        f"and RT_JOBS={os.environ.get('RT_JOBS', 'as the gate sets it')}. It took {took / 60:.0f} minutes ({took:.0f} s). Its last line: `{last}`.",
        "",
    ]
    with open(file, "w", encoding="utf-8") as it:
        it.write("\n".join([*head, *table(sums(seen), Record()), ""]))
    return ran.returncode


if __name__ == "__main__":
    if len(sys.argv) < 3:
        sys.exit(__doc__)
    sys.exit(main(*sys.argv[1:]))
