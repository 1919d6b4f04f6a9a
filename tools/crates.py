#!/usr/bin/env python3
"""The crates by family, lowest first, each with the sentence that its source begins with.

  python3 tools/crates.py           prints all
  python3 tools/crates.py WORD..    prints those whose name or sentence has each of the words

With --promises it prints of each what its page, crates/NAME/README.md, says: what carries its promise, what that says and what it doesn't."""
import os
import re
import sys
import textwrap

TOP = os.path.dirname(os.path.dirname(os.path.realpath(__file__)))


def families():
    """Returns, in the order of crates.txt, each family with its crates: the name of each, and the crates and libraries that it stands on."""
    found = []
    with open(f"{TOP}/crates.txt") as lines:
        for line in map(str.strip, lines):
            if line.startswith("# "):
                found.append((line[2:], []))
            elif line:
                name, _, below = line.partition(":")
                found[-1][1].append((name, below.split()))
    return [it for it in found if it[1]]


def sentence(crate):
    """Returns the first sentence of a crate's source, or nothing where it begins with none."""
    for file in ("lib.rt", "main.rt"):
        path = f"{TOP}/crates/{crate}/src/{file}"
        if os.path.exists(path):
            with open(path) as lines:
                head = re.match(r"(?://! ?.*\n)+", lines.read())
            text = " ".join(line[3:].strip() for line in head[0].splitlines()) if head else ""
            return re.sub(r" \(chapters? [^)]*\)", "", re.split(r"(?<=\.)\s", text)[0])
    return ""


def page(crate):
    """Returns what the page of a crate says, by the words that each part begins with, or None where it has no such page."""
    path = f"{TOP}/crates/{crate}/README.md"
    if not os.path.exists(path):
        return None
    with open(path) as lines:
        text = lines.read()
    found = {name: " ".join(said.split()) for name, said in re.findall(r"(?m)^\*\*([^*:]+):\*\* (.*(?:\n(?!\n).*)*)", text)}
    return found if text.startswith(f"# `{crate}`\n") and "Carried by" in found else None


def faults_of_layers():
    """Yields, for each crate, what is wrong with where it stands and how its source begins, or nothing."""
    above = [name for _, crates in families() for name, _ in crates]
    for _, crates in families():
        for name, below in crates:
            above.remove(name)
            late = next((it for it in below if it in above), None)
            if late:
                yield f"crates.txt: {name} stands before {late}, on which it stands"
            else:
                yield None if sentence(name) else f"{name}: its source doesn't begin with a sentence"


if __name__ == "__main__":
    words = [it for it in sys.argv[1:] if it != "--promises"]
    for family, crates in families():
        shown = [(name, sentence(name)) for name, _ in crates]
        shown = [it for it in shown if all(word in " ".join(it) for word in words)]
        if shown:
            print(family)
        for name, said in shown:
            print(f"  {name:24} {said}")
            if "--promises" in sys.argv[1:]:
                for part, text in (page(name) or {}).items():
                    print(textwrap.fill(f"{part}: {text}", 140, initial_indent="      ", subsequent_indent="        ", break_on_hyphens=False))
