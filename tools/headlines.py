#!/usr/bin/env python3
"""What one must read to believe a headline statement: its contract, and each definition of this repository that the contract names, that those name in turn, and so on.

  python3 tools/headlines.py             a line for each headline: how many definitions, and of how many lines
  python3 tools/headlines.py NAME        the definitions of one headline, by crate and file: NAME is a call, as `replay::replay_files`

Definitions stand in the crates' specs/claims/, and types in src/: a definition that stands elsewhere is told, and is a failure. Names of the kit aren't followed. A line counts
unless it is empty or a comment."""
import functools
import os
import re
import sys

sys.dont_write_bytecode = True
sys.path.insert(0, os.path.dirname(os.path.realpath(__file__)))
import cited  # noqa: E402

TOP = os.path.dirname(os.path.dirname(os.path.realpath(__file__)))
# The calls whose contracts are the headline statements, each with the type that it is a method of, if it is one.
HEADLINES = [
    "object_resolve::load",
    "event_feed::Feeder::next",
    "decider::Decider::decide",
    "replay::replay_files",
    "world_steps::World::run",
    "engine::Engine::run",
    "run_command::run",
]
IMPORT = re.compile(r"(?:ghost )?(?:pub )?use Rattle\.(\w+)\.specs\.([\w.]+)\.\{([^}]*)\}")
GIVEN_ON = re.compile(r"(?m)^pub use Rattle\.(\w+)\.specs\.([\w.]+)\.\{([^}]*)\}")
WHOLE = re.compile(r"(?:ghost )?(?:pub )?use Rattle\.(\w+)\.specs\.([\w.]+) as (\w+)")
WORD = re.compile(r"[^\W\d][\w'-]*|◌\S+|\S+◌")
OF_A_MODULE = re.compile(r"(?<![\w.'])([^\W\d]\w*)\.([^\W\d][\w'-]*)")


def text_of(path):
    with open(path, encoding="utf-8") as it:
        return it.read()


@functools.lru_cache(maxsize=None)
def source(crate, kind):
    """Returns the files of a crate's src/ or specs/ with their texts, by their paths."""
    found, folder = {}, f"{TOP}/crates/{crate}/{kind}"
    for at, _, names in sorted(os.walk(folder)):
        for name in sorted(names):
            if name.endswith((".rt", ".antt")):
                found[f"{at}/{name}"] = text_of(f"{at}/{name}")
    return found


def imports(text):
    """Returns what a file imports of specs/: for each name the crate, the module and the name there."""
    found = {}
    for crate, module, names in IMPORT.findall(text):
        for name in filter(None, (it.strip() for it in names.split(","))):
            own, _, here = name.partition(" as ")
            found[here or own] = (crate, module, own)
    for crate, module, here in WHOLE.findall(text):
        found[here] = (crate, module, "")
    return found


def head_of(line):
    """Returns the name that a definition's first line defines."""
    found = cited.WORD.match(line, cited.BEFORE_NAME.match(line).end())
    return found[0] if found else ""


def block(text, name, is_code):
    """Returns the lines of the definition or declaration of a name in a file, without comments."""
    for names, lines in (cited.of_code if is_code else cited.of_specs)(text):
        if name in names and (is_code or head_of(lines[0]) == name):
            return [it for it in lines if it.strip() and not it.lstrip().startswith(("--", "//"))]
    return []


def bound_in(lines, is_code):
    """Returns the names that stand for values within a definition: its parameters, what a λ or a binder names, and its fields."""
    text, found = "\n".join(lines), set()
    for names in re.findall(r"λ ([^.]*)\.", text) + re.findall(r"[({]([\w' ]+) : ", text) + re.findall(r"(?m)^\s+(?:pub )?([\w' ]+) : ", text):
        found.update(re.findall(r"[\w']+", names))
    if not is_code:
        for line in lines:
            if line[:1].strip() and "=" in line:
                left = line.split(" = ")[0].removesuffix(" =")
                found.update(it for it in re.findall(r"[a-z][\w']*", left) if it != head_of(line))
    return found - {head_of(lines[0])}


def place(crate, module, name):
    """Returns the file that declares a name and the lines of that, or None where it isn't of this repository."""
    if not os.path.isdir(f"{TOP}/crates/{crate}"):
        return None
    parts = module.split(".")
    if parts[0] == "declared":
        # a type of the code; one of its variants or fields stands for it
        name = parts[-2] if parts[-1] in ("TheVariants",) else parts[-1]
        for path, text in source(crate, "src").items():
            lines = [it for it in block(text, name, True) if not it.lstrip().startswith("fn ")]
            if lines and re.search(rf"\b(struct|enum|trait|union) {name}\b", lines[0]):
                return path, name, lines
        return None
    path = f"{TOP}/crates/{crate}/specs/{'/'.join(parts)}.antt"
    if not os.path.isfile(path):
        return None
    lines = block(text_of(path), name, False)
    if lines:
        return path, name, lines
    # (it may give on what another module defines)
    for other, its_module, names in GIVEN_ON.findall(text_of(path)):
        if name in map(str.strip, names.split(",")):
            return place(other, its_module, name)
    return None


def contract_of(headline):
    """Returns the file of a headline's call and the lines of its contract."""
    crate, *owner, name = headline.split("::")
    for path, text in source(crate, "src").items():
        if owner and not re.search(rf"(?m)^impl\b.*\b{owner[0]}\b", text):
            continue
        for names, lines in cited.of_code(text):
            if name in names and any("ensures" in it for it in lines) and "fn " in lines[0]:
                return path, lines
    sys.exit(f"{headline} has no contract")


def closure_of(headline):
    """Returns the contract's lines, and each definition below it: its file, its name and its lines."""
    path, lines = contract_of(headline)
    found, todo = {}, [(path, lines)]
    while todo:
        path, lines = todo.pop()
        text = text_of(path)
        known, is_code = imports(text), path.endswith(".rt")
        crate = os.path.relpath(path, f"{TOP}/crates").split("/")[0]
        module = None if is_code else os.path.relpath(path, f"{TOP}/crates/{crate}/specs")[: -len(".antt")].replace("/", ".")
        said = "\n".join(lines)
        words = set(WORD.findall(said)) - bound_in(lines, is_code)
        targets = [known.get(word) or (None if is_code else (crate, module, word)) for word in words]
        targets += [(*known[here][:2], name) for here, name in OF_A_MODULE.findall(said) if here in known and not known[here][2]]
        for target in targets:
            there = place(*target) if target else None
            if there and there[:2] not in found:
                found[there[:2]] = there[2]
                todo.append((there[0], there[2]))
    return contract_of(headline)[1], found


def measured(headline):
    """Returns how many lines the contract of a headline has, how many definitions stand below it, of how many lines, and those of specs/ that aren't among the claims."""
    contract, found = closure_of(headline)
    outside = [f"{os.path.relpath(path, f'{TOP}/crates')}: {name}" for path, name in sorted(found) if "/specs/" in path and "/specs/claims/" not in path]
    return len(contract), len(found), sum(map(len, found.values())), outside


def main():
    asked, failed = sys.argv[1:] or HEADLINES, 0
    for headline in asked:
        contract, count, lines, outside = measured(headline)
        print(f"{headline}: {contract} lines of contract, {count} definitions of {lines} lines")
        for place in outside:
            print(f"  not among the claims: {place}")
        failed += len(outside)
        if sys.argv[1:]:
            for (path, name), of in sorted(closure_of(headline)[1].items()):
                print(f"  {os.path.relpath(path, TOP + '/crates')}: {name} ({len(of)})")
    return 1 if failed else 0


if __name__ == "__main__":
    sys.exit(main())
