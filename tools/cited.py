"""What a crate's text cites of the libraries below it: by name, the signatures with their clauses, the types and the definitions of specs/. A function's body and a proof aren't cited.

It reads texts in the form that `rt fmt` gives. A name is looked for as a word of the crate's text, comments too, so more may count as cited than is meant, and never less."""
import functools
import hashlib
import os
import re

from kit import rtlib

HEAD_OF_FUNCTION = re.compile(r" *(?:pub(?:\([^)]*\))? )?(const )?(?:unsafe )?fn (\w+)")
DECLARES = re.compile(r"(?:pub(?:\([^)]*\))? )?(?:unsafe )?(?:struct|enum|union|trait|const|static|type) (\w+)")
GHOST = re.compile(r" +(?:pub )?ghost (\w+)(?: =|:)")
# Words that stand before the name of a definition.
BEFORE_NAME = re.compile(r"(?:(?:pub|abbrev|unfoldable|opaque|data|record|mutual|infix[lr]?|\d+)\s+)*")
# What ends a name in specs/ and proofs/.
WORD = re.compile(r"[^\s(){},.;|]+")


def words_of(crate):
    """Returns all words of a crate's text."""
    found = set()
    for path in rtlib.files_of(crate.folder):
        text = rtlib.text_of(path)
        found.update(re.findall(r"\w+", text), WORD.findall(text))
    return found


def end_of_function(lines, at):
    """Returns the number of the line at which the signature that begins there ends, and that of the function's last line."""
    low, depth = " " * (len(lines[at]) - len(lines[at].lstrip())), 0
    for number in range(at, len(lines)):
        line = lines[number]
        if not depth and line == f"{low}{{" or line.endswith("{") and (number == at or line.startswith(f"{low})")):
            return number, next((it for it in range(number, len(lines)) if lines[it] == f"{low}}}"), len(lines) - 1)
        depth += sum(map(line.count, "([{")) - sum(map(line.count, ")]}"))
        if depth <= 0 and line.endswith((";", "}")) and (number == at or line.endswith(";")):
            return number, number
    return len(lines) - 1, len(lines) - 1


def names_of(item):
    """Returns the names by which an item that is no function is cited: its own and those of its ghost parts, or the type of an `impl`."""
    own = DECLARES.match(item[0])
    if own:
        return {own[1]} | {it[1] for it in map(GHOST.match, item) if it}
    head = " ".join(item[: next((it for it, line in enumerate(item) if line.endswith("{")), 0) + 1])
    head = re.sub(r"->|=>", "", head)
    while re.search(r"<[^<>]*>", head):
        head = re.sub(r"<[^<>]*>", "", head)
    return set(re.findall(r"\w{2,}", head.split(" for ")[-1].split(" where")[0])) - {"impl", "unsafe", "dyn", "crate"}


def of_code(text):
    """Returns the declarations of a file of src/, each as the names by which it is cited and its text: each signature, and the rest of each item, by what it names at its head."""
    found, rest, at = [], [], 0
    lines = [it for it in text.split("\n") if it.strip() and not it.lstrip().startswith("//")]
    while at < len(lines):
        head = HEAD_OF_FUNCTION.match(lines[at])
        if not head:
            rest.append(lines[at])
            at += 1
            continue
        signed, last = end_of_function(lines, at)
        found.append(({head[2]}, lines[at : (last if head[1] else signed) + 1]))
        at = last + 1
    item = []
    for line in [*rest, "use the_end;"]:
        if item and not line.startswith((" ", ")", "}", "]", ">", "where", "{")):
            if not re.match(r"(pub(\([^)]*\))? )?(ghost )?(use|mod)\b|#", item[0]):
                found.append((names_of(item), item))
            item = []
        item.append(line)
    return found


def of_specs(text):
    """Returns the declarations of a file of specs/: each definition with all its lines, by its name and the names of its fields or constructors."""
    found, name = [], None
    for line in text.split("\n"):
        if not line.strip() or line.lstrip().startswith("--"):
            continue
        if line.startswith((" ", "\t", "}", ")", "]")):
            field = re.match(r"\s+(?:pub )?([^\s:(){},]+) (?:.* )?: ", line)
            if found and name:
                found[-1][0].update([field[1]] if field else [])
                found[-1][1].append(line)
            continue
        first = WORD.match(line, BEFORE_NAME.match(line).end())
        told = first[0] if first else ""
        if told == "use":
            name = None
        elif told == name:
            found[-1][1].append(line)
        else:
            name = told
            found.append(({told}, [line]))
    return found


@functools.lru_cache(maxsize=None)
def declared(folder):
    """Returns the declarations of a library: of each the names and a sum of its text."""
    found = []
    for path in rtlib.files_of(folder):
        short = os.path.relpath(path, folder)
        read = of_code if path.endswith(".rt") else of_specs if short.startswith("specs/") else None
        for names, lines in read(rtlib.text_of(path)) if read else []:
            text = "\n".join(it.strip() for it in lines)
            found.append((names, hashlib.sha256(f"{short}\n{text}\n".encode()).hexdigest()))
    return found


def sum_of_cited(crate):
    """Returns a sum of all that the crate's text cites of the libraries below it. An operator counts as cited."""
    total, words = hashlib.sha256(), words_of(crate)
    for library in crate.below():
        for names, told in declared(library.folder):
            if names & words or any("◌" in it for it in names):
                total.update(f"{library.name} {told}\n".encode())
    return total.hexdigest()
