"""Makes the manual page of notify-run and its completions for bash, zsh and fish, out of what the program itself says to `--help`: so a new command or option stands in them by itself.

  python3 tools/manual.py             writes man/notify-run.1 and completions/, of the program that NOTIFY_RUN names or that is built here
  python3 tools/manual.py FOLDER      writes man/ and completions/ in that folder"""
import os
import re
import subprocess
import sys
from typing import NamedTuple

TOP = os.path.dirname(os.path.dirname(os.path.realpath(__file__)))
NAME = "notify-run"
SECTION = re.compile(r"(?m)^(Usage|Commands|Arguments|Options):")
# An option or a word of a list, where it begins.
ENTRY = re.compile(r" {2,6}((?:-\w, )?--?[\w-]+|\[?<?[A-Z][\w-]*>?\]?(?:\.\.\.)?)(?: <([\w=-]+)>)?(?: {2,}(\S.*))?$")


class Entry(NamedTuple):
    """An option or a word of a command: its spellings, the name of its value or none, and what is said of it, in paragraphs."""

    spellings: tuple
    value: str
    told: tuple


class Help(NamedTuple):
    """What the program says of itself, or of a command: the text before the usage, the usage, the commands with a line each, words, options, and the text at the end."""

    about: str
    usage: str
    commands: dict
    words: list
    options: list
    end: str


def program():
    """Returns the program that is asked."""
    return os.environ.get("NOTIFY_RUN") or f"{TOP}/crates/notify_run/out/notify_run"


def said(*words):
    return subprocess.run([program(), *words], stdin=subprocess.DEVNULL, stdout=subprocess.PIPE, check=True, text=True).stdout


def entries(text):
    found, told = [], []
    for line in text.split("\n"):
        head = ENTRY.match(line)
        if head:
            told = [head[3]] if head[3] else []
            found.append((tuple(head[1].split(", ")), head[2] or "", told))
        elif line.strip():
            told.append(line.strip())
    return [Entry(spellings, value, tuple(told)) for spellings, value, told in found]


def read(text):
    """Reads what `--help` says."""
    parts = SECTION.split(text)
    found = dict(zip(parts[1::2], parts[2::2]))
    # (what follows the last list stands at the margin)
    lines = parts[-1].split("\n")
    at = next((it for it, line in enumerate(lines[1:], 1) if line and not line.startswith(" ")), len(lines))
    found[parts[-2]], end = "\n".join(lines[:at]), "\n".join(lines[at:])
    commands = dict(re.findall(r"(?m)^ {2}([\w-]+) {2,}(\S.*)$", found.get("Commands", "")))
    return Help(parts[0].strip(), found["Usage"].strip(), commands, entries(found.get("Arguments", "")), entries(found.get("Options", "")), end.strip())


def escaped(text):
    """A text of the manual page."""
    return re.sub(r"(?m)^([.'])", r"\\&\1", text.replace("\\", "\\e").replace("-", "\\-"))


def paragraphs(text):
    """A text in paragraphs: what is indented stays as it is."""
    lines = []
    for part in re.split(r"\n\n+", text):
        if part.startswith(" "):
            lines += [".PP", ".nf", escaped(part), ".fi"]
        else:
            lines += [".PP", escaped(part)]
    return lines


def listed(entries):
    """A list of options or words."""
    lines = []
    for it in entries:
        names = ", ".join(f"\\fB{escaped(name)}\\fR" for name in it.spellings)
        lines += [".TP", names + (f" \\fI{escaped(it.value)}\\fR" if it.value else ""), escaped(" ".join(it.told)) or "."]
    return lines


def manual(top, commands, version):
    """The manual page."""
    lines = [f'.TH NOTIFY\\-RUN 1 "" "{NAME} {version}" "User Commands"', ".SH NAME", f"notify\\-run \\- {escaped(top.about[0].lower() + top.about[1:])}", ".SH SYNOPSIS"]
    for it in commands.values():
        lines += [f".B {escaped(it.usage)}", ".br"]
    lines += [f".B {escaped(NAME)} \\-\\-help | \\-\\-version", ".SH COMMANDS"]
    for name, it in commands.items():
        lines += [f".SS {escaped(name)}", *paragraphs(top.commands[name] + "."), *paragraphs(it.about), *listed([*it.words, *it.options])]
    lines += [".SH OPTIONS", *listed(top.options)]
    heading, _, rest = top.end.partition("\n")
    if heading.endswith(":"):
        lines += [f".SH {heading[:-1].upper()}", *paragraphs(rest)]
    else:
        lines += paragraphs(top.end)
    return "\n".join(lines) + "\n"


def spelled(help_of):
    return [name for it in help_of.options for name in it.spellings]


def is_file(entry):
    return entry.value in ("FILE", "PATH", "FOLDER")


def bash(top, commands):
    """The completion for bash."""
    files = [f'"{name} {spelling}"' for name, it in commands.items() for one in it.options if is_file(one) for spelling in one.spellings]
    others = [f'"{name} {spelling}"' for name, it in commands.items() for one in it.options if one.value and not is_file(one) for spelling in one.spellings]
    words = [f'        {name}) words="{" ".join(spelled(it))}" ;;' for name, it in commands.items()]
    lines = [
        f"# bash completion for {NAME}, made by tools/manual.py",
        "_notify_run() {",
        '    local word="${COMP_WORDS[COMP_CWORD]}" before="${COMP_WORDS[COMP_CWORD - 1]}" command="" words="" it',
        "    COMPREPLY=()",
        '    for it in "${COMP_WORDS[@]:1:COMP_CWORD-1}"; do',
        '        case "$it" in',
        f'            {" | ".join(commands)})',
        '                command="$it"',
        "                break",
        "                ;;",
        "        esac",
        "    done",
        '    case "$command $before" in',
        *([f'        {" | ".join(files)})', '            mapfile -t COMPREPLY < <(compgen -f -- "$word")', "            return", "            ;;"] if files else []),
        *([f'        {" | ".join(others)}) return ;;'] if others else []),
        "    esac",
        '    case "$command" in',
        f'        "") words="{" ".join([*commands, *spelled(top)])}" ;;',
        *words,
        "    esac",
        '    mapfile -t COMPREPLY < <(compgen -W "$words" -- "$word")',
        "}",
        f"complete -o default -F _notify_run {NAME}",
    ]
    return "\n".join(lines) + "\n"


def quoted(text):
    return text.replace("'", "'\\''")


def in_zsh(entry):
    """An option or a word as `_arguments` takes it."""
    told = quoted(re.sub(r"([\[\]:])", r"\\\1", " ".join(entry.told)))
    if not entry.spellings[0].startswith("-"):
        return f"'*:{quoted(entry.spellings[0].strip('[]<>.').lower())}:_default'"
    value = f":{entry.value.lower()}:{'_files' if is_file(entry) else ''}" if entry.value else ""
    if len(entry.spellings) == 1:
        return f"'{entry.spellings[0]}[{told}]{value}'"
    return f"'({' '.join(entry.spellings)})'{{{','.join(entry.spellings)}}}'[{told}]{value}'"


def zsh(top, commands):
    """The completion for zsh."""
    described = " ".join(f"{name}\\:{quoted(json_like(told))}" for name, told in top.commands.items())
    lines = [f"#compdef {NAME}", "# made by tools/manual.py", "_notify_run() {", "    local context state line", "    typeset -A opt_args", "    _arguments -C \\"]
    lines += [f"        {in_zsh(it)} \\" for it in top.options]
    lines += [f"        '1:command:(({described}))' \\", "        '*::word:->rest'", "    [[ $state == rest ]] || return", "    case $words[1] in"]
    for name, it in commands.items():
        given = " \\\n                ".join(map(in_zsh, [*it.options, *it.words]))
        lines += [f"        {name})", f"            _arguments \\\n                {given}", "            ;;"]
    return "\n".join([*lines, "    esac", "}", '_notify_run "$@"']) + "\n"


def json_like(text):
    return '"' + text.replace('"', '\\"').replace(":", "\\:") + '"'


def fish(top, commands):
    """The completion for fish."""
    lines = [f"# fish completion for {NAME}, made by tools/manual.py", f"complete -c {NAME} -n '__fish_use_subcommand' -f"]
    rows = [("__fish_use_subcommand", it) for it in top.options]
    for name, it in commands.items():
        lines.append(f"complete -c {NAME} -n '__fish_use_subcommand' -a {name} -d '{in_fish(top.commands[name])}'")
        rows += [(f"__fish_seen_subcommand_from {name}", one) for one in it.options]
    for where, it in rows:
        names = " ".join(f"-l {one[2:]}" if one.startswith("--") else f"-s {one[1:]}" for one in it.spellings)
        value = " -r -F" if is_file(it) else " -x" if it.value else ""
        lines.append(f"complete -c {NAME} -n '{where}' {names}{value} -d '{in_fish(' '.join(it.told))}'")
    return "\n".join(lines) + "\n"


def in_fish(text):
    return text.replace("\\", "\\\\").replace("'", "\\'")


def texts():
    """Returns each file that is made, by its path, with its text."""
    top = read(said("--help"))
    commands = {name: read(said(name, "--help")) for name in top.commands}
    version = said("--version").split()[1]
    return {
        "man/notify-run.1": manual(top, commands, version),
        "completions/notify-run.bash": bash(top, commands),
        "completions/_notify-run": zsh(top, commands),
        "completions/notify-run.fish": fish(top, commands),
    }


def main(folder=TOP):
    for path, text in texts().items():
        os.makedirs(os.path.dirname(f"{folder}/{path}"), exist_ok=True)
        with open(f"{folder}/{path}", "w", encoding="utf-8") as it:
            it.write(text)


if __name__ == "__main__":
    sys.exit(main(*sys.argv[1:]))
