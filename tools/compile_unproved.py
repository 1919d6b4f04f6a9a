"""Compiles the program notify_run as its sources stand, unproved, as `rt try` does, and keeps what is compiled.

  python3 tools/compile_unproved.py FILE

`rt try` compiles with the address sanitizer, runs the program once and keeps nothing. Here the kit's compiler is called through two small scripts, which leave the sanitizer out and keep
the program: so it runs as fast as one, and within limits of memory. Checks stay in it of what a proof would have shown, such as that no sum overflows."""
import os
import shutil
import stat
import sys
import tempfile

sys.dont_write_bytecode = True
import kit  # noqa: E402
from kit import rtlib  # noqa: E402

PROGRAM = "notify_run"
# The compiler, with its words but for the sanitizer.
COMPILER = """#!/bin/sh
for word in "$@"; do
    shift
    case "$word" in
        -fsanitize=address) ;;
        -O0) set -- "$@" -O1 ;;
        *) set -- "$@" "$word" ;;
    esac
done
exec "{kit}/toolchain/bin/clang" "$@"
"""
# The linker, without the archive that is linked whole, which is the sanitizer's; the program that it makes is copied.
LINKER = """#!/bin/sh
whole=
made=
for word in "$@"; do
    shift
    case "$word" in
        --whole-archive) whole=yes ;;
        --no-whole-archive) whole= ;;
        *) if [ -z "$whole" ]; then set -- "$@" "$word"; fi
            if [ "$made" = next ]; then made="$word"; elif [ "$word" = -o ]; then made=next; fi ;;
    esac
done
"{kit}/toolchain/bin/ld.lld" "$@" || exit
exec /bin/cp "$made" "{file}"
"""


def shadow(room, file):
    """Makes a folder that stands for the kit's, with links to all that is in it but for the two scripts."""
    real = rtlib.KIT
    os.makedirs(f"{room}/toolchain/bin")
    for folder in ("", "/toolchain", "/toolchain/bin"):
        for name in os.listdir(real + folder):
            if not os.path.lexists(f"{room}{folder}/{name}"):
                os.symlink(f"{real}{folder}/{name}", f"{room}{folder}/{name}")
    for name, text in (("clang", COMPILER), ("ld.lld", LINKER)):
        path = f"{room}/toolchain/bin/{name}"
        os.remove(path)
        with open(path, "w", encoding="utf-8") as it:
            it.write(text.format(kit=real, file=file))
        os.chmod(path, os.stat(path).st_mode | stat.S_IXUSR)


def program():
    return next(it for it in kit.crates() if it.name == PROGRAM)


def is_of_these_sources(file):
    """Returns whether the file was compiled of the sources as they stand."""
    return os.path.exists(file) and rtlib.text_of(f"{file}.stamp") == program().stamp()


def main(file):
    crate, file = program(), os.path.abspath(file)
    stamp = crate.stamp()
    os.makedirs(os.path.dirname(file), exist_ok=True)
    with tempfile.TemporaryDirectory(prefix="rt-unproved-") as room:
        made = f"{room}/made"
        shadow(f"{room}/kit", made)
        # (what else `rt try` starts is a check that only gives hints)
        rtlib.KIT, rtlib.RATTLE, os.environ["TMPDIR"] = f"{room}/kit", "/bin/true", room
        os.chdir(crate.folder)
        crate.try_unproved([], ["--version"])
        if not os.path.exists(made):
            return 1
        shutil.copy(made, f"{file}.new")
        os.replace(f"{file}.new", file)
    with open(f"{file}.stamp", "w", encoding="utf-8") as it:
        it.write(stamp)
    return 0


if __name__ == "__main__":
    sys.exit(main(*sys.argv[1:]))
