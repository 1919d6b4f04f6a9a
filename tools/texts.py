"""Looks at the text of each crate as `rt ci` does before it proves one, in seconds: names that could mean something else, links, files that nothing reads, and the form that
`rt fmt` gives. A crate that is refused here is not proved in a gate, however its own check went.

  python3 tools/texts.py

The last line is 'N passed, M failed'."""
import os
import sys

sys.dont_write_bytecode = True
import kit  # noqa: E402
from kit import rt, rtlib  # noqa: E402


def is_taken(crate, every):
    """Returns whether the crate's text is taken; what stops it is printed."""
    try:
        rtlib.stop_on_links(crate.folder)
        rtlib.stop_on_unread(crate.folder, every)
        rtlib.stop_on_text(crate, "verdict")
        rt.stop_on_words(crate)
    except SystemExit:
        return False
    return not rtlib.fmt(crate.folder, "--check", sys.stdout)


def main():
    every = kit.crates()
    refused = [it.name for it in every if not is_taken(it, every)]
    for name in refused:
        print(f"{name}: its text is refused")
    print(f"{len(every) - len(refused)} passed, {len(refused)} failed")
    return 1 if refused else 0


if __name__ == "__main__":
    os.chdir(kit.TOP)
    sys.exit(main())
