"""What the scripts here ask of the kit: its command `rt`, which is a Python program, loaded as a module; the crates of this repository; and the
libraries below them, as they were built.

A library that a crate names is read from what a build left of it. `rt ci` builds libraries of its own, which some kits keep beside themselves and others leave in the clone, and
`rt check` and `rt run` build theirs in the clone, in `crates/NAME/out/rlib`. Neither reads the other's, and a mixture of the two can't be used. What a library states is the same
text in both, wherever the clone stands."""
import contextlib
import copy
import functools
import importlib.machinery
import importlib.util
import os
import shutil
import signal
import sys
import tempfile
import threading

TOP = os.path.dirname(os.path.dirname(os.path.realpath(__file__)))
# Each check takes one processor, so that as many run side by side as there are.
ONE_JOB = ["--jobs", "1"]


def load():
    """Returns the kit's command as a module. It reads its own words as it is loaded, so it gets none."""
    program = shutil.which("rt")
    if not program:
        sys.exit("the command rt of the Rattle kit, which proves and builds, isn't on the PATH")
    loader = importlib.machinery.SourceFileLoader("rt_program", os.path.realpath(program))
    module = importlib.util.module_from_spec(importlib.util.spec_from_loader("rt_program", loader))
    words, sys.argv = sys.argv, ["rt"]
    try:
        loader.exec_module(module)
    finally:
        sys.argv = words
    return module


rt = load()
rtlib = rt.rtlib
# What keeps other commands of the kit out of the folders in which this process builds.
held = []


# What differs among kits stands here, up to `identity`. Some keep beside themselves what `rt ci` proved, and share among clones what `rt check` proved; some tell of an edit only
# whether it was refused, and not whether another trial could say more.
def share_work():
    """Takes part in what the clones of a machine share of their checks, where the kit has such work."""
    if hasattr(rt, "share_work"):
        rt.share_work(True)


def copied(kept, to):
    """Gives the folder `to` what the folder `kept` holds, so that a check over the one leaves the other as it is."""
    if hasattr(rt, "linked"):
        rt.linked(kept, to)
    else:
        shutil.copytree(kept, to)


def must_fail(crate, edit, kept=None):
    """Tries an edit by itself as `rt ci` does, over what is kept in that folder, where one is given. Returns whether it was refused, and what to say."""
    kind, text = rt.must_fail(crate, edit, ONE_JOB, kept)
    return kind in (rt.REFUSED, rt.AT_LIMIT) if hasattr(rt, "REFUSED") else kind, text


class Stamps(threading.local):
    """The stamps that were worked out within one look at the crates, by their folders."""

    known = None


stamps = Stamps()
stamp_of_kit = rtlib.Crate.stamp


@contextlib.contextmanager
def one_look():
    """Within it each crate's stamp is worked out once: meanwhile nothing changes a text."""
    is_first = stamps.known is None
    if is_first:
        stamps.known = {}
    try:
        yield
    finally:
        if is_first:
            stamps.known = None


def stamp(crate):
    """Returns the kit's stamp of a crate, with each library below asked once: some kits ask it on each of the many ways that lead to it, which takes minutes."""
    with one_look():
        if crate.folder not in stamps.known:
            stamps.known[crate.folder] = stamp_of_kit(crate)
        return stamps.known[crate.folder]


rtlib.Crate.stamp = stamp


def below(crate):
    """Returns the kit's list of the libraries below a crate, worked out once for each crate: some kits walk each of the many ways that lead to a library, which takes minutes."""
    if "libraries_below" not in vars(crate):
        found = {}
        for dep in crate.deps:
            found.update(dict.fromkeys([*below(dep), dep]))
        crate.libraries_below = [*found]
    return [*crate.libraries_below]


rtlib.Crate.below = below


@functools.lru_cache(maxsize=None)
def is_sound(crate, kept):
    """Returns whether a refusal over what is kept in that folder is one of the edit: the kit tells them apart, or the crate as it stands is proved over it."""
    return hasattr(rt, "UNSURE") or not rt.checked(crate, {}, ONE_JOB, kept).returncode


def begin():
    """Has all that is started end with this process, however it ends. It is called before any thread starts."""
    rtlib.guarded()
    if signal.getsignal(signal.SIGINT) is signal.default_int_handler:
        signal.signal(signal.SIGINT, signal.SIG_DFL)


def identity():
    """Returns the line that names the kit and its logic."""
    return rtlib.text_of(f"{rt.KIT}/KIT-ID").strip()


def logic():
    """Returns the words that name the kit's logic, which several kits share."""
    return identity().partition(" logic ")[2] or identity()


def crates(top=TOP):
    """Returns the crates of the repository, lowest first."""
    return rtlib.crates_below(top)


def libraries_below(some):
    """Returns the libraries that these crates stand on, each after those that it names itself."""
    found = []
    for crate in some:
        found += [it for it in crate.below() if it not in found]
    return found


def take_kept(libraries, room):
    """Gives each library the one that `rt ci` keeps beside the kit of the same text, over the same libraries, by links in the folder `room`. Returns whether
    there is one of each; where one is lacking, or the kit keeps none, nothing is changed."""
    if not hasattr(rt, "Kept"):
        return False
    rt.Crate.allowed = rt.handles_of(TOP)
    kept, given = rt.Kept(libraries), {}
    for it in libraries:
        shadow = copy.copy(it)
        shadow.folder = f"{room}/{it.name}"
        if not kept.give(shadow, False, kept.key(it)):
            return False
        kept.is_built(shadow)
        given[it.name] = f"{shadow.folder}/out/rlib/{it.name}.rlib"
    for it in libraries:
        it.rlib = given[it.name]
    return True


def is_newer(crate):
    """Returns whether the library in the clone was made after the last change of the crate's files. So it is after `rt ci`, which leaves no stamp."""
    made = f"{crate.rlib}/format"
    files = [*rtlib.files_of(crate.folder), f"{TOP}/crates.txt"]
    return os.path.isfile(made) and all(os.path.getmtime(it) < os.path.getmtime(made) for it in files)


def is_left(crate):
    """Returns whether `rt ci` left the library in the clone, of what stands here."""
    return is_newer(crate) and not os.path.exists(f"{crate.folder}/out/rlib/stamp")


def lacking(libraries):
    """Returns those of the libraries that aren't built in this clone, or not of this text."""
    with one_look():
        return [it for it in libraries if not it.is_built()]


def find_libraries(libraries, room, tell):
    """Finds each of the libraries as it was built, or else builds those that are lacking. Returns whether all are there."""
    left = lacking(libraries)
    if not left or take_kept(libraries, room) or all(map(is_left, libraries)):
        return True
    tell(f"{len(left)} of the {len(libraries)} libraries below aren't built, or not of this text: they are proved and built first, which takes minutes")
    return build(libraries, lambda done, of, crate, is_proved, said: tell(f"{done} of {of}: {crate.name}" if is_proved else f"{crate.name} is not proved:\n{said}"))


def over_standing(crates, room):
    """Returns those of the crates whose libraries all stand as one kind of build left them: the kind of which there are most. Nothing is built."""
    absent = lacking(libraries_below(crates))
    found = [it for it in libraries_below(crates) if is_left(it)]
    built = [it for it in crates if not any(below in absent for below in it.below())]
    left = [it for it in crates if all(below in found for below in it.below())]
    if len(built) < len(crates):
        kept = crates if take_kept(libraries_below(crates), room) else [it for it in crates if take_kept(it.below(), room)]
        if kept:
            return kept
    return max(built, left, key=len)


def build(libraries, tell):
    """Proves and builds the libraries that aren't built in this clone, as many side by side as there are processors and memory for, and first those with
    the longest chain of others behind them. What is done stays, so a build that was broken off goes on where it was. Returns whether all are proved.

    It is the build of `rt lib` in the lanes of `rt ci`. `tell` is called as each ends, with how many have ended, of how many, the crate, whether it
    is proved, and what was printed of it."""
    share_work()
    todo = lacking(libraries)
    # (no other rt works in these folders meanwhile)
    held.extend(rtlib.lock(libraries))
    for it in libraries:
        rtlib.stop_on_links(it.folder)
    telling, done = threading.Lock(), []

    def prove(crate, given, jobs):
        if not all(given.get((it.name, "proof"), True) for it in crate.below()):
            return False
        crate = copy.copy(crate)
        with tempfile.TemporaryFile("a+", errors="replace") as crate.out:
            status = crate.build_rlib(["--jobs", str(jobs)], anew=False)
            if status == -signal.SIGKILL:
                # (most likely for memory)
                status = crate.build_rlib(ONE_JOB, anew=False)
            crate.out.seek(0)
            with telling:
                done.append(crate.name)
                tell(len(done), len(todo), crate, not status, crate.out.read())
        return not status

    tasks = {}
    for it in todo:
        waits = [(below.name, "proof") for below in it.below() if below in todo]
        tasks[it.name, "proof"] = (waits, it.count(rb"\n"), rt.need(it), lambda given, jobs, it=it: prove(it, given, jobs))
    return all(rt.in_lanes(tasks).values()) if tasks else True


def release():
    """Lets other commands of the kit into the folders in which this process built."""
    while held:
        os.close(held.pop())
