"""What the programs of this repository are made from, and where they are.

A program is `proved`, and in `out/proved`, or it is `compiled` without proof, and in `out/compiled`. Beside it NAME.sum has a
checksum of all that it was made from. A program is written elsewhere and renamed, and its checksum is written last: a program
without its checksum is not run. `out/NAME.runs` says which of the two a start runs, and which files were looked at for that.
While none of these files is touched, the next start runs the program without looking at their contents.
"""

import contextlib
import fcntl
import functools
import hashlib
import importlib
import os
import shutil
import subprocess
import sys
import time
from pathlib import Path

HERE = os.path.dirname(os.path.dirname(os.path.realpath(__file__)))
# The repository of the programs: this one, unless another is named.
TOP = HERE
# What each kind is made from: the parts of each crate.
PARTS = {"proved": ("src", "specs", "proofs"), "compiled": ("src",)}


class Failed(Exception):
    """Why a program cannot be made, and what a tool of the kit said of it."""

    def __init__(self, why, said=""):
        super().__init__(why)
        self.said = said.strip()


def print_help(text):
    """Prints what a tool says of itself, and ends it, if `--help` or `-h` is among its words."""
    if {"--help", "-h"}.intersection(sys.argv[1:]):
        print(text.strip())
        sys.exit(0)


def print_usage(text):
    """Ends a tool that does not take the words it was given: its usage on standard error, and status 2."""
    print(f"usage: {text}", file=sys.stderr)
    sys.exit(2)


def stop(why, count=1):
    """Ends a tool that can try nothing: why, a last line by which so many failed, and status 1."""
    print(f"{why}\n0 passed, {count} failed")
    sys.exit(1)


def in_repository(words):
    """The words after `--in REPOSITORY`, if a tool's words begin so: the programs are then those of that repository."""
    global TOP
    if words[:1] != ["--in"] or len(words) < 2:
        return words
    TOP = os.path.realpath(words[1])
    if not os.path.isfile(f"{TOP}/crates.txt"):
        raise Failed(f"{words[1]} has no crates.txt: tools/into puts the library there")
    return words[2:]


@functools.lru_cache(maxsize=None)
def kit():
    """The kit's folder."""
    try:
        ran = subprocess.run(["rt", "doc"], stdin=subprocess.DEVNULL, capture_output=True, text=True)
    except FileNotFoundError:
        raise Failed("there is no command rt, which comes with the Rattle kit") from None
    if ran.returncode or not ran.stdout.split():
        raise Failed("rt does not tell where the kit is", ran.stderr)
    return os.path.dirname(ran.stdout.split()[-1])


def logic_words():
    """The words by which the prover finds the kit's logic."""
    return ["--antt-project", f"{kit()}/rattle/logic/antt-project.json", "--logic-built", f"{kit()}/logic_built"]


@functools.lru_cache(maxsize=None)
def rtlib():
    """The module of the kit's `rt`: before a command its `guarded()` has this command's end be that of the other one."""
    sys.path.insert(0, f"{kit()}/bin")
    return importlib.import_module("rtlib")


def read_crates(clone=None):
    """The libraries that each crate of a clone uses, by its name, those of the kit among them. It is this one, if none is given."""
    with open(f"{clone or TOP}/crates.txt", encoding="utf-8") as file:
        lines = [line.split("#")[0].partition(":") for line in file if ":" in line.split("#")[0]]
    return {name.split()[0]: uses.split() for name, _, uses in lines}


def crates_below(root, crates):
    """The crates that one stands on, each behind those below it, and itself at the end."""
    if root not in crates:
        raise Failed(f"crates.txt has no line for {root}")
    found = []

    def collect(name):
        for it in crates[name]:
            if it in crates and it not in found:
                collect(it)
        if name not in found:
            found.append(name)

    collect(root)
    return found


def is_program(name):
    return os.path.isfile(f"{TOP}/crates/{name}/src/main.rt")


def place(kind, name):
    return f"{TOP}/out/{kind}/{name}"


def files_beside(kind):
    """The paths of the files that a program is made from beside the crates."""
    return ["crates.txt", *([os.path.relpath(f"{HERE}/tools/unproved.py", TOP)] if kind == "compiled" else [])]


def sources(kind, name):
    """The paths below the top that a program is made from, of files and folders."""
    parts = [f"crates/{it}/{part}" for it in crates_below(name, read_crates()) for part in PARTS[kind]]
    return [*files_beside(kind), *(it for it in parts if os.path.isdir(f"{TOP}/{it}"))]


def files_of(path):
    """A file, or all files of a folder, in order."""
    if os.path.isfile(path):
        return [path]
    return sorted(f"{at}/{it}" for at, _, names in os.walk(path) for it in names)


def sum_of(top, paths, *more):
    """A sum of files, with their places below a folder, and of what else is given."""
    total = hashlib.sha256(repr(more).encode())
    for file in (it for path in paths for it in files_of(f"{top}/{path}")):
        with open(file, "rb") as it:
            text = it.read()
        total.update(repr((os.path.relpath(file, top), len(text))).encode() + text)
    return total.hexdigest()


def made_from(kind, name):
    """A sum of all that a program is made from: of crates.txt the lines of the crates below."""
    crates = read_crates()
    lines = [(it, crates[it]) for it in crates_below(name, crates)]
    return sum_of(TOP, [it for it in sources(kind, name) if it != "crates.txt"], lines)


def now():
    """The time in nanoseconds, less what the clock of files may be behind."""
    return time.time_ns() - 100_000_000


def touched(paths, since):
    """Whether one of these files, or of the files and folders in these, was changed at a time or later, whatever date it bears."""
    for path in paths:
        walked = [path, *(f"{at}/{it}" for at, folders, names in os.walk(path) for it in folders + names)]
        if any(os.lstat(it).st_ctime_ns >= since for it in walked):
            return True
    return False


def are_built(libraries):
    """Whether `rt ci` or `rt lib` has built these libraries, each after those below it, since it fits only what it was built over, and
    neither a source nor the kit was touched since the first of them was built."""
    uses, built, paths = read_crates(), {}, [f"{kit()}/KIT-ID", f"{TOP}/crates.txt"]
    for it in libraries:
        folder = f"{TOP}/crates/{it}"
        if not os.path.isdir(f"{folder}/out/rlib/{it}.rlib"):
            return False
        built[it] = os.lstat(f"{folder}/out/rlib/{it}.rlib").st_ctime_ns
        paths += [f"{folder}/{part}" for part in PARTS["proved"] if os.path.isdir(f"{folder}/{part}")]
    is_in_order = all(built[below] < built[it] for it in built for below in uses[it] if below in uses)
    return is_in_order and not touched(paths, min(built.values(), default=0))


def read(file):
    with contextlib.suppress(FileNotFoundError), open(file, encoding="utf-8") as it:
        return it.read()
    return ""


def remove(file):
    with contextlib.suppress(FileNotFoundError):
        os.remove(file)


def write(file, text):
    """Writes a file, which nobody sees half written."""
    with open(f"{file}.new", "w", encoding="utf-8") as it:
        it.write(text)
    os.replace(f"{file}.new", file)


def stands(kind, name):
    """Whether a program stands that was made from what the sources are now."""
    was = read(f"{place(kind, name)}.sum")
    return bool(was) and os.access(place(kind, name), os.X_OK) and was == made_from(kind, name)


def proved_programs(name):
    """Where a proved program of this repository stands, and what Rattle's own compiler made of it, if that is there. One that does not
    stand is proved and built first."""
    if subprocess.run([f"{HERE}/tools/prove", name]).returncode:
        stop(f"there is no proved {name}")
    program = Path(HERE, "out/proved", name)
    other = program.with_name(f"{name}.by-rattle")
    return [program, other] if other.exists() else [program]


def standing(name):
    """The kind of the program that stands, the proved one first."""
    return next((kind for kind in PARTS if stands(kind, name)), None)


def choose(kind, name, since):
    """Notes which program a start runs, as looked at since then."""
    files = [it for of_kind in PARTS for it in files_beside(of_kind)]
    paths = dict.fromkeys([*files, *(f"crates/{it}" for it in crates_below(name, read_crates()))])
    file = f"{TOP}/out/{name}.runs"
    # where it cannot be written each start looks at the files again
    with contextlib.suppress(OSError):
        write(file, "\n".join([kind, *paths]) + "\n")
        os.utime(file, ns=(since, since))


def put(kind, name, made, since, total):
    """Puts a program in its place, if its sources have that sum as they had it then, and none was touched since."""
    looked = now()
    if made_from(kind, name) != total or touched([f"{TOP}/{it}" for it in sources(kind, name)], since):
        raise Failed("a source was changed meanwhile: start it again")
    to = place(kind, name)
    for ending in (".sum", ".by-rattle"):
        remove(f"{to}{ending}")
    os.replace(made, to)
    write(f"{to}.sum", total)
    choose(kind, name, looked)


@contextlib.contextmanager
def alone(folder, who, what):
    """Holds a folder while it works in it, once no other command does."""
    held = os.open(folder, os.O_RDONLY)
    try:
        try:
            fcntl.flock(held, fcntl.LOCK_EX | fcntl.LOCK_NB)
        except BlockingIOError:
            print(f"{who}: waits for another command, {what}", file=sys.stderr, flush=True)
            fcntl.flock(held, fcntl.LOCK_EX)
        yield
    finally:
        os.close(held)


@contextlib.contextmanager
def room_in(folder):
    """A folder to work in, in one that is held: what others left there, which were killed, is removed."""
    for name in os.listdir(folder):
        if name.startswith("room-"):
            shutil.rmtree(f"{folder}/{name}")
    room = f"{folder}/room-{os.getpid()}"
    os.mkdir(room)
    try:
        yield room
    finally:
        shutil.rmtree(room, ignore_errors=True)


def ended(who, work, failed="the program cannot be built"):
    """Runs the work of a command, and ends with its status: 3, with a line that says what failed and why, if it cannot be done."""
    try:
        sys.exit(work())
    except KeyboardInterrupt:
        sys.exit(130)
    except Failed as why:
        lines = [why.said] if why.said else []
        print(*lines, f"{who}: {failed}: {why}", sep="\n", file=sys.stderr)
    except OSError as error:
        at = os.path.relpath(error.filename, TOP) if error.filename else "a file"
        print(f"{who}: {failed}: {at}: {error.strerror}", file=sys.stderr)
    sys.exit(3)
