"""What `rt` builds of the crates for a command: whether it is of the sources as they are, and building it again where not, one command at a time.

Beside what a command had built lies a mark, target/built/NAME: a digest of the sources and one of the file. Where there is a mark it decides; where there is
none, as after `rt ci`, the file is taken to be of the sources if none of them is newer.

And a C program over the archive, which is made at each run of its command."""
import fcntl
import hashlib
import os
import subprocess
import time

import kit
from command import Trouble, say

ROOT = os.path.dirname(os.path.dirname(os.path.abspath(__file__)))
PLACE = os.path.join(ROOT, "target", "built")
PARTS = ("src", "specs", "proofs", "stdin", "stdout", "args", "status", "data")  # of a crate's folder, what `rt` proves and runs


class Made:
    """A file that `rt` makes of a crate and of those below it, in that crate's out/. A program is built by running it, on empty input here."""

    def __init__(self, crate, name, verb):
        self.crate, self.verb, self.name = crate, verb, f"crates/{crate}/out/{name}"
        self.path = os.path.join(ROOT, self.name)
        self.command = f"'rt {verb}' in crates/{crate}"
        self.mark = os.path.join(PLACE, name)


SHEET_PROGRAM = Made("sum_sheet", "sum_sheet", "run")
ARCHIVE = Made("kewohiata", "libkewohiata.a", "lib")


# ---- the sources
def needs():
    """crate: what it takes from others, by crates.txt"""
    with open(os.path.join(ROOT, "crates.txt"), encoding="utf-8") as f:
        lines = [line.split("#")[0].split(":") for line in f]
    return {line[0].split()[0]: line[1].split() for line in lines if len(line) == 2}


def reached(crate):
    """The crate and all below it, with what each takes."""
    listed, found, todo = needs(), {}, [crate]
    while todo:
        name = todo.pop()
        if name in listed and name not in found:
            found[name] = listed[name]
            todo += listed[name]
    return found


def sources(crate):
    """Every file and folder of the crate and of those below it."""
    for name in sorted(reached(crate)):
        for part in PARTS:
            top = os.path.join(ROOT, "crates", name, part)
            if os.path.isfile(top):
                yield top
            for folder, folders, names in os.walk(top):
                folders.sort()
                yield folder
                yield from (os.path.join(folder, name) for name in sorted(names))


def content(path):
    with open(path, "rb") as f:
        return f.read()


def digest(made):
    """Of the kit, of what crates.txt says, and of the files' names and contents."""
    summed = hashlib.sha256(repr(sorted(reached(made.crate).items())).encode())
    identity = os.path.join(kit.home(), "KIT-ID")
    for path in ([identity] if os.path.exists(identity) else []) + [path for path in sources(made.crate) if os.path.isfile(path)]:
        data = content(path)
        summed.update(f"{os.path.relpath(path, ROOT) if path != identity else 'KIT-ID'} {len(data)}\n".encode() + data)
    return summed.hexdigest()


def marked(made, summed):
    """What the mark of a file of these sources holds."""
    return f"{summed} {hashlib.sha256(content(made.path)).hexdigest()}\n".encode()


# ---- whether it has to be built
def stale(made):
    """Why the file has to be built, in words; None where it is of the sources."""
    if made.crate not in needs():
        raise Trouble(f"crates.txt has no crate {made.crate}")
    if not os.path.exists(made.path):
        return f"{made.name} is missing"
    if os.path.exists(made.mark):
        return None if content(made.mark) == marked(made, digest(made)) else f"sources have changed since {made.name} was built"
    newest = max(map(os.path.getmtime, [os.path.join(ROOT, "crates.txt"), *sources(made.crate)]))
    return f"sources are newer than {made.name}" if newest > os.path.getmtime(made.path) else None


# ---- building it
def lock():
    """Held until it is closed; two commands that build at once would prove everything twice."""
    try:
        os.makedirs(PLACE, exist_ok=True)
        held = open(os.path.join(PLACE, "lock"), "ab")
    except OSError as error:
        raise Trouble(f"nothing can be built here: target/built: {error.strerror}") from error
    try:
        fcntl.flock(held, fcntl.LOCK_EX | fcntl.LOCK_NB)
    except BlockingIOError:
        say("another command is building: waiting for it")
        fcntl.flock(held, fcntl.LOCK_EX)
    return held


def rebuild(made, why):
    say(f"{why}: {made.command} proves and builds it, which takes minutes where nothing is proved yet")
    began, summed = time.monotonic(), digest(made)  # of the sources before: what changes while they are proved is seen next time
    status = kit.rt(made.verb, made.crate)
    if status or not os.path.exists(made.path):
        raise Trouble(f"{made.command} ended with status {status} and {made.name} is not built")
    with open(made.mark, "wb") as f:
        f.write(marked(made, summed))
    say(f"built in {time.monotonic() - began:.0f} s")


def need(made):
    """The path of the file, which is built first where it isn't of the sources."""
    if stale(made):
        with lock():
            why = stale(made)  # another command may have built it since
            if why:
                rebuild(made, why)
    return made.path


def c_program(source, folder):
    """The path of a C file's program over the archive, made in a folder of target/."""
    archive = need(ARCHIVE)
    place = os.path.join(ROOT, "target", folder)
    try:
        os.makedirs(place, exist_ok=True)
    except OSError as error:
        raise Trouble(f"nothing can be built here: target/{folder}: {error.strerror}") from error
    program = os.path.join(place, os.path.splitext(os.path.basename(source))[0])
    for words in kit.c_commands(os.path.join(ROOT, source), [archive], program):
        done = subprocess.run(words, stdout=subprocess.PIPE, stderr=subprocess.STDOUT, text=True, check=False)
        if done.returncode:
            raise Trouble(f"{os.path.basename(words[0])} ended with status {done.returncode} on {source}: {done.stdout}")
    return program
