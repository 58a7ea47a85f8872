"""Rooms: small repositories beside this one, each with one crate and those below it, over the libraries built here.

rt lets one command at a time into a crate of a checkout and all crates below it. So commands that are to run side by
side, or that are to leave the checkout as it is, get a room each: a copy of the crates' texts, with links to the
libraries in their out/. What is made in a room fits the checkout, since rt knows a library by what it was made of,
and not by where it lies.
"""
import contextlib
import fcntl
import functools
import hashlib
import os
import shutil
import sys
import tempfile

ROOT = os.path.dirname(os.path.dirname(os.path.realpath(__file__)))
PARTS = ("src", "specs", "proofs")


def rows():
    """The lines of crates.txt, by the crates' names."""
    with open(f"{ROOT}/crates.txt", encoding="utf-8") as file:
        lines = [line.partition("#")[0].strip() for line in file]
    return {line.partition(":")[0].split()[0]: line for line in lines if line}


ROWS = rows()


def uses(name):
    """The crates of this repository that the crate's line names."""
    return [it for it in ROWS[name].partition(":")[2].replace(",", " ").split() if it in ROWS]


@functools.cache
def below(name):
    """The crates below this one, each after those that it uses."""
    found = []
    for it in uses(name):
        found += [one for one in [*below(it), it] if one not in found]
    return tuple(found)


def folder_of(name):
    return f"{ROOT}/crates/{name}"


def is_program(name):
    return os.path.isfile(f"{folder_of(name)}/src/main.rt")


def files_of(name):
    """The files that a proof of the crate reads."""
    for part in PARTS:
        for at, folders, files in os.walk(f"{folder_of(name)}/{part}"):
            folders.sort()
            yield from (f"{at}/{it}" for it in sorted(files))


def lines_of(name):
    """How many lines of code the crate has, without its definitions and proofs."""
    code = os.path.join(folder_of(name), "src", "")
    return sum(open(it, "rb").read().count(b"\n") for it in files_of(name) if it.startswith(code))


def sum_of(names, more=()):
    """A sum of the crates' files, their lines of crates.txt, and more files."""
    made = hashlib.sha256(repr([ROWS[it] for it in names]).encode())
    for file in [*(file for it in names for file in files_of(it)), *more]:
        with open(file, "rb") as it:
            made.update(repr((os.path.relpath(file, ROOT), it.read())).encode())
    return made.hexdigest()


def clear(path):
    if os.path.isdir(path) and not os.path.islink(path):
        shutil.rmtree(path, ignore_errors=True)
    elif os.path.lexists(path):
        os.remove(path)


def link(file, to):
    """Gives a file a second name, or copies it where that can't be: rt replaces what it made, and writes into none."""
    try:
        os.link(file, to)
    except OSError:
        shutil.copy2(file, to)


def link_kept(file, to):
    """As link; only what was proved keeps one text under both names."""
    (link if file.endswith(".oantt") else shutil.copy2)(file, to)


def move(path, to):
    """Puts a file or folder in another's place, whole at once."""
    clear(to)
    try:
        os.rename(path, to)
    except OSError:
        shutil.move(path, f"{to}.part")
        os.rename(f"{to}.part", to)


@contextlib.contextmanager
def held(names):
    """Holds the crates' folders as rt does, so that no rt works in them meanwhile."""
    folders = [os.open(folder_of(it), os.O_RDONLY) for it in sorted(names)]
    try:
        for name, it in zip(sorted(names), folders):
            try:
                fcntl.flock(it, fcntl.LOCK_EX | fcntl.LOCK_NB)
            except BlockingIOError:
                print(f"waiting for another command in crates/{name}", file=sys.stderr)
                fcntl.flock(it, fcntl.LOCK_EX)
        yield
    finally:
        for it in folders:
            os.close(it)


def is_ours(folder):
    return os.path.isdir(folder) and os.access(folder, os.W_OK)


def on_disk(folder):
    return os.stat(folder).st_dev


class Rooms:
    """The rooms of one use. Their folder lies outside the checkout, whose every file the gate looks at, and on the same
    disk, if there is such a place. The folder of a crate's library, rlib in a room, may have another name in the
    checkout, for libraries that are not as rt makes them there."""

    def __init__(self, use, libraries="rlib"):
        self.libraries = libraries
        cache = os.environ.get("XDG_CACHE_HOME") or os.path.expanduser("~/.cache")
        places = (tempfile.gettempdir(), cache, os.path.dirname(ROOT))
        place = next((it for it in places if is_ours(it) and on_disk(it) == on_disk(ROOT)), tempfile.gettempdir())
        self.folder = f"{place}/m2c-{use}-{hashlib.sha256(ROOT.encode()).hexdigest()[:12]}"

    def sources(self, name):
        return f"{self.folder}/sources/{name}"

    def __enter__(self):
        clear(self.folder)
        os.makedirs(self.folder, 0o700)
        return self

    def __exit__(self, *_):
        clear(self.folder)

    def recover(self):
        """Gives back what a run that was killed left."""
        for name in ROWS if os.path.isdir(self.folder) and os.stat(self.folder).st_uid == os.geteuid() else ():
            if os.path.isdir(self.out(name)):
                self.give_back(name)

    def out(self, name):
        return f"{self.folder}/{name}/crates/{name}/out"

    def take(self, names):
        """Takes the crates' texts as they stand."""
        for name in names:
            for part in PARTS:
                if os.path.isdir(f"{folder_of(name)}/{part}"):
                    shutil.copytree(f"{folder_of(name)}/{part}", f"{self.sources(name)}/{part}")

    def open(self, name):
        """Makes the crate's room of the texts that were taken, and returns the crate's folder there."""
        room = f"{self.folder}/{name}"
        for it in [*below(name), name]:
            shutil.copytree(self.sources(it), f"{room}/crates/{it}", copy_function=link)
            library = f"{folder_of(it)}/out/{self.libraries}"
            if it != name and os.path.isfile(f"{library}/stamp"):
                shutil.copytree(library, f"{room}/crates/{it}/out/rlib", copy_function=link)
        with open(f"{room}/crates.txt", "w", encoding="utf-8") as file:
            file.writelines(f"{ROWS[it]}\n" for it in [*below(name), name])
        if os.path.isfile(f"{ROOT}/HANDLES"):
            shutil.copy2(f"{ROOT}/HANDLES", f"{room}/HANDLES")
        os.makedirs(self.out(name), exist_ok=True)
        return f"{room}/crates/{name}"

    def lend(self, name):
        """Moves what the crate's out/ has to its room."""
        out = f"{folder_of(name)}/out"
        for it in os.listdir(out) if os.path.isdir(out) else ():
            if it == self.libraries:
                move(f"{out}/{it}", f"{self.out(name)}/rlib")
            elif it != "rlib":
                move(f"{out}/{it}", f"{self.out(name)}/{it}")

    def give_back(self, name):
        """Moves what the room's out/ has to the crate's own, and removes the room."""
        out = f"{folder_of(name)}/out"
        os.makedirs(out, exist_ok=True)
        for it in os.listdir(self.out(name)):
            move(f"{self.out(name)}/{it}", f"{out}/{self.libraries if it == 'rlib' else it}")
        clear(f"{self.folder}/{name}")
