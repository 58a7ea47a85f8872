#!/usr/bin/env python3
"""Tries the edits that the prover must refuse, of the crates that changed since theirs were tried.

usage: try_edits.py             tries those of each crate whose files, or edits, aren't as when they were last tried
       try_edits.py NAME..      tries those of these crates
       try_edits.py --look      only looks whether each edit can be applied to the texts as they stand

A crate's edits are crates/NAME/must-fail/*.edit, which the gate tries too, and crates/NAME/edits/*.edit, which only this
tool tries: docs/DECISIONS.md says which crates have which. They are tried by `rt must-fail` in a room (rooms.py) in which
all of them lie in must-fail, over what `rt check` or `rt lib` kept of the crate here. The crate must be proved; libraries
below it that aren't built are built first. rt knows what it tried on this machine, and tries only what changed. When a
crate's edits are all refused, out/edits/NAME keeps the sum of its files and edits. RT_JOBS says how many run at a time.
"""
import os
import re
import shutil
import subprocess
import sys

import rooms

FOLDERS = ("must-fail", "edits")
TRIED = f"{rooms.ROOT}/out/edits"


def edits_of(name):
    """The crate's edits, by their names."""
    found = {}
    for folder in (f"{rooms.folder_of(name)}/{it}" for it in FOLDERS):
        for edit in sorted(os.listdir(folder)) if os.path.isdir(folder) else ():
            if edit.endswith(".md"):
                continue
            if edit in found:
                sys.exit(f"crates/{name} has two edits {edit}")
            found[edit] = f"{folder}/{edit}"
    return found


def sum_of(name):
    return rooms.sum_of([name], edits_of(name).values())


def has_changed(name):
    """Whether the crate's files or edits aren't as when they were last tried."""
    try:
        with open(f"{TRIED}/{name}", encoding="utf-8") as file:
            return file.read() != sum_of(name)
    except OSError:
        return True


def keep(name, sum_then):
    os.makedirs(TRIED, exist_ok=True)
    with open(f"{TRIED}/{name}", "w", encoding="utf-8") as file:
        file.write(sum_then)


def build_below(name):
    """Builds the libraries of the crate that aren't built yet."""
    for it in rooms.uses(name):
        subprocess.run(["rt", "lib"], cwd=rooms.folder_of(it), stdin=subprocess.DEVNULL, check=True)


def try_those_of(name):
    """Tries the crate's edits, and returns whether all are refused."""
    build_below(name)
    names, sum_then = [*rooms.below(name), name], sum_of(name)
    with rooms.Rooms("edits") as shelf:
        with rooms.held(names):
            shelf.take(names)
            folder = shelf.open(name)
            kept = f"{rooms.folder_of(name)}/out/incremental"
            if os.path.isdir(kept):
                shutil.copytree(kept, f"{folder}/out/incremental", copy_function=rooms.link_kept)
        os.mkdir(f"{folder}/must-fail")
        for edit, file in edits_of(name).items():
            shutil.copy2(file, f"{folder}/must-fail/{edit}")
        how = {"cwd": f"{shelf.folder}/{name}", "stdin": subprocess.DEVNULL}
        are_refused = subprocess.run(["rt", "must-fail", name], **how).returncode == 0
    if are_refused:
        keep(name, sum_then)
    return are_refused


def why_not(name, file):
    """Why an edit can't be applied to the crate's texts, or None: each of its old texts stands in its file once."""
    texts, path, old = {}, None, None
    with open(file, encoding="utf-8") as edit:
        for line in edit.read().split("\n"):
            word, _, text = line.partition(":")
            text = text.removeprefix(" ")
            if word == "file":
                path = f"{rooms.folder_of(name)}/{text.strip()}"
            elif word == "old":
                old = text
            elif word == "new" and path and old:
                if path not in texts:
                    with open(path, encoding="utf-8") as it:
                        texts[path] = it.read()
                if texts[path].count(old) != 1:
                    return f"{os.path.relpath(path, rooms.ROOT)} has {texts[path].count(old)} times: {old.strip()}"
                texts[path], old = texts[path].replace(old, text), None
    return None if texts else "it has no old and new text"


def look(names):
    """Says which edits can't be applied, and returns whether all can."""
    are_well = True
    for name in names:
        for edit, file in edits_of(name).items():
            fits = re.fullmatch(r"[\w-][\w.-]*\.edit", edit)
            try:
                why = why_not(name, file) if fits else "its name doesn't end in .edit"
            except OSError as error:
                why = f"there is no {error.filename}"
            if why:
                are_well = False
                print(f"{os.path.relpath(file, rooms.ROOT)}: {why}", file=sys.stderr)
    return are_well


def main():
    words = sys.argv[1:]
    having = [it for it in rooms.ROWS if edits_of(it)]
    if words == ["--look"]:
        return 0 if look(having) else 1
    if any(it not in having for it in words):
        sys.exit(__doc__.split("\n\n")[1])
    names = words or [it for it in having if has_changed(it)]
    if not look(names):
        return 1
    lost = [it for it in names if not try_those_of(it)]
    if lost:
        print(f"edits of {' '.join(lost)} are not refused, or could not be tried, as told above", file=sys.stderr)
    return 1 if lost else 0


if __name__ == "__main__":
    sys.exit(main())
