#!/usr/bin/env python3
"""Lists the goals of a crate that the checker closes by itself, but only after a long search.

usage: dear_goals.py NAME [SECONDS]     those of the functions whose proof took SECONDS or more, 1.5 if not given

The crate is checked from nothing at one job in a room (rooms.py), and what each function's proof cost is told by the
files that the check kept (gate_costs.py). Then each goal of such a function that has no answer yet is given `search
rules` with at most so many steps as some 0.2 seconds make, and those functions are checked once more: what that doesn't
close is printed, with what the checker says of it. An answer that is the term itself takes a hundredth of a second.
The names of goals are read from what rattle keeps, which is its own; a name that is none is passed over. The cycles of
functions that call each other are left out. The checkout stays as it is.
"""
import collections
import glob
import os
import re
import subprocess
import sys

import gate_costs
import rooms

STEPS = 300000
# Names in a proof that are goals; others are rattle's own.
GOAL = re.compile(r"^returns|requires|-(init|preserved|smaller)$|^invariant_of|^overflow|-clause-")
OWN = re.compile(r"^(lives|enum_|switch_|way_|slice_bounds|known)|_spec$")


def kept_text(kept, name, module):
    """What a check kept of a module, all of it."""
    files = glob.glob(f"{kept}/**/Rattle-{name}-proofs.{glob.escape(module)}*", recursive=True)
    return "".join(open(it, "rb").read().decode("latin-1") for it in files)


def goals_of(kept, name, function):
    """The goals of a function, but those that are told clause by clause."""
    names = re.findall(r'"pub":(?:true|false),"spelling":"([^"]+)"', kept_text(kept, name, f"{function}.Proof.oantt"))
    found = [it for it in dict.fromkeys(names) if GOAL.search(it) and not OWN.search(it)]
    return [it for it in found if not any(one.startswith(f"{it}-clause-") for one in names)]


def bound(folder, kept, name, function):
    """Gives each goal without an answer a search of few steps. Gives the file of answers, and how many goals."""
    file = f"proofs/{function.replace('.', '/')}/Answers.antt"
    path = f"{folder}/{file}"
    text = f"use Rattle.{name}.proofs.{function}.Goals as goal\n"
    if os.path.isfile(path):
        with open(path, encoding="utf-8") as it:
            text = it.read()
        # (the room's file may be another name of the checkout's)
        os.remove(path)
    answered = set(re.findall(r"^pub (\S+) :", text, re.M))
    given = "g c" if "Given.Over" in kept_text(kept, name, f"{function}.Goals") else "c"
    asked = [it for it in goals_of(kept, name, function) if it not in answered]
    answers = [f"\npub {it} : goal.{it}\n{it} {given} = search few_rules steps {STEPS}\n" for it in asked]
    os.makedirs(os.path.dirname(path), exist_ok=True)
    with open(path, "w", encoding="utf-8") as it:
        it.write("use Rattle.std.proofs.Common.{rules as few_rules}\n" + text + "".join(answers))
    return file, asked


def show(folder, name, seconds):
    """Shows the goals of these functions that a short search doesn't close."""
    kept = f"{folder}/out/incremental"
    asked = {it: bound(folder, kept, name, it) for it in seconds}
    only = [word for it in seconds for word in ("--only", it.replace(".", "::"))]
    words = ["rt", "check", "--jobs", "1", "--allow-holes", *only]
    said = subprocess.run(words, cwd=folder, stdin=subprocess.DEVNULL, stdout=subprocess.PIPE, text=True, check=False).stdout
    for function, (file, goals) in asked.items():
        print(f"\n{function.replace('.', '::')}: {seconds[function]:.1f} seconds, {len(goals)} goals without an answer")
        for goal, why in re.findall(rf"^\./{re.escape(file)}:\d+:\d+: error: `([^`]+)`: (.*)", said, re.M):
            if goal in goals:
                print(f"    {goal}: {why[:80]}")


def main():
    words = sys.argv[1:]
    if not words or words[0] not in rooms.ROWS or len(words) > 2:
        sys.exit(__doc__.split("\n\n")[1])
    name, least = words[0], float(words[1]) if len(words) == 2 else 1.5
    with rooms.Rooms("goals") as shelf:
        folder, looks, status = gate_costs.check_anew(shelf, name)
        proofs = collections.Counter()
        for module, used in gate_costs.spent_on_modules(name, f"{folder}/out/incremental", looks)[1:]:
            if module.startswith("proofs.") and module.endswith(".Proof") and "+" not in module:
                proofs[module.removeprefix("proofs.").removesuffix(".Proof")] += used
        seconds = {it: used for it, used in proofs.most_common() if used >= least}
        if status == 0 and seconds:
            show(folder, name, seconds)
    return status


if __name__ == "__main__":
    sys.exit(main())
