#!/usr/bin/env python3
"""Shows what the gate costs: the processor seconds of each crate's proof, edits and tests, or of a crate's functions.

usage: gate_costs.py                 runs `rt ci` at the top, and then shows a table of the crates
       gate_costs.py -- COMMAND..    the same of another command, as `rt ci --anew`, `rt ci m2_io` or `.ci/run`
       gate_costs.py NAME [COUNT]    checks the crate from nothing at one job, and then shows the 20 functions, or
                                     COUNT, that cost most

A crate's columns are what was spent on

  proof     its proof; of a program the check alone
  seed      the check that its must-fail edits begin with, and the one over the same work at the end
  edits     its must-fail edits, with how many were tried
  tests     the proof of its tests, building and running them
  build     compiling and linking a program
  run       running it
  GB        the most memory that one of its commands held, with what it started

Nothing of the kit is changed: each half second /proc tells which commands of rattle run below the command, for which
crate and in which folder, and what they have used so far, with all that they started. What a command uses after the
last look at it is missing in its row, half a second at most of each; the line 'not seen' has it for all, since the
system tells the whole at the end. `rt ci` proves only what it hasn't kept, so a table is of a whole gate after `rt ci
--anew` or on a machine that kept nothing.

A function's cost goes by the files that a check keeps of it: the processor time from the file before to the file
itself. The first file of each batch of functions (the check's lines 'so far:') also has that batch's start. A
definition or a lemma has a line of its own. The libraries below the crate are built first, and the checkout stays as
it is.
"""
import collections
import os
import re
import signal
import subprocess
import sys
import time

import rooms

LOOK = 0.5
TICK, PAGE = os.sysconf("SC_CLK_TCK"), os.sysconf("SC_PAGE_SIZE")
KINDS = ("proof", "seed", "edits", "tests", "build", "run")
# The row of rt itself, and of what it calls beside proofs.
OTHERS = "(rt itself)"
# The fields of /proc/PID/stat behind the name.
PARENT, TIMES, STARTED, HELD = 1, slice(11, 15), 19, 21


class Process:
    """A process as /proc shows it now."""

    def __init__(self, pid):
        with open(f"/proc/{pid}/stat", encoding="utf-8", errors="replace") as file:
            fields = file.read().rpartition(")")[2].split()
        times = [int(it) / TICK for it in fields[TIMES]]
        self.pid, self.parent, self.key = pid, int(fields[PARENT]), (pid, fields[STARTED])
        # its own time, and that with the time of the children that have ended
        self.own, self.whole = sum(times[:2]), sum(times)
        self.held = int(fields[HELD]) * PAGE

    def words(self):
        with open(f"/proc/{self.pid}/cmdline", encoding="utf-8", errors="replace") as file:
            return file.read().split("\0")

    def folder(self):
        return os.readlink(f"/proc/{self.pid}/cwd")


def processes():
    """All processes, by the process that started them."""
    found = collections.defaultdict(list)
    for name in os.listdir("/proc"):
        if name.isdigit():
            try:
                process = Process(int(name))
            except OSError:
                continue
            found[process.parent].append(process)
    return found


def after(words, flag):
    return words[words.index(flag) + 1] if flag in words[:-1] else ""


def kind_of(words, folder):
    """What a command of rattle's is for."""
    if os.path.basename(folder).startswith("rt-edit-"):
        return "seed" if os.path.basename(after(words, "--incremental")) == "seed" else "edits"
    if "--test" in words:
        return "tests"
    return "build" if "--crate-checked" in words else "proof"


def task_of(process):
    """The crate and the kind of work of a process that is a command of its own, or None."""
    try:
        words, folder = process.words(), process.folder()
    except OSError:
        return None
    ran = next((re.search(r"/rt-run-[^/]*/bin/(\w+)$", it) for it in reversed(words) if "/rt-run-" in it), None)
    if ran:
        return ran[1].removesuffix("_tests"), "tests" if ran[1].endswith("_tests") else "run"
    command = os.path.basename(words[0])
    if command == "rattle" and "--crate-name" in words:
        return after(words, "--crate-name"), kind_of(words, folder)
    if command == "rattle-link":
        return os.path.basename(folder), "tests" if after(words, "-o").endswith("_tests") else "build"
    return None


class Costs:
    """What each process below the command used, by the last look at it."""

    def __init__(self):
        self.used, self.tasks, self.held, self.folders = {}, {}, {}, {}
        # the times of looks, with what all commands of rattle had used
        self.looks = []

    def whole(self, process, children):
        """The time of a process and all below it, and their memory."""
        below = [self.whole(it, children) for it in children[process.pid]]
        return process.whole + sum(it for it, _ in below), process.held + sum(it for _, it in below)

    def look(self, top):
        children = processes()
        waiting = [it for it in children[os.getpid()] if it.pid == top]
        while waiting:
            process = waiting.pop()
            task = self.tasks.get(process.key) or task_of(process)
            if task is None:
                self.used[process.key] = process.own
                waiting += children[process.pid]
                continue
            time_used, held = self.whole(process, children)
            self.tasks[process.key] = task
            self.used[process.key] = max(self.used.get(process.key, 0), time_used)
            self.held[task[0]] = max(self.held.get(task[0], 0), held)
        self.looks.append((time.time(), sum(self.used[it] for it in self.tasks)))

    def table(self):
        """The crates' rows: the seconds of each kind, and how many edits were tried."""
        rows = collections.defaultdict(lambda: dict.fromkeys((*KINDS, "tried"), 0))
        for key, used in self.used.items():
            crate, kind = self.tasks.get(key, (OTHERS, "run"))
            rows[crate][kind] += used
            rows[crate]["tried"] += kind == "edits"
        return rows


def watch(command, **how):
    """Runs a command. Gives its costs, its status, and the seconds that it took, of the clock and of processors."""
    costs, began = Costs(), time.time()
    process = subprocess.Popen(command, **how)
    # (Ctrl-C reaches the command too; the table is shown all the same)
    signal.signal(signal.SIGINT, signal.SIG_IGN)
    while os.waitid(os.P_PID, process.pid, os.WEXITED | os.WNOHANG | os.WNOWAIT) is None:
        costs.look(process.pid)
        time.sleep(LOOK)
    costs.look(process.pid)
    _, status, used = os.wait4(process.pid, 0)
    return costs, os.waitstatus_to_exitcode(status), time.time() - began, used.ru_utime + used.ru_stime


def total(row):
    return sum(row[it] for it in KINDS)


def show(costs, seconds, used):
    rows = sorted(costs.table().items(), key=lambda it: -total(it[1]))
    head = "".join(f"{it:>9}" + " tried" * (it == "edits") for it in KINDS)
    print(f"\n{'processor seconds':18}{head}{'all':>9}{'GB':>6}")
    whole = {it: sum(row[it] for _, row in rows) for it in (*KINDS, "tried")}
    for name, row in [*rows, ("all", whole)]:
        cells = "".join(f"{row[it] or 0:9.0f}" + f"{row['tried']:6}" * (it == "edits") for it in KINDS)
        held = f"{costs.held[name] / 2 ** 30:6.1f}" if name in costs.held else ""
        print(f"{name:18}{cells}{total(row):9.0f}{held}")
    print(f"{'not seen':18}{used - total(whole):{len(head) + 9}.0f}")
    print(f"{seconds:.0f} seconds, {used:.0f} of processors, {used / max(seconds, 1):.1f} at a time")


def at(looks, moment):
    """What was used by a moment, by the looks before it and after it."""
    before = max((it for it in looks if it[0] <= moment), default=looks[0])
    later = min((it for it in looks if it[0] > moment), default=looks[-1])
    share = (moment - before[0]) / (later[0] - before[0]) if later[0] > before[0] else 0
    return before[1] + share * (later[1] - before[1])


def function_of(module, functions):
    """The function whose module this is, or the module itself, which then is a definition's or a lemma's."""
    parts = module.split(".")
    fronts = (".".join(parts[:it]) for it in range(len(parts), 0, -1))
    return next((it for it in fronts if it in functions), module)


def spent_on_modules(name, kept, looks):
    """The modules whose files a check kept, in their order, each with what it cost; the first with all before it."""
    files = []
    for folder, _, names in os.walk(kept):
        files += [(os.stat(f"{folder}/{it}").st_mtime, it) for it in names if it.endswith(".oantt")]
    spent, before = [], 0
    for moment, file in sorted(files):
        spent.append((re.sub(rf"\ARattle-{name}-|(\.decls)?\.oantt\Z", "", file), at(looks, moment) - before))
        before = at(looks, moment)
    return spent


def show_functions(name, kept, looks, count):
    """Shows what the functions cost whose files a check kept."""
    spent = spent_on_modules(name, kept, looks)
    functions = {it.removesuffix(".Statement") for it, _ in spent if it.endswith(".Statement")}
    functions |= {it.replace("proofs.", "specs.contracts.", 1) for it in functions}
    parts = collections.defaultdict(collections.Counter)
    costs = collections.Counter({"(up to the first file)": spent[0][1] if spent else 0})
    for module, seconds in spent[1:]:
        function = function_of(module, functions).replace("specs.contracts.", "proofs.", 1)
        costs[function] += seconds
        parts[function][module.rpartition(".")[2]] += seconds
    print(f"\n{'seconds':>8}  of {name}'s {looks[-1][1]:.0f}: the function, and its parts that cost most")
    for function, seconds in costs.most_common(count):
        most = ", ".join(f"{part} {it:.0f}" for part, it in parts[function].most_common(3) if it >= 1)
        print(f"{seconds:8.1f}  {function.removeprefix('proofs.').replace('.', '::')}{f'  ({most})' if most else ''}")


def check_anew(shelf, name):
    """Checks a crate from nothing in a room. Gives its folder there, the looks at what was used, and the status."""
    with rooms.held([*rooms.below(name), name]):
        shelf.take([*rooms.below(name), name])
        folder = shelf.open(name)
    root = f"{folder}/src/{'main' if rooms.is_program(name) else 'lib'}.rt"
    with open(root, encoding="utf-8") as file:
        text = file.read()
    # (as another text, so that rt begins with nothing that it kept of this one)
    os.remove(root)
    with open(root, "w", encoding="utf-8") as file:
        file.write(f"{text}\n// checked anew {time.time()}\n")
    os.makedirs(f"{folder}/out/incremental")
    for it in rooms.uses(name):
        subprocess.run(["rt", "lib", "--jobs", "1"], cwd=f"{shelf.folder}/{name}/crates/{it}", check=True)
    costs, status, _, _ = watch(["rt", "check", "--jobs", "1"], cwd=folder)
    return folder, costs.looks, status


def main():
    words = sys.argv[1:]
    if words and words[0] in rooms.ROWS:
        with rooms.Rooms("costs") as shelf:
            folder, looks, status = check_anew(shelf, words[0])
            show_functions(words[0], f"{folder}/out/incremental", looks, int(words[1]) if len(words) > 1 else 20)
        return status
    if words and (words[0] != "--" or len(words) == 1):
        sys.exit(__doc__.split("\n\n")[1])
    os.chdir(rooms.ROOT)
    costs, status, seconds, used = watch(words[1:] or ["rt", "ci"])
    show(costs, seconds, used)
    return status


if __name__ == "__main__":
    sys.exit(main())
