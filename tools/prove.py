#!/usr/bin/env python3
"""Proves and builds a crate, m2c_main if none is named, and those below it: side by side, the longest chain first.

usage: prove.py [NAME]

Each crate is proved in a room of its own (rooms.py) over the libraries below it, by `rt lib`, and a program by `rt
run` without words. The libraries hold statements alone (rt_once.py) and go into the crates' out/statements; a program
goes into its out/, as if rt had run there. A second start goes on with the crates that weren't done. A crate that starts with a
longer chain of others above it than all that are in work gets three jobs, and goes before the others; beside it others
are proved, with one each, while there are processors and memory, about 3 GB a check. A crate that took a while has a
line when it ends. The
first that fails ends the run with a line that names its log, out/prove/NAME.log, and status 70. Ctrl-C ends all checks.
"""
import ctypes
import os
import shutil
import signal
import subprocess
import sys
import time

import rooms

GB = 1 << 30
# What a check takes of memory, and each job of it beyond the first.
CHECK, JOB = 3 * GB, 3 * GB // 2
MOST_JOBS = 4
# The jobs of a crate that starts with the longest chain: each one more is busy but half of the time, and costs some
# twentieth more.
URGENT_JOBS = 3
# What lies below a crate is read as long as so many lines for each are proved.
LINES_OF_CRATE_BELOW = 30
# By how much the other checks yield.
NICE = 10
# A crate that was built before ends within so many seconds, without a line.
QUICK = 5
# What all crates keep in their out/ on disk.
DISK = 10 * GB
LOGS = f"{rooms.ROOT}/out/prove"
# rt as it is best in a room.
RT = f"{rooms.ROOT}/tools/rt_once.py"
FAILED = 70
# The death of its parent ends a child by this signal (prctl).
PR_SET_PDEATHSIG = 1
LIBC = ctypes.CDLL(None)


def say(text):
    print(f"m2c: {text}", file=sys.stderr, flush=True)


def number_in(file, word=""):
    """The number behind a word in a file of the system, or None."""
    try:
        with open(file, encoding="utf-8") as it:
            return next((int(line.removeprefix(word).split()[0]) for line in it if line.startswith(word)), None)
    except (OSError, ValueError, IndexError):
        return None


def processors():
    """How many processors there are to use, by the group's quota too."""
    found = len(os.sched_getaffinity(0))
    try:
        with open("/sys/fs/cgroup/cpu.max", encoding="utf-8") as it:
            quota, period = it.read().split()
        return found if quota == "max" else max(1, min(found, int(quota) // int(period)))
    except (OSError, ValueError):
        return found


def memory():
    """How much memory is free, by the group's limit too."""
    free = 1024 * (number_in("/proc/meminfo", "MemAvailable:") or 0)
    limit, used = number_in("/sys/fs/cgroup/memory.max"), number_in("/sys/fs/cgroup/memory.current")
    return free if limit is None or used is None else min(free, limit - used)


class Check:
    """A crate's check in its room."""

    def __init__(self, shelf, name, jobs, is_urgent):
        self.name, self.jobs, self.began = name, jobs, time.monotonic()
        folder = shelf.open(name)
        shelf.lend(name)
        words = [sys.executable, RT, "run" if rooms.is_program(name) else "lib", "--jobs", str(jobs)]
        how = {"stdin": subprocess.DEVNULL, "stderr": subprocess.STDOUT, "start_new_session": True}
        how["preexec_fn"] = die_with_parent if is_urgent else die_and_yield
        with open(log_of(name), "w", encoding="utf-8") as log:
            self.process = subprocess.Popen(words, cwd=folder, stdout=log, **how)

    def needs(self):
        return CHECK + (self.jobs - 1) * JOB

    def end(self):
        """Ends the check before its time; what rt started ends with it."""
        self.process.terminate()
        self.process.wait()

    def is_well(self):
        """Whether all is proved and built. A program's own status says nothing of that; rt says that it runs it."""
        if not rooms.is_program(self.name):
            return self.process.returncode == 0
        with open(log_of(self.name), encoding="utf-8", errors="replace") as log:
            return any(line.startswith("rt: running ") for line in log)

    def was_killed(self):
        """Whether the system killed it, most likely for memory."""
        return self.process.returncode in (-signal.SIGKILL, 256 - signal.SIGKILL)


def log_of(name):
    return f"{LOGS}/{name}.log"


def die_with_parent():
    LIBC.prctl(PR_SET_PDEATHSIG, signal.SIGTERM)


def die_and_yield():
    """As die_with_parent, and leaves the processors to the urgent checks."""
    die_with_parent()
    os.nice(NICE)
    try:
        # (where a session is a group of the scheduler, processes of different ones yield by this alone)
        with open("/proc/self/autogroup", "w", encoding="utf-8") as file:
            file.write(str(NICE))
    except OSError:
        pass


class Run:
    """The crates that are left, in work and proved."""

    def __init__(self, shelf, names):
        self.shelf, self.names, self.left, self.checks, self.proved = shelf, names, [*names], [], []
        self.began, self.processors, self.memory = time.monotonic(), processors(), memory()
        # crates that were killed beside others, and are to run alone
        self.alone = set()
        # the work on a crate, with that on the longest chain of crates above it
        self.chain = {}
        for name in reversed(names):
            above = max((self.chain[it] for it in names if name in rooms.uses(it)), default=0)
            self.chain[name] = rooms.lines_of(name) + LINES_OF_CRATE_BELOW * len(rooms.below(name)) + above

    def ready(self):
        """The crates that can begin, with the longest chain first."""
        found = [it for it in self.left if all(one in self.proved for one in rooms.below(it))]
        return sorted(found, key=lambda it: -self.chain[it])

    def start(self):
        """Starts what there are idle processors and memory for, the longest chain first; all share idle processors."""
        ready = self.ready()
        for waiting, name in zip(range(len(ready), 0, -1), ready):
            # (a check counts as one processor: its jobs beyond the first are busy but half of the time)
            idle = self.processors - len(self.checks)
            room = self.memory - sum(it.needs() for it in self.checks)
            if idle <= 0 or self.checks and (room < CHECK or self.alone & {name, *(it.name for it in self.checks)}):
                return
            is_urgent = all(self.chain[name] >= self.chain[it.name] for it in self.checks)
            jobs = max(URGENT_JOBS if is_urgent else 1, min(MOST_JOBS, idle // waiting))
            jobs = 1 if name in self.alone else min(jobs, self.processors, 1 + max(0, room - CHECK) // JOB)
            self.left.remove(name)
            self.checks.append(Check(self.shelf, name, jobs, is_urgent))

    def finish(self, check):
        """Takes what a check that ended has made. One that was killed beside others begins once more, alone."""
        self.checks.remove(check)
        self.shelf.give_back(check.name)
        if check.is_well():
            self.proved.append(check.name)
            if time.monotonic() - check.began > QUICK:
                minutes = (time.monotonic() - self.began) / 60
                say(f"crate {len(self.proved)} of {len(self.names)}, {minutes:.0f} min: {check.name}")
        elif check.was_killed() and check.name not in self.alone:
            self.alone.add(check.name)
            self.left.append(check.name)
        else:
            say(f"{check.name} is not proved: {log_of(check.name)} says why")
            sys.exit(FAILED)

    def go(self):
        try:
            while self.left or self.checks:
                self.start()
                time.sleep(0.5)
                for check in [it for it in self.checks if it.process.poll() is not None]:
                    self.finish(check)
        finally:
            for it in (signal.SIGINT, signal.SIGTERM, signal.SIGHUP):
                signal.signal(it, signal.SIG_IGN)
            for check in self.checks:
                check.end()
            self.shelf.recover()


def stop(number, _):
    sys.exit(128 + number)


def main():
    goal = sys.argv[1] if len(sys.argv) > 1 else "m2c_main"
    if goal not in rooms.ROWS:
        sys.exit(f"usage: prove.py [NAME], and {goal} is no line of crates.txt")
    names = [*rooms.below(goal), goal]
    for it in (signal.SIGINT, signal.SIGTERM, signal.SIGHUP):
        signal.signal(it, stop)
    if not shutil.which("rt"):
        sys.exit("m2c: there is no rt on the path, which proves and builds the program: it comes with the kit")
    os.makedirs(LOGS, exist_ok=True)
    left = shutil.disk_usage(LOGS).free
    if left < DISK:
        say(f"note: {left // GB} GB of disk are left, and a start from nothing takes about {DISK // GB}")
    shelf = rooms.Rooms("prove", "statements")
    with rooms.held(names):
        shelf.recover()
        with shelf:
            shelf.take(names)
            run = Run(shelf, names)
            lanes = max(1, min(run.processors, run.memory // CHECK))
            say(f"proving {len(names)} crates, {lanes} at a time; a line comes when one ends; logs are in {LOGS}")
            run.go()


if __name__ == "__main__":
    main()
