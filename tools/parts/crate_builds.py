"""Proves and builds the repository's crates side by side, lowest first, and tells how far it is."""
import os
import shutil
import subprocess
import sys
import threading
import time
from concurrent.futures import FIRST_COMPLETED, ThreadPoolExecutor, wait

# (rt's own knowledge of a repository: which words a check of a crate takes)
KIT = os.path.dirname(os.path.realpath(shutil.which("rt") or "/opt/rattle/bin/rt"))
sys.path.insert(0, KIT)
import rtlib  # noqa: E402

LINES_OF_LOG = 15
SECONDS_OF_SILENCE = 60
STAMP_BY_RT = rtlib.Crate.stamp
READ = threading.local()


def stamp(crate):
    """The sum that rt keeps of a crate and all below it. Each crate is read once, where rt reads it once for each way that leads to it."""
    if hasattr(READ, "stamps"):
        if crate.folder not in READ.stamps:
            READ.stamps[crate.folder] = STAMP_BY_RT(crate)
        return READ.stamps[crate.folder]
    READ.stamps = {}
    try:
        return STAMP_BY_RT(crate)
    finally:
        del READ.stamps


rtlib.Crate.stamp = stamp


def crates_of(top):
    """The repository's crates by their names, lowest first."""
    return {it.name: it for it in rtlib.crates_below(top)}


def with_below(crates):
    """These crates and those below them, lowest first."""
    found = []
    for it in crates:
        found += [below for below in [*it.below(), it] if below not in found]
    return found


def program_of(crate):
    """The program of a crate, or its static library for C."""
    return f"{crate.folder}/out/{f'lib{crate.name}.a' if crate.is_static else crate.name}"


def log_of(crate):
    return f"{crate.folder}/out/proof.log"


def is_built(crate):
    """Whether the crate's library or program is there, proved, and of the sources as they are."""
    if crate.makes_rlib():
        return crate.is_built()
    return rtlib.text_of(f"{program_of(crate)}.stamp") == crate.stamp() + rtlib.sum_of(program_of(crate))


def is_of_ci(crates):
    """Whether these are libraries and programs of an `rt ci` since which no source has changed. (It writes no stamps.)"""
    for it in crates:
        made, stamp = (it.rlib, f"{it.folder}/out/rlib/stamp") if it.makes_rlib() else (program_of(it), f"{program_of(it)}.stamp")
        if os.path.exists(stamp) or not os.path.exists(made):
            return False
        if any(changed_at(file) > os.path.getmtime(made) for file in rtlib.files_of(it.folder)):
            return False
    return True


def changed_at(file):
    """When the file was last written, or put where it is."""
    found = os.stat(file)
    return max(found.st_mtime, found.st_ctime)


def build_static(crate, flags):
    """Proves a static library, and makes it. Returns whether all went well."""
    stamp, made = crate.stamp(), program_of(crate)
    if crate.build_static(flags):
        return False
    # (after an edit meanwhile, nobody can tell which text was built)
    if stamp == crate.stamp():
        with open(f"{made}.stamp", "w", encoding="utf-8") as it:
            it.write(stamp + rtlib.sum_of(made))
    return True


def build(crate, jobs):
    """Proves a crate, and makes its library; or its program, which is run on the lines that are stored for it. Returns whether all went well."""
    os.makedirs(f"{crate.folder}/out", exist_ok=True)
    flags = ["--jobs", str(jobs)]
    with open(log_of(crate), "w", encoding="utf-8", errors="replace") as crate.out:
        try:
            if crate.makes_rlib():
                return crate.build_rlib(flags, anew=False) == 0
            if crate.is_static:
                return build_static(crate, flags)
            run = {"input": crate.stream("stdin") or b"", "stdout": subprocess.PIPE, "stderr": crate.out, "timeout": rtlib.LIMIT}
            words = (crate.stream("args") or b"").decode().splitlines()
            return crate.build_and_run(flags, words, False, **run) == int(crate.stream("status") or 0)
        except SystemExit as why:
            print(f"rt stopped: {why}", file=crate.out)
            return False


def lines_above(crates):
    """For each crate the lines of code of the longest chain that begins with it and leads up."""
    found = {it: 0 for it in crates}
    for it in reversed(crates):
        found[it] += it.count(rb"\n")
        for below in it.deps:
            found[below] = max(found.get(below, 0), found[it])
    return found


def counted(number, thing):
    return f"{number} {thing}{'' if number == 1 else 's'}"


def minutes(seconds):
    return f"{int(seconds) // 60}:{int(seconds) % 60:02}"


class Builds:
    """The builds of some crates and of all below them: what is done, what runs, and what is left."""

    def __init__(self, crates, lanes):
        self.crates, self.lanes = with_below(crates), lanes or rtlib.cores()
        above = lines_above(self.crates)
        self.left = sorted(self.crates, key=lambda it: -above[it])
        # What runs, by its future: the crate, its jobs, and when it began.
        self.done, self.failed, self.running = set(), [], {}
        self.begun = time.monotonic()

    def say(self, text):
        print(f"{minutes(time.monotonic() - self.begun):>6}  {len(self.done):>2}/{len(self.crates)}  {text}", flush=True)

    def tell_running(self, what):
        now = time.monotonic()
        runs = ", ".join(f"{it.name} {minutes(now - began)}" for it, _, began in self.running.values())
        self.say(f"{what}; running: {runs}" if runs else what)

    def fits(self, crate):
        """Whether the memory is there for one more build. (What runs has taken about half of what it will.)"""
        return not self.running or rtlib.fits(crate.planned() + sum(it.planned() for it, _, _ in self.running.values()) // 2)

    def start_what_is_ready(self, pool):
        ready = [it for it in self.left if all(dep in self.done for dep in it.deps)]
        for at, it in enumerate(ready):
            idle = self.lanes - sum(jobs for _, jobs, _ in self.running.values())
            if idle < 1 or not self.fits(it):
                return
            # A build gets the cores that no other waits for.
            jobs = max(1, min(4, idle // (len(ready) - at)))
            self.left.remove(it)
            self.running[pool.submit(build, it, jobs)] = it, jobs, time.monotonic()

    def take(self, future):
        it, _, began = self.running.pop(future)
        took = minutes(time.monotonic() - began)
        if future.result():
            self.done.add(it)
            self.tell_running(f"{it.name} proved, {took}")
            return
        self.failed.append(it)
        self.tell_running(f"{it.name} NOT PROVED, {took}")
        print(*["        | " + line for line in rtlib.text_of(log_of(it)).splitlines()[-LINES_OF_LOG:]], sep="\n")
        print(f"        the whole of it: {os.path.relpath(log_of(it))}", flush=True)

    def run(self):
        """Builds all that can be built. Returns whether that is everything."""
        self.done = {it for it in self.crates if is_built(it)}
        self.left = [it for it in self.left if it not in self.done]
        crates, cores = counted(len(self.left), "crate"), counted(self.lanes, "core")
        self.say(f"{crates} to prove on {cores}" if self.left else "all are proved and built")
        with ThreadPoolExecutor(self.lanes) as pool:
            self.start_what_is_ready(pool)
            while self.running:
                ended = wait(self.running, SECONDS_OF_SILENCE, FIRST_COMPLETED).done
                for it in ended:
                    self.take(it)
                if not ended:
                    self.tell_running("so far")
                self.start_what_is_ready(pool)
        if self.left:
            self.say(f"not tried, since they stand on what failed: {' '.join(it.name for it in self.left)}")
        return not self.failed


def prove_all(crates, lanes=None):
    """Proves and builds these crates and all below them, and says how far it is. Returns whether all are proved."""
    if is_of_ci(with_below(crates)):
        print("all are proved and built, by `rt ci`", flush=True)
        return True
    # (its first call sets a signal's handler, which only the main thread may)
    rtlib.guarded()
    return Builds(crates, lanes).run()
