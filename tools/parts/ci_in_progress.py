"""A run of `rt ci` in progress, as the lines that it prints tell it."""
import json
import os
import re

from parts.crate_builds import rtlib

# What one check of edits may take beside the run, in bytes.
ROOM = 3_000_000_000


def functions_in(library):
    """The names of a built library's functions, and of the declarations of its traits."""
    try:
        with open(f"{library.rlib}/toolchain/mir.json", encoding="utf-8") as it:
            return [name for name, *_ in json.load(it)]
    except (OSError, ValueError):
        # (a check of the whole crate tells them)
        return []


class CiInProgress:
    def __init__(self, file, is_apart):
        """Follows the run that prints into this file, and gives this process and those that it starts the processor's idle time alone, or, where that
        run has processors of its own, all of it."""
        self.file, self.is_apart = file, is_apart
        # (the system shares its time between sessions first, and `rt` has its checks in sessions of their own)
        try:
            os.setsid()
        except OSError:
            return
        if not is_apart:
            self.weigh(19)

    @staticmethod
    def weigh(nice):
        """Gives this session a weight among the others."""
        try:
            with open("/proc/self/autogroup", "w", encoding="utf-8") as it:
                it.write(str(nice))
        except OSError:
            pass

    def lines(self):
        with open(self.file, encoding="utf-8", errors="replace") as it:
            return it.read()

    def is_running(self):
        return not re.search(r"(?m)^\d+ passed, \d+ failed$", self.lines())

    def has_proved(self, crate):
        """Whether the crate and all below it are proved, by this run or by an earlier one whose work it took, so that their libraries are there."""
        proved = {*re.findall(r"(?m)^rt: (\S+) (?:proved$|is kept: )", self.lines())}
        return all(it.name in proved for it in [crate, *crate.below()])

    def functions(self, crate):
        """The names of the crate's functions, each of which is proved: as the run told them, or, where an earlier run proved the crate, as
        its library has them. None of a program that an earlier run proved."""
        told = re.findall(rf"(?m)^fn ({crate.name}::\S+): proved", self.lines())
        return told or (functions_in(crate) if crate.makes_rlib() else [])

    def lanes(self, most):
        """How many checks may run beside it: while it runs, one for each core but one, where the memory is there. Once it has ended they weigh as much as any."""
        if not self.is_running():
            self.weigh(0)
            return most
        if self.is_apart:
            return most
        return max(1, most - 1) if rtlib.fits(ROOM) else 0
