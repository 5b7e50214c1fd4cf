"""Edits that earlier runs on this machine saw refused, each by a sum of all that its verdict rests on."""
import contextlib
import hashlib
import json
import os
import stat
import tempfile
import time

from parts.crate_builds import rtlib

TOOLS = os.path.join(os.path.dirname(os.path.abspath(__file__)), "..")
# What judges an edit: these files, and these parts of the kit.
JUDGES = [
    *(f"gate/{it}" for it in ("try_edits", "edits.py", "edit_kinds.py", "twin_functions.py", "kept_verdicts.py", "rattle_source.py")),
    *(f"parts/{it}" for it in ("ci_in_progress.py", "crate_builds.py", "crate_checks.py")),
]
PARTS = ("KIT-ID", "WHAT", "bin", "logic_built", "rattle/logic", "rattle/antt")
# An entry that no run has taken for so long is removed.
SECONDS = 90 * 24 * 3600


def folder_of_user():
    cache = os.environ.get("XDG_CACHE_HOME") or os.path.expanduser("~/.cache")
    return f"{cache}/thwartcornel/edits"


def content(file):
    with open(file, "rb") as it:
        return it.read()


def look_of(file):
    """What tells whether a file of the kit was replaced. (Its files are too large to be read in each run.)"""
    found = os.stat(file)
    return file, found.st_size, found.st_mtime_ns


def sum_of_judges():
    """A sum of the tools' sources and of the kit."""
    kit = []
    for part in PARTS:
        kit.append(f"{rtlib.KIT}/{part}")
        kit += [f"{at}/{name}" for at, _, names in os.walk(kit[-1]) if "__pycache__" not in at for name in names]
    # (a built library names the sum of its files in the file `format`)
    rlibs = f"{rtlib.KIT}/rlibs"
    kit += [f"{rlibs}/{it}/format" for it in os.listdir(rlibs)]
    looks = [look_of(it) for it in sorted(kit) if os.path.isfile(it)]
    return hashlib.sha256(repr((looks, [content(f"{TOOLS}/{it}") for it in JUDGES])).encode()).hexdigest()


class KeptVerdicts:
    """The verdicts `refused` in a folder, a file for each. An entry's name is the sum of all that it rests on, so that it never goes stale."""

    def __init__(self, folder, anew=False):
        """Opens the folder, which has to be this user's own. With anew, nothing is found there; what is refused is kept all the same."""
        self.folder, self.anew, self.judges = None, anew, sum_of_judges()
        try:
            os.makedirs(folder, 0o700, exist_ok=True)
            found = os.lstat(folder)
            if stat.S_ISDIR(found.st_mode) and found.st_uid == os.geteuid():
                self.folder = folder
                self.remove_old()
        except OSError:
            pass

    def remove_old(self):
        for it in os.scandir(self.folder):
            with contextlib.suppress(OSError):
                if it.stat().st_mtime < time.time() - SECONDS:
                    os.remove(it.path)

    def sums_of(self, crate, edits):
        """For each of these edits of a crate the sum of all that its verdict rests on: the judges; the crate's line of crates.txt and its files, and
        those of all crates below it; the edit's name and text."""
        base = repr((self.judges, crate.name, crate.stamp()))
        texts = {it: (os.path.relpath(it.path, crate.folder), content(it.path)) for it in edits}
        return {it: hashlib.sha256(repr((base, text)).encode()).hexdigest() for it, text in texts.items()}

    def words_of(self, sum):
        """Why an earlier run saw the edit of that sum refused; empty where none is known to have done so."""
        if not self.folder or self.anew:
            return ""
        try:
            found = json.loads(content(f"{self.folder}/{sum}"))
            os.utime(f"{self.folder}/{sum}")
            return found["refused"] if found["sum"] == sum and isinstance(found["refused"], str) else ""
        except (OSError, ValueError, KeyError, TypeError):
            return ""

    def keep(self, sum, words):
        """Keeps why the edit of that sum was refused. (A file is written apart and then renamed, so that no run meets half of it.)"""
        if not self.folder or not words:
            return
        try:
            with tempfile.NamedTemporaryFile("w", dir=self.folder, prefix="new-", delete=False, encoding="utf-8") as it:
                json.dump({"sum": sum, "refused": words}, it)
            os.replace(it.name, f"{self.folder}/{sum}")
        except OSError:
            pass
