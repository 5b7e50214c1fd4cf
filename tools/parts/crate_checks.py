"""Checks of a crate's copies, over the libraries that `rt ci` or `rt check` left in the crates' folders out/."""
import os
import re
import shutil
import subprocess
import sys
import tempfile

from parts.crate_builds import is_of_ci, prove_all, rtlib

FLAGS = ["--jobs", "1"]


def read(file):
    with open(file, encoding="utf-8") as it:
        return it.read()


def write(file, text):
    with open(file, "w", encoding="utf-8") as it:
        it.write(text)


def make_libraries(crates):
    """Sees that the libraries below these crates are there, and builds what is not. Returns whether they are those of `rt ci`."""
    below = []
    for it in crates:
        below += [dep for dep in it.below() if dep not in below]
    if is_of_ci(below):
        return True
    if not prove_all(below):
        sys.exit("a library is not proved, so no edit was tried")
    return False


class Said:
    """What a check of a crate said."""

    def __init__(self, crate, status, text, seconds):
        self.crate, self.status, self.text, self.seconds = crate, status, text, seconds
        self.lines = text.rstrip("\n").split("\n")
        self.functions = dict(re.findall(r"(?m)^fn (\S+): (.*)", text))
        last = [it for it in self.lines if re.match(r"(logic=|only=|rattle: no verdict|holes=)", it)]
        self.last = last[-1] if last else ""

    def is_proved(self):
        return self.status == 0 and self.last.startswith("logic=proved")

    def is_refused(self):
        return self.status == 1 and self.last.startswith("logic=not-proved")

    def unread(self, files):
        """The first line by which the check could not read a text, so that it tried no contract."""
        for line in self.lines:
            at = re.match(r"(?:\./)?(\S+?):\d+:\d+: error: (?:(`[^`]*`): )?(.*)", line)
            if at and (at[1] in files or at[1].startswith(("src/", "specs/"))):
                told = re.sub(r"`[^`]*`", "", at[3])
                if not at[2] or re.search(r"is not in scope|has no field|is no name|operand is missing|expected the end|cannot continue", told):
                    return line
        return ""

    def callees(self, symbol):
        """The functions for whose proofs the check says that this one's waits, and those for which these wait."""
        found, left = set(), [symbol]
        while left:
            said = re.findall(r"(?:it calls|it passes|a call of) ((?:`[^`]*`(?:, | and )?)+)", self.functions.get(left.pop(), ""))
            new = {name for names in said for name in re.findall(r"`([^`]*)`", names)} - found
            found |= new
            left += new
        return found

    def refusal(self, symbol):
        """What the check refuses of the function's own, or else of what its proof stands on; empty where it is proved, or waits for a callee."""
        words = self.functions.get(symbol, "")
        stands = re.search(r"it stands on (`[^`]*`)", words) if words.startswith("not proved") else None
        return self.own_refusal(symbol) or (f"antt refuses {stands[1]}" if stands else "")

    def own_refusal(self, symbol):
        """What the check refuses of the function's own, whatever becomes of its callees; empty where it says nothing of that."""
        words = self.functions.get(symbol, "")
        if not words.startswith(("not proved", "no proof")):
            return ""
        goals = re.search(r"`search` did not prove ([^;]*)", words)
        if goals:
            return f"`search` did not prove {goals[1]}"
        # The declarations that antt refuses, by their modules: those of the function's own proof and no other's.
        own = f"Rattle.{self.crate}.proofs.{'.'.join(symbol.split('::')[1:])}."
        stands = re.search(r"it stands on ((?:`[^`]*`(?:, )?)+)", words)
        for it in re.findall(r"`([^`]*)`", stands[1]) if stands else []:
            if it.startswith(own):
                return f"antt refuses {it.removeprefix(own)}"
        return "" if stands or re.search(r"it calls|it passes|a call of", words) else words


class Copy:
    """A copy of one crate, checked over what the check of the crate as it is kept."""

    def __init__(self, crate, folder, is_of_ci):
        self.name, self.crate, self.folder, self.is_of_ci = crate.name, crate, folder, is_of_ci
        self.seconds, self.checks = 0.0, 0
        self.kept = f"{folder}/kept"
        os.makedirs(f"{folder}/crate")
        for part in rtlib.PARTS:
            if os.path.isdir(f"{crate.folder}/{part}"):
                shutil.copytree(f"{crate.folder}/{part}", f"{folder}/crate/{part}")
        # (what `rt check` kept fits the libraries that it made, and not those of `rt ci`)
        if not is_of_ci and os.path.isdir(f"{crate.folder}/{rtlib.KEPT[1]}"):
            self.link(f"{crate.folder}/{rtlib.KEPT[1]}", self.kept)

    @staticmethod
    def link(was, to):
        """Copies a folder by hard links. (rattle replaces files, and writes into none.)"""
        try:
            shutil.copytree(was, to, copy_function=os.link)
        except (OSError, shutil.Error):
            shutil.rmtree(to, ignore_errors=True)
            shutil.copytree(was, to)

    def check(self, texts, flags=()):
        """Checks the crate with these texts in place of its own, and keeps the work for the next check."""
        for file, text in texts.items():
            os.makedirs(os.path.dirname(f"{self.folder}/crate/{file}"), exist_ok=True)
            write(f"{self.folder}/crate/{file}", text)
        said = self.run(["--incremental", self.kept, *flags])
        for file in texts:
            if os.path.exists(f"{self.crate.folder}/{file}"):
                shutil.copyfile(f"{self.crate.folder}/{file}", f"{self.folder}/crate/{file}")
            else:
                os.remove(f"{self.folder}/crate/{file}")
        return said

    def check_some(self, texts, only):
        """Checks the named functions alone. (Past a callee that is refused, its caller is judged by the callee's contract.)"""
        return self.check(texts, [*(word for it in only for word in ("--only", it)), "--allow-holes"])

    def run(self, flags):
        words = ["nice", rtlib.RATTLE, "check", *self.crate.words(FLAGS, keeps=False), *flags]
        with tempfile.TemporaryFile("w+", errors="replace") as out:
            it = subprocess.Popen(words, cwd=f"{self.folder}/crate", stdin=subprocess.DEVNULL, stdout=out, stderr=subprocess.STDOUT)
            _, status, used = os.wait4(it.pid, 0)
            it.returncode = os.waitstatus_to_exitcode(status)
            out.seek(0)
            text = out.read()
        seconds = used.ru_utime + used.ru_stime
        self.seconds += seconds
        self.checks += 1
        return Said(self.name, it.returncode, text, seconds)
