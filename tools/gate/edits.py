"""Edits that the prover must refuse: their files, and what they make of a crate's sources."""
import os
import re
import threading

from gate.edit_kinds import kind_of
from gate.rattle_source import bare, changed_bodies, functions_of
from gate.twin_functions import has_twins, name_of
from parts.crate_checks import read

SAYING = threading.Lock()


def say(text):
    with SAYING:
        print(text, flush=True)


class Fault(Exception):
    """Why an edit cannot be tried."""


def place_of(within, file, text):
    """Where the body of the function of this name begins and ends, or the whole text where none is named."""
    if not within:
        return 0, len(text)
    places = [it.body for it in functions_of(file, text) if it.name == within]
    if len(places) != 1:
        raise Fault(f"{file} has {len(places)} functions {within}, and not one")
    return places[0]


class Edit:
    """An edit: what it makes of each file that it names; and where it changes bodies alone, each function with its new body."""

    def __init__(self, crate, path):
        self.crate, self.path = crate, path
        self.name = f"{crate.name}/{os.path.basename(path)}"
        self.texts, self.bodies = {}, {}
        # The names that a check gives the functions, those of their closures, and the callees whose proofs they wait for.
        self.symbols, self.inner, self.waits_for = [], [], set()
        # Whether the functions can stand in twins, and the number of the twins in which the edit is tried next, or 0.
        self.has_twins, self.twin = False, 0
        self.verdict, self.words = "", ""

    def settle(self, verdict, words):
        self.verdict, self.words = verdict, words
        say(f"{self.name}: {self.verdict_and_kind()}: {words[:300]}")

    def kind(self):
        """By what it is refused."""
        return kind_of(self.words)

    def verdict_and_kind(self):
        """The verdict, and where it is refused by what."""
        return f"{self.verdict} {self.kind()}" if self.verdict == "refused" else self.verdict

    def pairs(self):
        """The pairs of texts, each with its file, and the function in whose body the text stands, if it has to be named."""
        file = within = old = ""
        for line in read(self.path).split("\n"):
            word, _, text = line.partition(":")
            text = text.removeprefix(" ")
            if word == "file":
                file = text.strip()
                if not re.fullmatch(r"(src|specs|proofs)/[\w/.+-]+", file) or not os.path.isfile(f"{self.crate.folder}/{file}"):
                    raise Fault(f"there is no file {file}")
                within = ""
            elif word == "within":
                within = text.strip()
            elif word == "old":
                old = text
            elif word == "new":
                if not file or not old:
                    raise Fault("a 'new:' line stands before any 'file:' or 'old:' line")
                yield file, within, old, text
                old = ""

    def told(self, word):
        """What stands behind this word, on each line that begins with it."""
        lines = [line.partition(":") for line in read(self.path).split("\n")]
        return [text.strip() for first, _, text in lines if first == word]

    def broken_examples(self):
        """What an edit of definitions says that it breaks, or None where it edits sources."""
        return self.told("breaks") if all(it.startswith("specs/") for it in self.told("file")) else None

    def refusing(self, names):
        """Those of a check's names in which it has to be refused, where it changes no body: the laws that it breaks, and the functions that it names."""
        laws = [it.removeprefix("law ") for it in self.told("breaks") if it.startswith("law ")]
        return [it for it in names if it.split("::")[-1] in laws or it in self.told("refused in")]

    def apply(self):
        """Makes the edited texts, and finds the bodies in which they differ from the crate's."""
        before = {}
        for file, within, old, new in self.pairs():
            before.setdefault(file, read(f"{self.crate.folder}/{file}"))
            text = self.texts.get(file, before[file])
            start, end = place_of(within, file, text)
            part = text[start:end]
            if part.count(old) != 1:
                raise Fault(f"an 'old:' text is in {file} {part.count(old)} times, and not once")
            self.texts[file] = text[:start] + part.replace(old, new) + text[end:]
        if all(bare(text) == bare(before[file]) for file, text in self.texts.items()):
            raise Fault("it changes nothing")
        found = [changed_bodies(file, before[file], text) if file.startswith("src/") else {} for file, text in self.texts.items()]
        if all(found):
            self.bodies = {function: made for bodies in found for function, made in bodies.items()}

    def find_symbols(self, names):
        """Finds its functions among a check's names, and returns whether each is exactly one of them."""
        is_known = bool(self.bodies)
        for function in self.bodies:
            own, inner = function.symbols(self.crate.name, names)
            is_known = is_known and len(own) == 1
            self.symbols += own
            self.inner += inner
        self.has_twins = is_known and all(
            has_twins(function, symbol, self.crate.folder, read(f"{self.crate.folder}/{function.key[0]}")) for function, symbol in zip(self.bodies, self.symbols)
        )
        return is_known

    def tried_symbols(self):
        """The names of the functions in which the edit is tried."""
        return [name_of(it, self.twin) for it in self.symbols] if self.twin else self.symbols

    def tried_functions(self):
        """The file and the name of each function in which the edit is tried."""
        return [(it.key[0], name_of(it.name, self.twin) if self.twin else it.name) for it in self.bodies]

    def tried_inner(self):
        """The names of their closures."""
        names = {it.name for it in self.bodies}
        return ["::".join(name_of(it, self.twin) if it in names else it for it in name.split("::")) for name in self.inner] if self.twin else self.inner


def edits_of(crate, parts=("edits", "must-fail")):
    """The edits of a crate in these folders of it."""
    for part in parts:
        folder = f"{crate.folder}/{part}"
        if os.path.isdir(folder):
            yield from (Edit(crate, f"{folder}/{it}") for it in sorted(os.listdir(folder)) if it.endswith(".edit"))
