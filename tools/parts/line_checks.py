"""Checks tools/explain_line: stored lines, with the phrases that have to stand in what it says, and drawn ones. Both are sent to the built program.

The stored lines stand in explained_lines.txt, in parts below `=== SCHEMA: NAME`, where a schema is one of `examples/` or stands in the first part:

> a line
< FAULT, FAULT (FAULT): PHRASE | PHRASE     its fault, those behind it up to the right line, the one that the right line has on the table as it is,
                                            and what has to be said of them; `< ok` of a right line
= the right line, where it has to be just that one

Drawn lines get a slip of which is known what has to be said (line_slips.py), or are mutated. Behind each that is wrong the program gets the right line. It
has to accept it, or to refuse it for no more than the table as it is.
"""
import collections
import concurrent.futures
import functools
import json
import os
import random
import subprocess
import sys
import tempfile
from unittest import mock

from draw.drawing import Drawer
from draw.mutations import Mutator
from parts import line_session
from parts.built_program import TOP, built_program
from parts.line_reading import meant
from parts.line_session import Session
from parts.line_slips import slipped
from parts.line_states import OF_STATE
from reference.case_files import parts_of, spelled
from reference.histories import SCHEMA, Wrong
from reference.plain_machine import read_json

CASES = f"{TOP}/tools/parts/explained_lines.txt"
LEAST_CASES = 60
SCRIPTS, MUTATED, SLIPPED = 9, 400, 200
# (a line that is shown through no fault's mending, but as one that is always answered)
MOST_GUESSES = 0.02
AFTER = {*OF_STATE, "handle"}


def read(file):
    with open(file, encoding="utf-8") as it:
        return it.read()


def schema(name):
    """A schema of the stored lines by its name."""
    first, _ = parts_of(read(CASES).encode())
    return first.partition("\n\n")[2] if name == "people" else read(f"{TOP}/examples/{name}/schema.toml")


# Stored lines.


class Case:
    """A stored line, those before it that were accepted, and what has to be said of it."""

    def __init__(self, name, line):
        self.name, self.line, self.faults, self.phrases, self.right = name, line, "", [], None

    def expect(self, text):
        self.faults, _, phrases = text.partition(": ")
        self.phrases = [it for it in phrases.split(" | ") if it]

    def test(self, explained):
        """Fails where something else is said of the line."""
        where = f"{self.name}: {self.line[:120]!r}"
        said = "\n".join(explained.causes())
        if faults_of(explained) != self.faults:
            raise Wrong(f"{where} has the faults {faults_of(explained)}, and {self.faults} is stored")
        for it in self.phrases:
            if it not in said:
                raise Wrong(f"{where}: {it!r} is not said of it: {said}")
        if self.faults != "ok" and not self.phrases:
            raise Wrong(f"{where}: no phrase is stored for it")
        if self.right is not None and explained.right != self.right:
            raise Wrong(f"{where}: the right line is {explained.right!r}, and not {self.right!r}")


def faults_of(explained):
    """The faults between a line and the right one, by their names."""
    then = f" ({explained.then[0]})" if explained.then else ""
    return (", ".join(name for name, _ in explained.steps) or "ok") + then


def stored_cases():
    """The stored lines in their parts, each with its schema."""
    _, parts = parts_of(read(CASES).encode())
    for head, text in parts:
        name = head.decode()
        cases = []
        for row in text.split(b"\n"):
            if row.startswith(b"> "):
                cases.append(Case(name, spelled(row[2:])))
            elif row.startswith(b"< "):
                cases[-1].expect(row[2:].decode())
            elif row.startswith(b"= "):
                cases[-1].right = row[2:]
        yield schema(name.partition(":")[0]), cases


def explain_cases(cases, text):
    """What is said of the lines of a part, each tested."""
    session, told = Session(text), []
    for case in cases:
        explained = session.explain(case.line)
        case.test(explained)
        test_shown(session, explained)
        told.append(explained)
    return told


def test_shown(session, explained):
    """Fails where a line that is shown would not be accepted, for another reason than the one that is said."""
    if explained.name is None:
        return
    fault = session.fault_of(explained.right)[0]
    if fault != (explained.then[0] if explained.then else None) or fault and fault not in AFTER:
        raise Wrong(f"the right line {explained.right[:200]!r} has the fault {fault}")


def ran(program, schema_file, lines):
    done = subprocess.run([program, "run", "--schema", schema_file], input=b"".join(it + b"\n" for it in lines), capture_output=True, timeout=60)
    if done.returncode:
        raise Wrong(f"status {done.returncode}: {done.stderr!r}")
    return done.stdout.split(b"\n")[:-1]


def run_cases(program, room):
    """Explains the stored lines, and sends each to the program behind those that were accepted before it, and with its right line behind it."""
    faults, count = collections.Counter(), 0
    for text, cases in stored_cases():
        with open(f"{room}/schema.toml", "w", encoding="utf-8") as file:
            file.write(text)
        before = []
        for case, explained in zip(cases, explain_cases(cases, text)):
            count += 1
            faults[explained.name or "none"] += 1
            shown = [explained.right] if explained.name else []
            answers = ran(program, f"{room}/schema.toml", [*before, case.line, *shown])[len(before) :]
            test_answers(case.line, explained, answers)
            before += [case.line] if explained.name in (None, "erased") else []
    if count - faults["none"] < LEAST_CASES:
        raise Wrong(f"{count} lines are stored, and {LEAST_CASES} that are wrong are wanted")
    return faults


def test_answers(line, explained, answers):
    """Fails where the program answers a line, or the one that is shown for it, otherwise than was said."""
    if answers[0] != explained.answer or json.loads(answers[0]).get("err") != explained.name:
        raise Wrong(f"{line[:200]!r} is answered {answers[0][:200]!r}, and explained as {explained.name}")
    if explained.name:
        fault = json.loads(answers[1]).get("err")
        if fault != (explained.then[0] if explained.then else None) or fault and fault not in AFTER:
            raise Wrong(f"{explained.right[:200]!r}, shown for {line[:200]!r}, is answered {answers[1][:200]!r}")


# The words that the tool is called with.

TASKS = f"{TOP}/examples/tasks/schema.toml"
SIZE, WRONG = '{"op":"size","t":"tasks"}', '{"op":"size","t":"task"}'
# The words, standard input, the status, and the beginnings of the lines that are said.
CALLS = [
    ([TASKS, SIZE], "", 0, ["line 1: ok: "]),
    (["--schema", TASKS, SIZE], "", 0, ["line 1: ok: "]),
    (["--schema", TASKS], f"{WRONG}\n", 1, ["line 1: table: ", f"    right: {SIZE}"]),
    ([TASKS, SIZE, WRONG], "", 1, ["line 1: ok: ", "line 2: table: ", f"    right: {SIZE}"]),
    (["--schema", TASKS, f"{TOP}/examples/tasks/absent"], "", 1, []),
    (["--built-in", '{"op":"size","t":"f"}'], "", 0, ["line 1: ok: "]),
    ([f"{TOP}/tools/absent", SIZE], "", 3, [f"{TOP}/tools/absent: No such file or directory"]),
    ([f"{TOP}/README.md", SIZE], "", 3, ["schema: toml: line 3, column 3: ", "    A container ", "      ^"]),
    (["--schema"], "", 1, []),
    (["--help"], "", 0, ["Says what is wrong with lines"]),
]


def run_calls():
    """Calls the tool with words of each form. Returns how many there are."""
    for words, given, status, said in CALLS:
        done = subprocess.run([sys.executable, f"{TOP}/tools/explain_line", *words], input=given, capture_output=True, encoding="utf-8", timeout=60)
        lines = done.stdout.splitlines()
        told = all(line.startswith(it) for line, it in zip(lines, said)) and (len(lines) == len(said) or words == ["--help"])
        if done.returncode != status or not told:
            raise Wrong(f"explain_line {words}: status {done.returncode}, {done.stdout!r}, {done.stderr[-200:]!r}")
    return len(CALLS)


# Drawn lines.


def drawn_schemas():
    return [SCHEMA, "".join(read(f"{TOP}/examples/{it}/schema.toml") for it in ("tasks", "stock", "session_table")), schema("people")]


class Script:
    """Drawn lines: first such as have one slip, each with its line as it was behind it, and then mutated ones, each with the line behind it that is shown."""

    def __init__(self, seed, text):
        self.session, self.draw = Session(text), random.Random(seed)
        self.drawer, self.mutator = Drawer(seed, text, [*self.session.machine.tables]), Mutator(self.draw)
        self.drawer.machine = self.session.machine
        self.lines, self.told, self.guesses, self.faults, self.slips = [], [], 0, collections.Counter(), collections.Counter()
        while self.slips.total() < SLIPPED:
            self.slip(self.drawer.line())
        while self.faults.total() < MUTATED:
            line = self.drawer.line()
            self.take(self.mutator.mutated(line)[1] if self.draw.randrange(4) else line)

    def slip(self, line):
        """Takes a right line behind itself with a slip."""
        if self.session.fault_of(line)[0] is not None:
            return
        command = json.loads(line)
        name, slip, fault, phrase, is_kept = slipped(command, self.session.machine.tables[command["t"]], self.draw)
        explained = self.session.explain(slip)
        said = "; ".join(explained.causes())
        if explained.name != fault or phrase not in said:
            raise Wrong(f"{name}: {slip[:200]!r} has the fault {explained.name}, of which is said {said}, and not {fault}: {phrase}")
        if is_kept and json.loads(explained.right) != command:
            raise Wrong(f"{name}: the right line of {slip[:200]!r} is {explained.right[:200]!r}")
        self.slips[name] += 1
        self.keep(slip, explained)
        self.keep(line, self.session.explain(line))

    def take(self, line):
        explained = self.session.explain(line)
        self.test_reading(line, explained)
        if explained is None:
            return
        self.faults[explained.name or "none"] += 1
        self.guesses += explained.is_guess
        told = explained.steps[:1] and explained.steps[0][0] == explained.name and all(all(causes) and causes for _, causes in explained.steps)
        if explained.name and not told:
            raise Wrong(f"{line[:200]!r}: no cause is said of {explained.name}")
        names = [name for name, _ in explained.steps]
        if len({*names}) < len(names):
            raise Wrong(f"{line[:200]!r}: one fault is told twice: {explained.steps}")
        test_shown(self.session, explained)
        self.keep(line, explained)
        if explained.name:
            self.keep(explained.right, self.session.explain(explained.right))

    def keep(self, line, explained):
        self.lines.append(line)
        self.told.append(explained)

    @staticmethod
    def test_reading(line, explained):
        """Fails where a line that is no JSON has no slip, or the first behind the place at which it stops to be JSON, or where a line of JSON has one."""
        if explained is None or explained.name == "line":
            return
        found = meant(line)
        if (explained.name == "json") != bool(found.slips):
            raise Wrong(f"{line[:200]!r} has the fault {explained.name}, and the slips {found.slips}")
        if explained.name == "json" and found.slips[0].at > json_ends(found.text):
            raise Wrong(f"{line[:200]!r} is no JSON from place {json_ends(found.text)} on, and the first slip is {found.slips[0]}")
        if explained.name != "json" and json.dumps(found.values) != json.dumps([read_json(line)]):
            raise Wrong(f"{line[:200]!r} is read as {found.values}")


def json_ends(text):
    """The place at which Python's json finds that a text is none, or its end."""
    try:
        json.loads(text, parse_int=float)
    except json.JSONDecodeError as why:
        return why.pos
    except RecursionError:
        pass
    return len(text)


def play(program, number):
    """Explains a drawn script, and compares it with what the program answers."""
    schemas = drawn_schemas()
    text = schemas[number % len(schemas)]
    try:
        script = Script(number, text)
        with tempfile.TemporaryDirectory() as room:
            with open(f"{room}/schema.toml", "w", encoding="utf-8") as file:
                file.write(text)
            answers = ran(program, f"{room}/schema.toml", script.lines)
        for line, explained, answer in zip(script.lines, script.told, answers, strict=True):
            if answer != explained.answer or json.loads(answer).get("err") != explained.name:
                raise Wrong(f"{line[:200]!r} is answered {answer[:200]!r}, and explained as {explained.name}")
    except (OSError, ValueError, subprocess.SubprocessError, Wrong) as why:
        return f"script {number}: {why}", None, None, 0
    return None, script.faults, script.slips, script.guesses


# Tools that explain one thing otherwise.


def swapped(name, other):
    return {"MENDED": line_session.MENDED | {name: line_session.MENDED[other]}}


def with_causes(name, sentence):
    advise = line_session.MENDED[name]
    return {"MENDED": line_session.MENDED | {name: lambda *it: ([sentence], advise(*it)[1])}}


def unmended(name):
    advise = line_session.MENDED[name]
    return {"MENDED": line_session.MENDED | {name: lambda session, command: (advise(session, command)[0], command)}}


PLANTED = {
    "row explained as key": swapped("row", "key"),
    "a name that is near is not named": with_causes("table", "there is no such table"),
    "a row's fault without its column": with_causes("row", "a value is no cell of its column"),
    "a key's fault without its part": with_causes("key", "the key is wrong"),
    "a command's fault without its key": with_causes("command", "the command is wrong"),
    "rows stay as they are": unmended("row"),
    "keys stay as they are": unmended("key"),
    "handles that went are handles that never were": {"STATES": line_session.STATES | {"handle": lambda session, command: (["no such handle"], [])}},
}


def is_found(changes):
    """Whether the stored lines show that a changed tool is wrong."""
    with mock.patch.multiple(line_session, **changes):
        try:
            for text, cases in stored_cases():
                explain_cases(cases, text)
        except (Wrong, LookupError, TypeError, ValueError):
            return True
    return False


def self_test():
    missed = [name for name, changes in PLANTED.items() if not is_found(changes)]
    if missed:
        raise Wrong(f"self-test: {missed[0]}: this planted fault is not found")
    return len(PLANTED)


def told_of(faults):
    return ", ".join(f"{count} {name}" for name, count in faults.most_common())


def self_check(program=None):
    """Prints the counts of what was checked; the status is 1 where something is wrong."""
    program = program or built_program()
    try:
        with tempfile.TemporaryDirectory() as room:
            faults = run_cases(program, room)
        print(f"stored lines explained: {sum(faults.values())}, each with its phrases, and as the program answers: {told_of(faults)}")
        print(f"calls of the tool with words of each form: {run_calls()}, each answered as it has to be")
        print(f"self-test: {self_test()} planted faults, each found by the stored lines")
    except (OSError, subprocess.SubprocessError, Wrong) as why:
        print(why)
        return 1
    faults, slips, guesses = collections.Counter(), collections.Counter(), 0
    with concurrent.futures.ProcessPoolExecutor(os.cpu_count()) as pool:
        for why, met, slipped_so, guessed in pool.map(functools.partial(play, program), range(SCRIPTS)):
            if why:
                print(why)
                pool.shutdown(cancel_futures=True)
                return 1
            faults.update(met)
            slips.update(slipped_so)
            guesses += guessed
    wrong = faults.total() - faults["none"]
    print(f"slips in drawn lines: {slips.total():,} of {len(slips)} kinds, each told, with the line as it was before it wherever the slip leaves all of it")
    print(f"drawn lines explained: {faults.total():,}, and a right line for each of the {wrong:,} wrong ones, all as the program answers: {told_of(faults)}")
    if guesses > MOST_GUESSES * wrong:
        print(f"{guesses} of the right lines have nothing of the wrong one")
        return 1
    return 0
