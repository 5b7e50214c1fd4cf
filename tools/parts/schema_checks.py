"""What `tools/explain_schema --self-check` compares: cases worked out by hand, the stored cases of crates/text_cases, drawn schemas, drawn lines."""
import collections
import concurrent.futures
import contextlib
import io
import json
import os
import random
import shutil
import subprocess
import sys
import tempfile
import tomllib

from draw.drawing import Drawer
from draw.drawn_schemas import drawn_schemas
from parts.index_lines import Refused, changed, said_by
from parts.schema_rules import faults_of
from parts.toml_places import Member, Value, excerpt, line_column, read
from reference.case_files import parts_of, spelled
from reference.histories import SCHEMA

HERE = os.path.dirname(os.path.abspath(__file__))
CASES = f"{HERE}/../../crates/text_cases"
LEAST_CASES = 60
LINES = 5_000

PEOPLE = b"""[[table]]
name = "people"
column = [{name = "id", cell = "int"}]
index = [{name = "q", kind = "sequenced"}]
"""
# Files, what the built program would say of them, the status that the tool gives, and what it says.
VERDICTS = [
    (PEOPLE, "valid", 0, "a schema of 1 table: people\n"),
    (PEOPLE, "limit", 3, "schema: limit\n"),
    (PEOPLE, None, 0, "a schema of 1 table: people\n"),
    (b"", "shape", 3, "schema: shape: line 1, column 1: "),
    (b"", "name", 3, "schema: name\n"),
    (b"", "valid", 0, "a schema\n"),
    (b"", "memory", 1, "the built program can't say what the file is: memory\n"),
    (b"", None, 3, "schema: shape: line 1, column 1: "),
    (b"a = 1\nb = 2\n", "shape", 3, 'schema: shape: line 2, column 1: the file has a key "b"'),
    (b"".join(b"k%d = 1\n" % it for it in range(12)), "shape", 3, "and 2 more\n"),
]


def check_verdicts(explain):
    """That the tool takes the verdict of the built program. Returns how many files are told otherwise."""
    wrong = 0
    for data, verdict, status, phrase in VERDICTS:
        told = io.StringIO()
        with contextlib.redirect_stdout(told), contextlib.redirect_stderr(io.StringIO()):
            given = explain(data, [], verdict)
        if given != status or phrase not in told.getvalue():
            print(f"{data!r} with the verdict {verdict}: status {given}, {told.getvalue()!r}")
            wrong += 1
    print(f"verdicts of the built program taken: {len(VERDICTS)} cases, {wrong} of them otherwise")
    return wrong


NOTE = "(there is no built program: the tool judges by itself)\n"
# Which programs a clone has, by the fault that each names; the words for the tool; and its status, what it says, and its note.
ASKED = [
    ({}, ["people.toml"], 0, "a schema of 1 table: people\n", NOTE),
    ({"table_server-unproved": "name"}, ["people.toml"], 3, "schema: name\n", ""),
    ({"table_server-unproved": "name", "table_server": "limit"}, ["people.toml"], 3, "schema: limit\n", ""),
    ({}, ["--help"], 0, "Says what is wrong with a schema file", ""),
    ({}, ["-h"], 0, "Says what is wrong with a schema file", ""),
    ({}, ["absent.toml"], 1, "absent.toml: No such file or directory\n", ""),
]


def check_asked():
    """That the tool asks the proved program first, then the one without proof, and notes where there is none. Returns how many runs are otherwise."""
    wrong = 0
    with tempfile.TemporaryDirectory() as room:
        shutil.copytree(f"{HERE}/..", f"{room}/tools")
        with open(f"{room}/people.toml", "wb") as file:
            file.write(PEOPLE)
        for programs, words, status, said, note in ASKED:
            out = f"{room}/crates/table_server/out"
            shutil.rmtree(out, ignore_errors=True)
            os.makedirs(out)
            for name, fault in programs.items():
                with open(f"{out}/{name}", "w", encoding="ascii") as file:
                    file.write(f"#!/bin/sh\necho schema: {fault} >&2\nexit 3\n")
                os.chmod(f"{out}/{name}", 0o755)
            ran = subprocess.run([sys.executable, f"{room}/tools/explain_schema", *words], cwd=room, capture_output=True, encoding="utf-8")
            if (ran.returncode, ran.stderr) != (status, note) or not ran.stdout.startswith(said):
                print(f"explain_schema {' '.join(words)} with {[*programs]}: {ran}")
                wrong += 1
    print(f"runs with and without built programs, and of --help: {len(ASKED)}, {wrong} of them otherwise")
    return wrong


def own_verdict(data):
    faults = faults_of(data)[0]
    return faults[0].name if faults else "valid"


def check_cases(verdict_of):
    """The cases that were worked out by hand. Returns how many are told otherwise."""
    with open(f"{HERE}/schema_cases.txt", "rb") as it:
        cases = parts_of(it.read())[1]
    wrong = [why for name, part in cases for why in case_faults(name.decode(), part, verdict_of)]
    for it in wrong:
        print(it)
    print(f"schemas of beginners explained: {len(cases)} cases, {len(wrong)} of them otherwise than by hand or by the built program")
    return len(wrong) + (len(cases) < LEAST_CASES)


def case_faults(name, part, verdict_of):
    """Why a case is told otherwise, if it is."""
    head, _, data = part.partition(b"\n")
    wanted, data = head.decode(), spelled(data)
    faults, text, _ = faults_of(data)
    said = "valid"
    if faults:
        line, column = line_column(text, faults[0].begin)
        said = f"{faults[0].name} {line}:{column} {faults[0].told(text)}"
        shown, mark = excerpt(text, faults[0].begin, faults[0].end).split("\n")
        at = text[faults[0].begin : faults[0].begin + 1]
        if at.strip().isprintable() and at.strip() and at != shown[mark.index("^") :][:1]:
            yield f"{name}: the mark stands below {shown[mark.index('^') :]!r}"
    phrase = wanted.split(" ", 2)[2:]
    if said.split(" ", 2)[:2] != wanted.split(" ", 2)[:2] or phrase and phrase[0] not in said:
        yield f"{name}: {said}, and not {wanted}"
    told = verdict_of(data)
    if told != wanted.partition(" ")[0]:
        yield f"{name}: {wanted}, and the built program says {told}"


def section(file):
    """The lines of the stored file that are about schemas."""
    with open(f"{CASES}/{file}", "rb") as it:
        return it.read().partition(b"====== schemas\n")[2].split(b"\n====== ")[0]


def check_stored():
    """The stored cases of crates/text_cases. Returns how many are told otherwise."""
    cases = parts_of(section("stdin"))[1]
    told = dict(it.rpartition(b": ")[::2] for it in section("stdout").split(b"\n") if not it.startswith(b"  "))
    wrong = 0
    for name, part in cases:
        said = own_verdict(part.partition(b"\n---\n")[0]).encode()
        if said != told.get(name):
            print(f"{name.decode()}: {said.decode()}, and the server says {told.get(name)}")
            wrong += 1
    print(f"schema files explained: {len(cases)} stored cases, {wrong} of them otherwise than the server")
    return wrong + (not cases)


def comparable(value):
    """A value as JSON, with each date in one way, and each end of a line as a newline, as tomllib reads it."""
    if isinstance(value, Value):
        value = "date" if value.kind == "date" else value.held
    if isinstance(value, dict):
        return {key: comparable(it.value if isinstance(it, Member) else it) for key, it in sorted(value.items())}
    if isinstance(value, list):
        return [comparable(it) for it in value]
    if isinstance(value, str):
        return value.replace("\r\n", "\n")
    # (two numbers that are no numbers differ)
    return repr(value) if isinstance(value, float) else "date" if hasattr(value, "isoformat") else value


def reads_otherwise(text):
    """Whether tomllib, which knows TOML 1.0, takes a text and reads it otherwise; None where it doesn't take it."""
    try:
        wanted = tomllib.loads(text)
    except ValueError:
        return None
    return comparable(wanted) != comparable(read(text))


def check_drawn(verdict_of):
    """Drawn schemas. Returns how many are told otherwise than by the built program, or at another place than where their fault was put."""
    told, read_by_both, placed, wrong = collections.Counter(), 0, 0, 0
    drawn = list(drawn_schemas(random.Random(1)))
    with concurrent.futures.ThreadPoolExecutor(2) as pool:
        verdicts = pool.map(verdict_of, (it.text.encode() for it in drawn))
    for it, verdict in zip(drawn, verdicts):
        faults, text, _ = faults_of(it.text.encode())
        own, place = (faults[0].name, faults[0].begin) if faults else ("valid", None)
        otherwise = None if own == "toml" else reads_otherwise(text)
        told[verdict] += 1
        read_by_both += otherwise is not None
        placed += it.place is not None
        if own != verdict or it.fault not in (None, own) or it.place not in (None, place) or otherwise:
            print(f"{it}: {own} at {place}, and the built program says {verdict}{', and tomllib reads it otherwise' * bool(otherwise)}")
            wrong += 1
    counts = ", ".join(f"{count} {name}" for name, count in sorted(told.items()))
    print(f"schemas drawn: {len(drawn)} ({counts}), {placed} with a fault at a known place, {read_by_both} read by tomllib, {wrong} otherwise")
    return wrong


def check_lines(count):
    """Names the fault of drawn lines that add and drop indices, on tables without a record. Returns how many are told otherwise by the plain machine."""
    drawer, tables, wrong = Drawer(1, SCHEMA, "ptow"), tomllib.loads(SCHEMA)["table"], 0
    for _ in range(count):
        table = drawer.machine.tables[drawer.draw.choice(drawer.tables)]
        line = (drawer.added if drawer.is_added(table) else drawer.dropped)(table)
        answer, change = drawer.machine.answer(line)
        drawer.machine.keep(change)
        try:
            tables, told = changed(tables, said_by(line)), None
        except Refused as why:
            told = why.name
        if told != json.loads(answer).get("err"):
            print(f"{line.decode()}: {told}, and the plain machine says {answer.decode()}")
            wrong += 1
    print(f"lines that add and drop indices explained: {count} drawn, {wrong} of them otherwise than the plain machine")
    return wrong


def self_check(verdict_of, explain):
    wrong = check_verdicts(explain) + check_asked() + check_cases(verdict_of) + check_stored() + check_drawn(verdict_of) + check_lines(LINES)
    return 1 if wrong else 0
