"""Calls the package for Python in each way, for tools/gate/run_python, which puts the package on the path.

python_trials.py PART LIBRARY PROGRAM ROOM [SCRIPTS [LINES]]     PART is tables, containers, servers, pipelines, folders or edges

It ends with a sentence and status 1 where a call returns or raises something else than the plain machine answers.
"""
import ctypes
import dataclasses
import enum
import inspect
import json
import os
import pathlib
import random
import resource
import socket
import subprocess
import sys
import threading
import typing

sys.dont_write_bytecode = True
sys.path[0] = os.path.dirname(sys.path[0])
from draw.drawing import Drawer
from gate.python_calls import CALLS, answer, answered, call_of, row_of, wanted
from reference.checked_log import read_marks
from reference.plain_machine import Machine
from reference.worked_examples import CASES, SCHEMA, SPEND

import thwartcornel as module
from thwartcornel import Container, Handle, Tables, connect, hashed, ordered, ranked, sequenced

SECONDS = 60
# Schemas with one fault.
ONE = '[[table]]\nname = "{}"\nmax = {}\ncolumn = [{{name = "a", cell = "int"}}]\nindex = [{{name = "s", kind = "{}"}}]\n'
FAULTY = {
    "toml": "[table",
    "shape": "tables = 1\n",
    "limit": ONE.format("t", 0, "sequenced"),
    "name": ONE.format("t t", 1, "sequenced"),
    "key": ONE.format("t", 1, "ordered"),
}
# The calls of a container, by the kinds of index that they do not take there.
OF_CONTAINERS = dict.fromkeys("insert replace modify erase erase_key clear move sort get size find lower upper count range nth rank place find_rank lower_rank upper_rank next prev".split(), ())
OF_CONTAINERS |= {"list": ("hashed",)}


def stop(why):
    print(why, file=sys.stderr)
    sys.exit(1)


def same(what, found, meant):
    if found != meant:
        stop(f"{what}: {str(found)[:300]}, and not {str(meant)[:300]}")


def raises(what, kind, call, *words, **more):
    """What a call raises. Ends the program where that is nothing, or of another kind."""
    try:
        found = call(*words, **more)
    except kind as why:
        return why
    return stop(f"{what}: {kind.__name__} has to be raised, and {found!r} is returned")


# ---- drawn lines


class Scripts:
    """Drawn lines with the plain machine's answers to them, and how many there were."""

    def __init__(self, scripts, lines):
        self.scripts, self.lines, self.told = scripts, lines, 0

    def drawn(self, seed):
        """Each line with its call (None where no call makes it), the row that it is about, and the answer."""
        drawer = Drawer(seed, SCHEMA, "ppnt")
        return [it for _ in range(self.lines) for it in self.step(drawer.machine, drawer.line())]

    def worked(self):
        """The same of the worked examples."""
        for lines in CASES.values():
            machine = Machine(SCHEMA)
            said = [{"op": op, "t": "p"} | words for op, words, _ in lines if op != SPEND]
            yield [it for command in said for it in self.step(machine, json.dumps(command).encode())]

    def step(self, machine, line):
        """The line with what it asks and what is answered, carried out by the machine; or nothing where it is left out."""
        call, row = call_of(line), None
        table = call and machine.tables.get(call[0]["t"])
        if not self.takes(call, table):
            return []
        if table and isinstance(call[0].get("h"), str):
            row = row_of(table, call[0]["h"])
        told, change = machine.answer(line)
        machine.keep(change)
        self.told += 1
        return [(line, call, row, told)]

    def takes(self, call, table):
        """Whether a line is taken."""
        return True


class OfContainers(Scripts):
    """The lines that are calls of a container."""

    def takes(self, call, table):
        if not table or call[1] not in OF_CONTAINERS or call[1] == "insert" and "p" in call[0]:
            return False
        index = next((it for it in table.indices if it.name == call[0].get("i")), None)
        return not index or index.kind not in OF_CONTAINERS[call[1]]


def play(what, database, script, draw):
    """Makes the calls of a script, and compares what they tell."""
    for at, (line, call, row, told) in enumerate(script):
        if call is None:
            same(f"{what}, line {at}, {line}", database.ask(line), told)
            continue
        said, name = call
        found = {it: value for it, value in answered(database[said["t"]], said, name, row, draw).items() if it != "at"}
        same(f"{what}, line {at}, {line}", found, wanted(json.loads(told), name))


def try_tables(library, _program, _room, scripts):
    """Tables in process: the worked examples, and drawn lines."""
    for script in [*scripts.worked(), *(scripts.drawn(seed) for seed in range(scripts.scripts))]:
        with Tables(SCHEMA, library) as tables:
            play("tables in process", tables, script, random.Random(1))


def try_containers(library, _program, _room, scripts):
    """Containers: the same of the lines that are their calls."""
    scripts = OfContainers(scripts.scripts, scripts.lines)
    for seed in range(scripts.scripts):
        with Container.of_schema(SCHEMA, "p", library=library) as p, Container.of_schema(SCHEMA, "n", library=library) as n:
            with Container.of_schema(SCHEMA, "t", library=library) as t:
                play("containers", {"p": p, "n": n, "t": t}, scripts.drawn(seed), random.Random(seed))
    try_records(library)
    try_many(library)
    return scripts


@dataclasses.dataclass
class Person:
    """A record with a type."""

    id: int
    name: str
    grown: bool = False
    age: int | None = None
    town: str = ""


class Numbers(enum.IntEnum):
    """A number with a name."""

    THREE = 3


INDICES = {"by_id": hashed("id", unique=True), "by_age": ranked("-age", "id"), "by_name": ordered("name"), "all": sequenced()}


def try_records(library):
    """Records of a dataclass, of types by their names, and of a schema that these make."""
    ann, bob = Person(1, "Ann", True, 30, "Oslo"), Person(2, "B\u00f6b")
    with Container(Person, INDICES, 3, library) as people:
        first, second = people.insert(ann), people.insert(id=2, name="B\u00f6b")
        same("records", [people[first], people[second], len(people), first in people, "0:1" in people], [ann, bob, 2, True, False])
        same("a walk", list(people.walk("all")), [(first, ann), (second, bob)])
        same("a range", list(people.range("by_age", (30, 0), ...)), [(first, ann), (second, bob)])
        with people.rollback(second) as person:
            person.age, person.grown = 40, True
        same("an edit", people[second], Person(2, "B\u00f6b", True, 40))
        why = raises("an edit that is banned", module.Banned, edit_id, people, second)
        same("a ban", (why.index, why.handle, people[second].id), ("by_id", first, 2))
        raises("a block that raises", ZeroDivisionError, edit_by_fault, people, second)
        same("a block that raises", people[second].age, 40)
        people.insert(id=Numbers.THREE, name="c")
        same("a number with a name", people[people.find("by_id", Numbers.THREE)].id, 3)
        raises("a full container", module.Full, people.insert, id=4, name="d")
        steps = people.walk("by_name")
        next(steps)
        people.erase(second)
        raises("a walk over what changes", RuntimeError, next, steps)
        steps = people.walk("by_name")
        people.clear()
        raises("a walk behind a change", RuntimeError, next, steps)
    raises("a closed container", module.Closed, people.size)
    raises("a walk of a closed container", module.Closed, people.walk, "by_name")
    types = {"id": int, "name": str, "grown": bool, "age": int | None, "town": str}
    same("a schema of types", module.schema_text("p", types, INDICES), module.schema_text("p", Person, INDICES))
    with Tables(module.schema_text("people", Person, INDICES, 2), library) as tables:
        people = tables.table("people", Person)
        same("typed records by lines", people[people.insert(ann)], ann)
        same("typed records in a range", [it for _, it in people.range("by_age", ge=30)], [ann])
        why = raises("an index that clashes", module.Clash, clash, people)
        same("a clash", (why.index, why.handle, why.other), ("by_town", Handle(0, 1), Handle(1, 2)))
    raises("a type that no cell has", TypeError, Container, {"id": float}, {"all": sequenced()}, None, library)
    same("a schema with a fault", raises("a name", module.SchemaError, Container, {"a b": int}, {"all": sequenced()}, None, library).fault, "name")
    same("a table that is not there", raises("a table", module.SchemaError, Container.of_schema, SCHEMA, "x", library=library).fault, "table")


def try_many(library):
    """Many records that are put in by one call, beside those that are put in one by one."""
    records = [Person(number * 7 % 1000, "B\u00f6b" * (number % 5), number % 2 == 0, number % 90 or None) for number in range(1000)]
    with Container(Person, INDICES, None, library) as many, Container(Person, INDICES, None, library) as singly:
        same("many records", many.insert_all(records), [singly.insert(it) for it in records])
        same("their order", list(many.walk("by_age")), list(singly.walk("by_age")))
        same("no records", many.insert_all([]), [])
        for columns in ((), ("x",), ("-age", "y"), ("id",) * 5):
            raises(f"an order by {columns}", module.BadKey, many.sort, "all", *columns)
        raises("an order of an index that has one", module.WrongKind, many.sort, "by_age", "id")
        raises("a place behind the end", module.BadPlace, many.move, "all", many.first("all"), 1001)
        raises("a place below 0", IndexError, many.move, "all", many.first("all"), -1)
        try_refused_amid("a container", many, 1000)
    with Tables(module.schema_text("people", Person, INDICES), library) as tables:
        people = tables.table("people", Person)
        same("many records of a table", people.insert_all(iter(records[:9])), [people.find("by_id", it.id) for it in records[:9]])
        try_refused_amid("a table", people, 9)


def try_refused_amid(what, people, count):
    """A record among many that is refused: those before it are in."""
    taken = people[people.find("by_id", 7)]
    why = raises(f"{what}: a record that is banned", module.Banned, people.insert_all, [Person(2000, "Ann"), taken, Person(2001, "Ann")])
    same(f"{what}: a ban", (why.index, why.handle, why.inserted, len(people)), ("by_id", people.find("by_id", 7), [people.find("by_id", 2000)], count + 1))
    why = raises(f"{what}: a record that is none", module.BadRow, people.insert_all, [{**dataclasses.asdict(taken), "id": 2002}, Person("2003", "Ann")])
    same(f"{what}: no record", (why.inserted, len(people)), ([people.find("by_id", 2002)], count + 2))


def clash(people):
    people.insert(id=2, name="b", town="Oslo")
    people.add_index("by_town", "hashed", "town", unique=True)


def edit_id(people, handle):
    with people.rollback(handle) as person:
        person.id = 1


def edit_by_fault(people, handle):
    with people.rollback(handle) as person:
        person.age = 1 // (person.age - person.age)


# ---- servers


def served(program, room, address, each=1):
    """A server that listens at an address."""
    file = f"{room}/schema.toml"
    with open(file, "w", encoding="utf-8") as it:
        it.write(SCHEMA)
    if address.startswith("unix:") and os.path.exists(address[5:]):
        os.remove(address[5:])
    words = [program, "serve", "--schema", file, "--listen", address, "--each", str(each), "--workers", "1"]
    server = subprocess.Popen(words, stdout=subprocess.PIPE)
    same("a server", server.stdout.readline(), b"listening\n")
    return server


def port():
    with socket.socket() as it:
        it.bind(("127.0.0.1", 0))
        return it.getsockname()[1]


def over_each(program, room):
    """Empty tables of a server, over each kind of connection, with a name."""
    for address in (f"unix:{room}/socket", f"tcp:127.0.0.1:{port()}"):
        server = served(program, room, address)
        with connect(address, timeout=SECONDS) as database:
            yield address.partition(":")[0], database
        same("a server's status", server.wait(SECONDS), 0)
        server.stdout.close()
    with connect(process=[program, "run", "--schema", f"{room}/schema.toml"], timeout=SECONDS) as database:
        yield "a child process", database


def try_servers(_library, program, room, scripts):
    """The drawn lines over a Unix socket, over TCP, and to a child process."""
    for seed, (what, database) in enumerate(over_each(program, room)):
        play(what, database, scripts.drawn(100 + seed), random.Random(seed))


def try_pipelines(library, program, room, scripts):
    """The drawn lines, many at a time, in process and to each kind of server."""
    with Tables(SCHEMA, library) as tables:
        pipe("in process", tables, scripts.drawn(200), random.Random(1))
    for seed, (what, database) in enumerate(over_each(program, room)):
        pipe(what, database, scripts.drawn(300 + seed), random.Random(seed))
    with Tables(SCHEMA, library) as tables:
        flood("in process", tables)
    for what, database in over_each(program, room):
        flood(what, database)


def pipe(what, database, script, draw):
    """Sends the calls of a script in pipelines of drawn lengths, and compares what each tells later."""
    script = [it for it in script if it[1]]
    while script:
        count = draw.randrange(1, 200)
        part, script = script[:count], script[count:]
        with database.pipeline(raises=False) as many:
            waits = [CALLS[name][1](many[said["t"]], said) for _, (said, name), _, _ in part]
            raises("a value before the end", RuntimeError, lambda it: it.value, waits[0])
        for (line, (_, name), _, told), later in zip(part, waits):
            found = later.fault.answer if later.fault else answer(name, later.value)
            same(f"pipeline, {what}, {line}", {it: value for it, value in found.items() if it != "at"}, wanted(json.loads(told), name))


def flood(what, database):
    """More lines, and longer answers, than any buffer holds."""
    people = database["p"]
    with database.pipeline() as many:
        for n in range(200):
            many["p"].insert(id=n, g="x" * 1000, n=n)
    with database.pipeline() as many:
        lists = [many["p"].walk("q") for _ in range(50)]
        sizes = [many["p"].size() for _ in range(5000)]
    same(f"a flood, {what}", [len(list(it.value)) for it in lists] + [it.value for it in sizes], [200] * 50 + [200] * 5000)
    with database.pipeline(raises=False) as many:
        many["p"].insert(id=1, g="x", n=1)
    raises(f"a pipeline with a ban, {what}", module.Banned, ban_amid, database)
    same(f"what stands behind a ban, {what}", people.size(), 201)
    raises("a call of two lines", AttributeError, lambda: database.pipeline()["p"].rollback)
    raises("a block that raises", ZeroDivisionError, fault_amid, database)
    same("what a block that raised has sent", people.size(), 201)


def ban_amid(database):
    with database.pipeline() as many:
        many["p"].insert(id=1, g="x", n=1)
        many["p"].insert(id=1000, g="x", n=1)


def fault_amid(database):
    with database.pipeline() as many:
        many["p"].clear()
        return 1 // 0


# ---- tables that a folder keeps


def try_folders(library, _program, room, scripts):
    """Drawn lines in a folder that is closed and opened again amid them, kills, and what a folder or a log is refused for."""
    for seed in range(2):
        machine_lines = scripts.drawn(400 + seed)
        for at in range(0, len(machine_lines), 100):
            with module.open_folder(f"{room}/drawn{seed}", SCHEMA, seed == 0, library) as tables:
                play("a folder", tables, machine_lines[at : at + 100], random.Random(seed))
    try_kills(library, room)
    try_syncs(library, room)
    try_folder_faults(library, room)
    try_full_disk(library, room)


# A program that prints each handle that it was told, and goes on until it is killed.
WRITER = """import sys, thwartcornel
with thwartcornel.open_folder(sys.argv[1], sys.argv[2], library=sys.argv[3]) as tables:
    for n in range(tables["n"].size(), 10**6):
        print(tables["n"].insert(id=n, m=n), flush=True)
"""


def try_kills(library, room):
    """Kills of a program that writes: each write that was told is there."""
    told = []
    for seed in range(5):
        with subprocess.Popen([sys.executable, "-c", WRITER, f"{room}/killed", SCHEMA, library], stdout=subprocess.PIPE, encoding="utf-8") as process:
            found = [process.stdout.readline() for _ in range(3 + 4 * seed)]
            same("a folder that another program has", raises("a folder", module.FolderError, module.open_folder, f"{room}/killed", SCHEMA, True, library).fault, "taken")
            process.kill()
            found += [it for it in process.stdout if it.endswith("\n")]
        told += [it.strip() for it in found]
        with module.open_folder(f"{room}/killed", SCHEMA, True, library) as tables:
            there = [str(handle) for handle, _ in tables["n"].walk("u")]
            same(f"what is there behind kill {seed}", there[: len(told)], told)
            told = there


def try_syncs(library, room):
    """A write that is synced before its answer, and one that is not until it is asked for."""
    for synced in (True, False):
        folder = pathlib.Path(room, f"synced{synced}")
        with module.open_folder(folder, SCHEMA, synced, library) as tables:
            tables["n"].insert(id=1, m=2)
            same("the mark", read_marks((folder / "n.mark").read_bytes())[0].number, int(synced))
            tables.sync()
            same("the mark behind a sync", read_marks((folder / "n.mark").read_bytes())[0].number, 1)


def try_folder_faults(library, room):
    """What a folder is refused for."""
    folder, opened = pathlib.Path(room, "faults"), lambda schema=SCHEMA, at=None: module.open_folder(at or folder, schema, True, library)
    with opened() as tables:
        handle = tables["n"].insert(id=1, m=2)
        why = raises("a second one", module.FolderError, opened)
        same("a second one", (why.fault, why.filename, isinstance(why, OSError)), ("taken", str(folder), True))
        if "another program has the folder" not in str(why) or str(folder) not in str(why) or "open" not in repr(tables):
            stop(f"a taken folder is told as {why}, and tables as {tables!r}")
        same("the folder", tables.folder, str(folder))
        with tables.pipeline() as many:
            handles = [many["n"].insert(id=n, m=n) for n in range(10, 30)]
        tables.sync()
    same("a ban behind it", [raises("a record", module.Closed, tables["n"].get, it) and None for it in (handle,)], [None])
    raises("a sync of closed tables", module.Closed, tables.sync)
    with opened() as tables:
        same("what is there", [tables["n"][it.value].id for it in handles], list(range(10, 30)))
    same("another schema", raises("another schema", module.FolderError, opened, SCHEMA.replace('"y"', '"z"')).fault, "other")
    same("no schema", raises("no schema", module.SchemaError, opened, "[table").fault, "toml")
    for at in ("/dev/null", f"{room}/none/data", b"\xff".decode(errors="surrogateescape")):
        same(f"the folder {at!r}", raises("a folder", module.FolderError, opened, SCHEMA, at).fault, "device")
    log = folder / "n.log"
    log.write_bytes(log.read_bytes().replace(b'"m":2', b'"m":3'))
    same("a line that is hurt", raises("a line", module.FolderError, opened).fault, "hurt")


def try_full_disk(library, room):
    """A log that can't grow: that is told by each call, and by no fault of a line, and the next open has what was answered."""
    before = resource.getrlimit(resource.RLIMIT_FSIZE)
    with module.open_folder(f"{room}/full", SCHEMA, True, library) as tables:
        resource.setrlimit(resource.RLIMIT_FSIZE, (3000, before[1]))
        told = []
        for n in range(1000):
            try:
                told.append(tables["n"].insert(id=n, m=n))
            except module.FolderError as why:
                same("a log that can't grow", why.fault, "log")
                break
        for _ in range(3):
            same("a call behind it", raises("a log", module.FolderError, tables["n"].size).fault, "log")
        resource.setrlimit(resource.RLIMIT_FSIZE, before)
        same("a call once there is room", raises("a log", module.FolderError, tables["n"].insert, id=5000, m=5000).fault, "log")
    with module.open_folder(f"{room}/full", SCHEMA, True, library) as tables:
        same("what is there", [handle for handle, _ in tables["n"].walk("u")], told)
        tables["n"].insert(id=5000, m=5000)


# ---- what fails


def try_edges(library, program, room, _scripts):
    """What is closed, ends, is late, or another thread's."""
    try_closed(library, room)
    try_broken_off(library)
    try_bad_servers(room)
    try_threads(library, program, room)
    try_help()


def try_closed(library, room):
    tables = Tables(SCHEMA, library)
    people = tables["p"]
    raises("a table that is not there", module.NoTable, tables["none"].size)
    same("its answer", raises("a table", module.Refused, tables.call, "size", "none").answer, {"err": "table"})
    raises("two lines", ValueError, tables.ask, b"{}\n{}")
    raises("a blank line", ValueError, tables.ask, b" \t")
    raises("two bounds at one end", TypeError, people.range, "r", 1, ge=2)
    raises("two bounds at one end", TypeError, people.range, "r", lt=1, le=2)
    raises("a record and cells", TypeError, people.insert, {"id": 1}, g="a")
    raises("a text that has no bytes", ValueError, people.insert, id=1, g="\ud800", n=1)
    tables.close()
    tables.close()
    for what, call in {"size": people.size, "ask": lambda: tables.ask(b"{}"), "pipeline": tables.pipeline().send}.items():
        raises(f"{what} of closed tables", module.Closed, call)
    for fault, text in FAULTY.items():
        same("a schema", raises("a schema", module.SchemaError, Tables, text, library).fault, fault)
    file = pathlib.Path(room, "tables.toml")
    file.write_text(SCHEMA, encoding="utf-8")
    with Tables(file, library) as tables, Container.of_schema(file, "n", library=library) as held:
        same("tables of a file", (tables["n"].size(), held.indices), (0, ["u", "r", "d", "y"]))
        why = raises("a row that is none", module.BadRow, tables["n"].insert, id=1)
        same("the note of a fault", why.__notes__, ['the command: {"op":"insert","t":"n","r":{"id":1}}'])
    raises("no library", OSError, Tables, SCHEMA, "/nothing/libthwartcornel.so")
    raises("a slot that is too great", module.Stale, with_container, library, lambda it: it.get(Handle(2**32, 1)))
    raises("a stamp that is too great", module.Stale, with_container, library, lambda it: it.erase(Handle(0, 2**64 + 1)))
    raises("an index that is not there", module.NoIndex, with_container, library, lambda it: it.find("x", 1))


def with_container(library, call):
    with Container({"id": int}, INDICES_OF_ONE, None, library) as it:
        same("a first handle", it.insert(id=1), Handle(0, 1))
        return call(it)


INDICES_OF_ONE = {"by_id": ordered("id")}


def try_broken_off(library):
    """A call that an exception breaks off: its answer is no later one's. And a library that finds no memory for more than one answer."""
    with Tables(SCHEMA, library) as tables:
        taken, tables._taken = tables._taken, lambda: [][0]
        raises("a call that is broken off", IndexError, tables.ask, b"{}")
        tables._taken = taken
        same("the call behind it", tables["p"].size(), 0)
        call = tables._held.calls["call"]

        def stingy(to, lines, length, told):
            front = lines[: lines.index(b"\n") + 1]
            status = call(to, front, ctypes.c_size_t(len(front)), told)
            return 1 if len(front) < length.value else status

        tables._held.calls["call"] = stingy
        with tables.pipeline() as many:
            sizes = [many["p"].insert(id=n, g="x", n=n) for n in range(20)]
        same("answers that are taken one by one", [it.value.slot for it in sizes], list(range(20)))


def bad_server(room, says):
    """A server that takes a line and says this; its address."""
    address = f"{room}/bad"
    if os.path.exists(address):
        os.remove(address)
    listens = socket.socket(socket.AF_UNIX)
    listens.bind(address)
    listens.listen()

    def serve():
        with listens, listens.accept()[0] as it:
            it.recv(1000)
            it.sendall(says)
            if not says:
                it.recv(1000)

    threading.Thread(target=serve, daemon=True).start()
    return f"unix:{address}"


def try_bad_servers(room):
    for says, kind in ((b"", TimeoutError), (b'{"at":0,', ConnectionError), (b'{"at":0,"n":0,"ok":true}\n' * 2, ConnectionError)):
        database = connect(bad_server(room, says), timeout=0.3)
        raises(f"a server that says {says!r}", kind, database["p"].size)
        raises("the call behind it", module.Closed, database["p"].size)
    for address in (f"unix:{room}/nobody", f"tcp:127.0.0.1:{port()}"):
        same("nobody who serves", raises("nobody who serves", OSError, connect, address).filename, address)
    raises("an address of no form", ValueError, connect, "nowhere")
    raises("no address", TypeError, connect)
    with connect(process=["sh", "-c", "exit 3"]) as database:
        if "status 3" not in str(raises("a child that ends", ConnectionError, database["p"].size)):
            stop("the status of a child is not told")


def try_threads(library, program, room):
    """Tables in process are one thread's, and a connection is all threads'."""
    told = []
    with Tables(SCHEMA, library) as tables, Container({"id": int}, INDICES_OF_ONE, None, library) as held:
        other = threading.Thread(target=lambda: told.append([raises("another thread's", RuntimeError, it) for it in (tables["p"].size, held.size)]))
        other.start()
        other.join()
    same("the calls of another thread", len(told), 1)
    server = served(program, room, f"unix:{room}/socket")
    with connect(f"unix:{room}/socket", timeout=SECONDS) as database:
        handles = [database["p"].insert(id=n, g="x", n=n) for n in range(4)]
        told = []

        def ask(n):
            told.append({database["p"].find("u", n) for _ in range(200)} == {handles[n]})

        threads = [threading.Thread(target=ask, args=[n]) for n in range(4)]
        for it in threads:
            it.start()
        for it in threads:
            it.join()
    same("answers to each thread", told, [True] * 4)
    same("a server's status", server.wait(SECONDS), 0)


def try_help():
    """Each public name and each of its calls has a text, and its types are names that are there."""
    for name in module.__all__:
        it = getattr(module, name)
        if not inspect.isroutine(it) and not inspect.isclass(it):
            continue
        same(f"the text of {name}", bool(inspect.getdoc(it)), True)
        calls = [what for call, what in inspect.getmembers(it) if not call.startswith("_") and callable(what)] if inspect.isclass(it) else [it]
        same(f"calls of {name} without a text", [call for call in calls if not inspect.getdoc(call)], [])
        for call in calls:
            if inspect.isfunction(call):
                typing.get_type_hints(call)


PARTS = {"tables": try_tables, "containers": try_containers, "servers": try_servers, "pipelines": try_pipelines, "folders": try_folders, "edges": try_edges}


def main():
    part, library, program, room, *counts = sys.argv[1:]
    scripts = Scripts(*[*map(int, counts), *(4, 300)[len(counts) :]])
    scripts = PARTS[part](library, program, room, scripts) or scripts
    print(scripts.told)


if __name__ == "__main__":
    main()
