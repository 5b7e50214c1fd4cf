"""The cases of tools/gate/run_keeper about folders whose tables are changed to those of another schema."""
import json
import os

from gate.endings import SCHEMA, TABLE, ask, inserts, wants
from gate.keeping import DECLARED, but_marks
from gate.kept_logs import declarations, lay_all, start_of, watched
from reference.histories import Wrong

ALTERED = 10
OLD = """[[table]]
name = "p"
column = [{name = "id", cell = "int"}, {name = "town", cell = "text"}, {name = "n", cell = "int", null = true}]
index = [
  {name = "q", kind = "sequenced"},
  {name = "by_id", kind = "ordered", unique = true, key = ["id"]},
  {name = "by_n", kind = "ranked", key = ["-n"]},
]
"""
OTHER = TABLE % "o"
NEW = """[[table]]
name = "p"
max = 50
column = [{name = "town", cell = "text"}, {name = "id", cell = "int"}, {name = "well", cell = "bool", null = true}, {name = "age", cell = "int"}]
index = [
  {name = "by_town", kind = "ordered", key = ["town"]},
  {name = "by_id", kind = "ordered", unique = true, key = ["id"]},
  {name = "q", kind = "sequenced"},
  {name = "by_age", kind = "hashed", key = ["age", "id"]},
]
"""
FILL = '{"p.age":5}'
TOLD = [
    *("column n dropped", "column id moved", "column well added", "column age added", "index by_n dropped", "index by_town added"),
    *("index q moved", "index by_age added", "max 50"),
]
TOWNS = ("Oslo", "Bergen", "Ålesund", "Bergen", "Oslo", "")


def line(**command):
    return json.dumps(command, ensure_ascii=False, separators=(",", ":")).encode() + b"\n"


# Six records, one erased and one more in its slot, and a sequence in an order of its own.
WRITES = [
    *(line(op="insert", t="p", r={"id": (it * 5) % 7, "town": town, "n": None if it % 2 else it}) for it, town in enumerate(TOWNS)),
    line(op="erase", t="p", h="1:2"),
    line(op="insert", t="p", r={"id": 60, "town": "Bergen", "n": 3}),
    line(op="sort", t="p", i="q", by=["-town"]),
]


def filled(room, schema, writes):
    """Has a folder of this schema with these writes of p, which are all accepted, and one of o, where there is one."""
    for name in os.listdir(f"{room.folder}/data"):
        os.remove(f"{room.folder}/data/{name}")
    room.declare(schema)
    lines = writes + inserts(1, 0, b"o") * (OTHER in schema)
    with room.kept() as keeper, keeper.connect() as connection:
        for it, answer in zip(lines, ask(connection, lines)):
            wants(f"{it!r} is accepted", b'"ok":true' in answer, True)
        keeper.stop()


def listed(room, *indices, table="p"):
    """The records in the order of each of these indices, and the number of the last write."""
    with room.kept() as keeper, keeper.connect() as connection:
        answers = [json.loads(it) for it in ask(connection, [line(op="list", t=table, i=it) for it in indices])]
        keeper.stop()
    return [[(it["h"], it["r"]) for it in answer["rs"]] for answer in answers], answers[0]["at"]


def changes(room, new, *more, said=None, environment=None):
    """Asks for a change to this schema: the status, what was told of p, and what was said."""
    with open(f"{room.folder}/new", "w", encoding="utf-8") as file:
        file.write(new)
    status, out, said = room.does("--alter", f"{room.folder}/new", *more, environment=environment)
    return status, [it.removeprefix("p: ") for it in out.decode().splitlines()], said


def wanted(by_id, q, stamps):
    """The new records by each new index: those that stay in their order, new ones by key and insertion."""
    row = lambda it: (it[0], {"age": 5, "id": it[1]["id"], "town": it[1]["town"], "well": None})
    aged = sorted(map(row, by_id), key=lambda it: int(it[0].partition(":")[2]))
    wants("the stamps", [int(it[0].partition(":")[2]) for it in aged], stamps)
    return [sorted(aged, key=lambda it: it[1]["town"].encode()), [row(it) for it in by_id], [row(it) for it in q], aged]


def tables_that_change(room):
    """Columns and indices that come, go and move: every record has its handle and the new columns, what stays keeps its order, and write numbers go on."""
    for compacts in (False, True):
        filled(room, OLD + OTHER, WRITES)
        if compacts:
            room.compact()
        (by_id, q), at = listed(room, "by_id", "q")
        (other,), other_at = listed(room, "u", table="o")
        wants("what is told", changes(room, NEW + OTHER, "--fill", FILL), (0, TOLD, []))
        wants("what is left over", [it for it in room.files() if "alter" in it] + [it for it in declarations(room) if "alter" in it], [])
        room.refused(DECLARED, "schema: other: @/data/p.schema")
        room.declare(NEW + OTHER)
        found, now = listed(room, "by_town", "by_id", "q", "by_age")
        wants("the tables", (found, now), (wanted(by_id, q, [1, 3, 4, 5, 6, 8]), at))
        wants("the other table", listed(room, "u", table="o"), ([other], other_at))
        with room.kept() as keeper, keeper.connect() as connection:
            (answer,) = ask(connection, [line(op="insert", t="p", r={"id": 70, "town": "x", "well": True, "age": 1})])
            wants("one write more", json.loads(answer)["at"], at + 1)
            keeper.stop()
        room.compact()
        wants("the number of records then", len(listed(room, "by_id")[0][0]), 7)


def changes_back(room):
    """A change to a schema and back again; one to the same schema changes nothing."""
    filled(room, OLD, WRITES)
    before = listed(room, "by_id", "q")
    files = room.files() | declarations(room)
    wants("a change to the same schema", changes(room, OLD), (0, [], []))
    wants("the files", but_marks(room.files() | declarations(room)), but_marks(files))
    shorter = OLD.replace('  {name = "by_n", kind = "ranked", key = ["-n"]},\n', "")
    wants("an index goes", changes(room, shorter), (0, ["index by_n dropped"], []))
    room.declare(shorter)
    wants("and comes again", changes(room, OLD), (0, ["index by_n added"], []))
    room.declare(OLD)
    wants("the tables", listed(room, "by_id", "q"), before)


def indices_that_were_added(room):
    """An index that a client added is told where it goes, and stays where the new schema has it."""
    filled(room, SCHEMA, inserts(3) + [line(op="add_index", t="p", i="by_n", kind="hashed", unique=False, key=["n"])])
    wants("it goes", changes(room, SCHEMA.replace("[[table]]", "[[table]]\nmax = 9")), (0, ["index by_n dropped", "max 9"], []))
    filled(room, SCHEMA, inserts(3) + [line(op="add_index", t="p", i="by_n", kind="hashed", unique=False, key=["n"])])
    with_it = SCHEMA.replace('key = ["id"]}', 'key = ["id"]}, {name = "by_n", kind = "hashed", key = ["n"]}')
    wants("it stays", changes(room, with_it), (0, [], []))
    room.declare(with_it)
    wants("the records", len(listed(room, "by_n")[0][0]), 3)


def tables_that_come_and_go(room):
    """A table that comes is empty, and one that goes keeps its files."""
    filled(room, SCHEMA, inserts(3))
    before = room.files() | declarations(room)
    wants("one comes and one goes", changes(room, OTHER), (0, ["left out, its files stay", "o: added"], []))
    wants("the files", but_marks(room.files() | declarations(room)), but_marks(before))
    room.declare(OTHER)
    wants("the new table", listed(room, "u", table="o"), ([[]], 0))
    room.declare(SCHEMA)
    wants("another table of that name", changes(room, SCHEMA + OTHER.replace("unique = true, ", "")), (DECLARED, [], [f"schema: other: {room.path('o', 'schema')}"]))


# Changes that would ban a record, each with what is said.
BANNED = (
    (OLD.replace('"ranked", key = ["-n"]', '"ranked", unique = true, key = ["town"]'), "p: index by_n: records 0:1 and 4:5 have one key"),
    (OLD.replace('"int", null = true', '"int"'), "p: column n can't hold the cell of record 3:4"),
    (OLD.replace('"town", cell = "text"', '"town", cell = "int"'), "p: column town can't hold the cell of record 0:1"),
    (OLD.replace('name = "p"', 'name = "p"\nmax = 5'), "p: max 5: there are more records"),
    (OLD.replace("column = [", 'column = [{name = "age", cell = "int"}, '), "p: column age can't hold the cell of record 0:1"),
)
# Values that are refused, each with what is said.
WRONG_FILLS = (
    *(("x", "error: --fill: x is no object of JSON"), ("[1]", "error: --fill: [1] is no object of JSON"), ('{"p.age":0.5}', "error: --fill: p.age is no cell")),
    *(('{"p.age":"x"}', "error: --fill: p.age can't hold its value"), ('{"p.id":1}', "error: --fill: p.id is no column that is added")),
    *((f'{{"{name}":1}}', f"error: --fill: {name} is no column that is added") for name in ("p.x", "age", "x.age")),
)


def changes_that_are_refused(room):
    """What would ban a record is refused with the record, and a wrong value with its column. Nothing is changed."""
    filled(room, OLD + OTHER, WRITES)
    before = room.files() | declarations(room)
    for new, said in BANNED:
        status, _, told = changes(room, new + OTHER.replace("[[table]]", "[[table]]\nmax = 100"))
        wants(f"{said}: the end", (status, told), (ALTERED, [f"alter: {said}"]))
        wants(f"{said}: the files", but_marks(room.files() | declarations(room)), but_marks(before))
    for fill, said in WRONG_FILLS:
        wants(f"{fill}: the end", changes(room, NEW + OTHER, "--fill", fill), (2, [], [said]))
    wants("the files", but_marks(room.files() | declarations(room)), but_marks(before))


def record_in_a_later_slot(room):
    """A record keeps its handle, so there must go on being its slot."""
    filled(room, SCHEMA, [*inserts(3), line(op="erase", t="p", h="0:1"), line(op="erase", t="p", h="1:2")])
    status, told, said = changes(room, SCHEMA.replace("[[table]]", "[[table]]\nmax = 2"))
    wants("the end", (status, told, said), (ALTERED, ["max 2"], ["alter: p: max 2: record 2:3 lies in a later slot"]))


def change_that_is_killed(room):
    """Killed at each step, a change leaves all tables as they were, or all as they are to be, and may be done again."""
    narrow, wide = OLD + OTHER, NEW + OTHER.replace("[[table]]", "[[table]]\nmax = 100")
    filled(room, narrow, WRITES)
    old = listed(room, "by_id", "q")
    files, ends = room.files() | declarations(room), {"old": 0, "new": 0}
    for at in range(1, 400):
        for name in os.listdir(f"{room.folder}/data"):
            os.remove(f"{room.folder}/data/{name}")
        room.declare(narrow)
        lay_all(room, files)
        status, _, said = changes(room, wide, "--fill", FILL, environment=watched(room, KILL_AT=at))
        wants(f"step {at}: the end, where it says {said}", status in (0, -9), True)
        lying = [it for it in sorted(os.listdir(f"{room.folder}/data")) if it.startswith("p.alter.state")]
        found, said = start_of(room)
        wants(f"step {at}: what is left over", [it for it in os.listdir(f"{room.folder}/data") if ".alter." in it], [])
        if found is None:
            wants(f"step {at}: what is told of that", "removed: @/data/p.alter.state: of a change that was not decided\n" in said, bool(lying))
            ends["old"] += 1
            wants(f"step {at}: the tables", listed(room, "by_id", "q"), old)
            wants(f"step {at}: once more", changes(room, wide, "--fill", FILL)[0], 0)
        else:
            ends["new"] += 1
            wants(f"step {at}: the start", found, DECLARED)
        room.declare(wide)
        wants(f"step {at}: the new tables", listed(room, "by_town", "by_id", "q", "by_age"), (wanted(old[0][0], old[0][1], [1, 3, 4, 5, 6, 8]), old[1]))
        wants(f"step {at}: the other table", len(listed(room, "u", table="o")[0][0]), 1)
        if status == 0:
            wants("steps that leave the old tables and the new ones", min(ends.values()) > 4, True)
            return
    raise Wrong("it has no end")


def start_that_is_killed_in_a_change(room):
    """A change that was decided and broken off is carried out by a start, also where that is killed at any step."""
    filled(room, OLD, WRITES)
    old = listed(room, "by_id", "q")
    files = room.files() | declarations(room)
    for at in range(1, 400):
        lay_all(room, files)
        room.declare(OLD)
        status, _, _ = changes(room, NEW, "--fill", FILL, environment=watched(room, KILL_AT=at))
        if "all.alter.schema" in declarations(room):
            break
        wants("it was killed", status, -9)
    decided = room.files() | declarations(room)
    room.declare(NEW)
    for at in range(1, 400):
        for name in os.listdir(f"{room.folder}/data"):
            os.remove(f"{room.folder}/data/{name}")
        lay_all(room, decided)
        status, _, _ = room.does("--compact", environment=watched(room, KILL_AT=at))
        wants(f"step {at}: the new tables", listed(room, "by_town", "by_id", "q", "by_age"), (wanted(old[0][0], old[0][1], [1, 3, 4, 5, 6, 8]), old[1]))
        if status == 0:
            return
    raise Wrong("it has no end")


ALTER_CASES = [
    *(tables_that_change, changes_back, indices_that_were_added, tables_that_come_and_go, changes_that_are_refused, record_in_a_later_slot),
    *(change_that_is_killed, start_that_is_killed_in_a_change),
]
