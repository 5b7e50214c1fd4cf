"""The cases of tools/gate/run_keeper about records that are printed, and about rows of CSV that come."""
import csv
import io
import json
import os
import random
import subprocess

from gate.endings import SCHEMA, SECONDS, inserts, wants
from gate.keeping import LINE, PROGRAM, STATE, but_marks
from gate.kept_alters import OLD, WRITES, filled, line, listed
from gate.kept_logs import declarations, start_of, watched
from reference.histories import Wrong

# Every type of column, each with null and without, and texts that CSV quotes.
ALL = """[[table]]
name = "p"
column = [
  {name = "id", cell = "int"}, {name = "n", cell = "int", null = true},
  {name = "b", cell = "bool"}, {name = "c", cell = "bool", null = true},
  {name = "s", cell = "text"}, {name = "t", cell = "text", null = true},
]
index = [{name = "q", kind = "sequenced"}, {name = "by_id", kind = "ordered", key = ["-id"]}, {name = "by_t", kind = "ranked", key = ["t"]}]
"""
ONE = """[[table]]
name = "p"
column = [{name = "t", cell = "text", null = true}]
index = [{name = "q", kind = "sequenced"}]
"""
TEXTS = ("", "\\", "\\\\", "\\a", "a,b", 'a"b', '"', "a\nb", "a\r\nb", "\r", " a ", "Å", "x" * 4096, "null", "true", "0", "\ufeff", "#a")
NUMBERS = (0, -1, 2**63 - 1, -(2**63), 7)
NAMES = ("id", "n", "b", "c", "s", "t")


def rows(count=40):
    draw = random.Random(count)
    some = lambda values: None if draw.random() < 0.3 else draw.choice(values)
    flag = (False, True)
    return [
        {"id": draw.choice(NUMBERS), "n": some(NUMBERS), "b": draw.choice(flag), "c": some(flag), "s": TEXTS[it % len(TEXTS)], "t": some(TEXTS)} for it in range(count)
    ]


def field(name, cell):
    """The field of a cell, as a reader of CSV has it."""
    if cell is None:
        return ""
    if isinstance(cell, bool):
        return json.dumps(cell)
    return "\\" + cell if name == "t" and isinstance(cell, str) and cell[:1] in ("", "\\") else str(cell)


def quoted(text):
    return '"%s"' % text.replace('"', '""') if set(text) & set(',"\r\n') else text


def csv_of(names, records):
    rows = [names, *([field(name, record[name]) for name in names] for record in records)]
    return "".join((",".join(map(quoted, it)) or '""') + "\n" for it in rows).encode()


def inserted(record):
    return json.dumps({"op": "insert", "r": record, "t": "p"}, ensure_ascii=False, separators=(",", ":"), sort_keys=True).encode() + b"\n"


def dumped(room, *words):
    status, out, said = room.does("--dump", "p", *words)
    wants(f"the end of --dump {words}", (status, said), (0, []))
    return out


def emptied(room, schema):
    for name in os.listdir(f"{room.folder}/data"):
        os.remove(f"{room.folder}/data/{name}")
    room.declare(schema)


def order_of(room, index, table="p"):
    return [it[1] for it in listed(room, index, table=table)[0][0]]


def records_that_are_printed(room):
    """Lines that insert the records in the order of an index, from a log or a state; nothing is changed. An empty table takes them."""
    for compacts in (False, True):
        filled(room, OLD, WRITES)
        if compacts:
            room.compact()
        orders = {index: order_of(room, index) for index in ("q", "by_id", "by_n")}
        before = room.files() | declarations(room)
        texts = {index: dumped(room, "--by", index) for index in orders}
        wants("the first index", dumped(room), texts["q"])
        wants("the lines", texts, {index: b"".join(map(inserted, records)) for index, records in orders.items()})
        wants("an index that is not there", room.does("--dump", "p", "--by", "x"), (2, b"", ["error: the table 'p' has no index 'x'"]))
        wants("a table that is not there", room.does("--dump", "x"), (2, b"", ["error: the schema has no table 'x'"]))
        wants("the files", room.files() | declarations(room), before)
        for index, text in texts.items():
            emptied(room, OLD)
            room.ends_so(0, "", "--import", "p", text=text)
            wants("the order of the sequence, and of the index", (order_of(room, "q"), order_of(room, index)), (orders[index], orders[index]))
    emptied(room, OLD)
    wants("a folder without the table", room.does("--dump", "p"), (STATE, b"", [f"missing: {room.path()}"]))
    room.does("--compact")
    wants("an empty table", (dumped(room), dumped(room, "--csv")), (b"", b"id,town,n\n"))
    wants("no folder", room.does("--dump", "p", "--data", f"{room.folder}/none")[0], 2)


def rows_that_go_and_come(room):
    """CSV as Python's `csv` reads it, of every type and of texts that it quotes. Taken in again, it makes the same records."""
    records = rows()
    filled(room, ALL, [inserted(it) for it in records])
    for index in ("q", "by_id", "by_t"):
        text = dumped(room, "--csv", "--by", index)
        wants(f"the rows by {index}", text, csv_of(NAMES, order_of(room, index)))
        names, *fields = csv.reader(io.StringIO(text.decode(), newline=""))
        wants(f"read by Python, by {index}", [dict(zip(names, it)) for it in fields], [{name: field(name, it[name]) for name in NAMES} for it in order_of(room, index)])
    wanted = dumped(room)
    shuffled = ("t", "b", "id", "s", "n", "c")
    for text in (dumped(room, "--csv"), csv_of(shuffled, records), b"\xef\xbb\xbf" + csv_of(NAMES, records), csv_of(NAMES, records[:9]).replace(b"\n", b"\r\n")):
        emptied(room, ALL)
        room.ends_so(0, "", "--import", "p", "--csv", text=text)
        if not text.endswith(b"\r\n"):
            wants("the records", dumped(room), wanted)
    emptied(room, ALL)
    room.ends_so(0, "", "--import", "p", "--csv", text=csv_of(("id", "b", "s"), records))
    wants("columns that are left out", order_of(room, "q"), [it | {"n": None, "c": None, "t": None} for it in records])
    texts = [{"t": it} for it in (None, *TEXTS, None)]
    filled(room, ONE, [inserted(it) for it in texts])
    text, wanted = dumped(room, "--csv"), dumped(room)
    emptied(room, ONE)
    room.ends_so(0, "", "--import", "p", "--csv", text=text)
    wants("one column", dumped(room), wanted)


UNIQUE = ALL.replace('"ordered", key', '"ordered", unique = true, key').replace('name = "p"', 'name = "p"\nmax = 2')
HEAD = b"id,b,s\n"
# Texts that are refused, each with what is said.
REFUSED = (
    (b"", "line 1: there are no names of columns"),
    (b"id,b,s,x\n", "line 1: there is no column 'x'"),
    (b"id,b,s,\xff\n", "line 1: there is no column '?'"),
    (b"id,b,b,s\n", "line 1: a column stands twice"),
    (b"id,s\n1,a\n", "line 1: column b is missing"),
    (HEAD + b"1,true,a\n2,true\n", "line 3: 2 fields, and not 3"),
    *((HEAD + b"1,true,a\n%s,true,b\n" % it, "line 3: column id: no whole number of 64 bits") for it in (b"", b"x", b"1.5", b"9223372036854775808", b" 1", b"\xff")),
    *((HEAD + b"1,%s,a\n" % it, "line 2: column b: neither true nor false") for it in (b"", b"1", b"True")),
    (HEAD + b"1,true,\xff\n", "line 2: column s: not UTF-8"),
    (HEAD + b"1,true," + b"x" * 4097 + b"\n", "line 2: column s: longer than 4096 bytes"),
    (HEAD + b'1,true,"a\n\nb"\n1,false,c\n', 'line 5: {"at":1,"by":"by_id","err":"banned","h":"0:1"}'),
    (HEAD + b"1,true,a\n2,true,b\n3,true,c\n", 'line 4: {"err":"full"}'),
)


def rows_that_are_refused(room):
    """Nothing is taken in, and the line and the reason are told."""
    emptied(room, UNIQUE)
    start_of(room)
    before = room.files() | declarations(room)
    for text, said in REFUSED:
        wants(f"{text[:40]!r}: the end", room.does("--import", "p", "--csv", text=text), (LINE, b"", [f"csv: {said}"]))
        wants(f"{text[:40]!r}: the files", but_marks(room.files() | declarations(room)), but_marks(before))
    room.ends_so(0, "", "--import", "p", "--csv", text=HEAD + b"+1,true,a\n002,false,\n")
    wants("the records", [it["id"] for it in order_of(room, "q")], [1, 2])
    room.ends_so(STATE, "filled: @/data/p.log", "--import", "p", "--csv", text=HEAD)


def rows_that_are_killed(room):
    """Killed at each step, an import of rows leaves the empty table or all records, and may be done again."""
    text, ends = csv_of(NAMES, rows(9)), {"none": 0, "all": 0}
    for at in range(1, 400):
        emptied(room, ALL)
        status, _, _ = room.does("--import", "p", "--csv", environment=watched(room, KILL_AT=at), text=text)
        wants(f"step {at}: the end", status in (0, -9), True)
        wants(f"step {at}: the start", start_of(room)[0], None)
        found = len(order_of(room, "q"))
        ends["all" if found else "none"] += 1
        if not found:
            room.ends_so(0, "", "--import", "p", "--csv", text=text)
        wants(f"step {at}: the records", csv_of(NAMES, order_of(room, "q")), text)
        if status == 0:
            wants("steps that leave none and all", min(ends.values()) > 1, True)
            return
    raise Wrong("it has no end")


def output_that_is_closed(room):
    """What can't be printed is told."""
    filled(room, SCHEMA, inserts(3))
    for more in ([], ["--csv"]):
        words = [*PROGRAM, "--schema", f"{room.folder}/schema", "--data", f"{room.folder}/data", "--dump", "p", *more]
        with open("/dev/full", "wb") as full:
            ran = subprocess.run(words, stdout=full, stderr=subprocess.PIPE, timeout=SECONDS)
        wants(f"the end of {more}", (ran.returncode, ran.stderr), (1, b"device: write\n"))


DUMP_CASES = [records_that_are_printed, rows_that_go_and_come, rows_that_are_refused, rows_that_are_killed, output_that_is_closed]
