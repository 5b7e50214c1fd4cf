"""What `tools/new_record --self-check` tries: words and files with faults, the files of the crates, and drawn tables, of which some are built and asked."""
import contextlib
import glob
import io
import os
import random
import shutil
import subprocess
import tempfile

from draw.drawn_schemas import get, index_of, table_of
from parts.built_program import TOP
from parts.record_text import HEAD, words_at_head, written
from parts.record_words import table_at, table_in, words_in, words_of
from reference.plain_machine import KINDS, SEQUENCES

DRAWN = 40
BUILT = 5
ROWS = 12
LEAST_FILES = 3

ITEMS = ["items", "sku:int", "shelf:int", "by_number: unique hashed sku"]
# Calls that no proved program makes, each with what a program without proof says as it ends there.
WRONG_CALLS = (
    ("records.index(Tag(1, Hashed)).find(&sought)", "index: index 1 is not there"),
    ("records.index(Tag(0, Ranked)).nth(0)", "index: index 0 is of another kind than its name says"),
    ("records.reverse(Tag(7, Sequenced))", "reverse: index 7 is not there"),
    ("records.erase_key(Tag(0, Ordered), &sought)", "erase_key: index 0 is of another kind than its name says"),
    ("records.index(items::BY_NUMBER).find(&sought.leading())", "find: index 0 is hashed, and is asked for leading parts of a key"),
    ("records.erase_key(items::BY_NUMBER, &sought.leading())", "erase_key: index 0 is hashed, and is asked for leading parts of a key"),
)
TWO = '[[table]]\nname = "{}"\ncolumn = [{{name = "id", cell = "int"}}]\nindex = [{{name = "by_id", kind = "hashed", key = ["id"]}}]\n'
# Words, the status that they end with, and what is said of them.
SAID = [
    (ITEMS, 0, "wrote items.rt: the record Item, and BY_NUMBER\n"),
    ([*ITEMS, "-o", "other.rt"], 0, "wrote other.rt: the record Item, and BY_NUMBER\n"),
    ([*ITEMS, "-o", "by_hand.rt"], 1, "by_hand.rt is there, and is not as this tool writes it"),
    ([*ITEMS, "-o", "changed.rt"], 1, "changed.rt is there, and is not as this tool writes it"),
    ([*ITEMS, "-o", "absent/items.rt"], 1, "absent/items.rt: No such file or directory\n"),
    (["people/Human", *ITEMS[1:]], 0, "wrote people.rt: the record Human, and BY_NUMBER\n"),
    (["people", *ITEMS[1:]], 0, "wrote people.rt: the record Person, and BY_NUMBER\n"),
    (["Addresses", *ITEMS[1:]], 0, "wrote addresses.rt: the record Address, and BY_NUMBER\n"),
    (["order_entries", *ITEMS[1:]], 0, "wrote order_entries.rt: the record OrderEntry, and BY_NUMBER\n"),
    (["type", *ITEMS[1:]], 0, "wrote type_.rt: the record Type, and BY_NUMBER\n"),
    (["main", *ITEMS[1:]], 0, "wrote main_.rt: the record Main, and BY_NUMBER\n"),
    (["fields", *ITEMS[1:]], 3, "name: line 1, column 1: the record of table \"fields\" can't be called Field"),
    (ITEMS[:3], 3, 'limit: line 1, column 1: table "items" has no indices, and needs 1 to 8\n'),
    ([*ITEMS, "shelf"], 3, "words: line 1, column 56: `shelf` is neither a column nor an index"),
    ([*ITEMS, "max=many"], 3, "words: line 1, column 56: max is a whole number, as max=1000\n"),
    ([*ITEMS, "max=0"], 3, 'limit: line 1, column 56: "max" of table "items" is 0, and has to be 1 to 4294967295\n'),
    (["items", "sku:integer", *ITEMS[2:]], 3, 'shape: line 1, column 11: "cell" of column "sku" of table "items" is "integer"'),
    ([*ITEMS, "by_shelf: sorted shelf"], 3, 'shape: line 1, column 67: "kind" of index "by_shelf" of table "items" is "sorted"'),
    ([*ITEMS, "by_shelf: ordered shlef"], 3, 'key: line 1, column 75: index "by_shelf" of table "items": its key has "shlef"'),
    ([*ITEMS, "by_shelf: hashed -shelf"], 3, 'key: line 1, column 74: index "by_shelf" of table "items": a part of a hashed key has no -'),
    ([*ITEMS, "by_shelf: ordered"], 3, 'key: line 1, column 57: index "by_shelf" of table "items": an index of the kind "ordered" needs a key'),
    ([*ITEMS, "latest: sequenced sku"], 3, 'key: line 1, column 75: index "latest" of table "items": an index of the kind "sequenced" has no key'),
    ([*ITEMS, "Sku:text"], 3, 'name: line 1, column 56: column "Sku" is `sku` in the program, as is column "sku"\n'),
    ([*ITEMS, "item: sequenced"], 3, 'name: line 1, column 57: index "item" is `item` in the program, as is the record Item\n'),
    ([*ITEMS, "a: ordered sku shelf", "a_leading: random"], 3, 'name: line 1, column 80: index "a_leading" is `a_leading` in the program, as is index "a"\n'),
    ([*ITEMS, "1st:int"], 3, 'name: line 1, column 56: the name of column "1st" begins with 1'),
    (["one.toml"], 0, "wrote tables.rt: the record Table, and BY_ID\n"),
    (["two.toml"], 1, "the file has 2 tables: name one of tables, others\n"),
    (["two.toml", "others"], 0, "wrote others.rt: the record Other, and BY_ID\n"),
    (["two.toml", "others/One"], 0, "wrote others.rt: the record One, and BY_ID\n"),
    (["two.toml", "thirds"], 1, "the file has no table thirds: it has tables, others\n"),
    (["bad.toml"], 3, "key: line 4, column 51: index \"by_id\" of table \"tables\": its key has \"di\""),
    (["absent.toml"], 1, "absent.toml: No such file or directory\n"),
    (["again.rt"], 0, "wrote again.rt again\n"),
    (["by_hand.rt"], 1, "by_hand.rt has no words of tools/new_record at its head\n"),
    (["--check", "right.rt"], 0, ""),
    (["--check", "right.rt", "changed.rt"], 1, "changed.rt is not what its words give"),
    (["--check", "by_hand.rt"], 1, "by_hand.rt has no words of tools/new_record at its head\n"),
    (["--check", "empty.rt"], 1, "empty.rt has no words of tools/new_record at its head\n"),
    (["--chekc", "right.rt"], 1, "no such words: --chekc right.rt"),
    (["-o", "right.rt"], 1, "no table and no schema file is named"),
]


def save(name, text):
    with open(name, "w", encoding="utf-8") as it:
        it.write(text)


def read(name):
    with open(name, encoding="utf-8") as it:
        return it.read()


def prepare():
    """The files that the words of SAID name."""
    right = written(table_in(ITEMS))
    save("right.rt", right)
    save("changed.rt", right.replace("max", "most").replace("Search::signed(sku.into())", "Search::signed(0)"))
    save("again.rt", right.replace("//! items sku:int shelf:int", "//! items sku:int shelf:text"))
    save("by_hand.rt", "//! Items.\n")
    save("empty.rt", f"{HEAD}\n//!\n//! ```text\n//! ```\n")
    save("one.toml", TWO.format("tables"))
    save("two.toml", TWO.format("tables") + TWO.format("others"))
    save("bad.toml", TWO.format("tables").replace('["id"]', '["di"]'))


@contextlib.contextmanager
def in_folder(room):
    before = os.getcwd()
    os.chdir(room)
    try:
        yield
    finally:
        os.chdir(before)


def check_said(run, files):
    """Words with faults and without. Returns how many end otherwise than is stored."""
    wrong = 0
    for words, status, phrase in SAID:
        told = io.StringIO()
        with tempfile.TemporaryDirectory(prefix="new_record-") as room, contextlib.redirect_stdout(told):
            with in_folder(shutil.copytree(files, room, dirs_exist_ok=True)):
                given = run(words)
        if given != status or not told.getvalue().startswith(phrase) or bool(phrase) != bool(told.getvalue()):
            print(f"new_record {words}: status {given}, {told.getvalue()!r}")
            wrong += 1
    print(f"words: {len(SAID)} rows, {wrong} of them told otherwise")
    return wrong


def check_files():
    """The files of the crates that the tool wrote. Returns how many are otherwise, or too few."""
    files = [it for it in sorted(glob.glob(f"{TOP}/crates/*/src/*.rt")) if read(it).startswith(HEAD)]
    wrong = [it for it in files if written(table_in(words_at_head(read(it)))) != read(it)]
    for it in wrong:
        print(f"{os.path.relpath(it, TOP)} is not what its words give")
    print(f"files of crates: {len(files)} written by the tool, {len(wrong)} of them otherwise")
    return len(wrong) + (len(files) < LEAST_FILES)


# Drawn tables.


def schema_text(pairs):
    """A drawn table as a schema file."""
    def value(it):
        if isinstance(it, (list, tuple)):
            inner = ", ".join(f"{key} = {value(held)}" for key, held in it) if isinstance(it, tuple) else ", ".join(map(value, it))
            return f"{{{inner}}}" if isinstance(it, tuple) else f"[{inner}]"
        return str(it).lower() if isinstance(it, (bool, int)) else f'"{it}"'

    return "[[table]]\n" + "".join(f"{key} = {value(it)}\n" for key, it in pairs)


def drawn_table(draw, name):
    """A drawn table, by its schema file: it has an index of a drawn kind more, with up to four parts in its key."""
    pairs = table_of(draw, name)
    columns = [get(it, "name") for it in get(pairs, "column")]
    kind = draw.choice([it for it in KINDS if it not in SEQUENCES])
    long = [it if kind == "hashed" or draw.randrange(2) else f"-{it}" for it in draw.sample(columns, min(4, len(columns)))]
    more = (("name", "by_all"), ("kind", kind), ("key", long))
    pairs = tuple((key, [*it, more, index_of(draw, "further", columns)] if key == "index" else it) for key, it in pairs)
    return schema_text(pairs)


def drawn(count):
    draw = random.Random(1)
    return [table_at(drawn_table(draw, f"drawn_{at}").encode()) for at in range(count)]


def check_drawn(tables):
    """That the words of each drawn table give it again, and the words at the head of its file. Returns how many do not."""
    wrong = 0
    for it in tables:
        text = written(it)
        if table_in(words_in(words_of(it))) != it or words_at_head(text) != words_in(words_of(it)) or text.count("\npub fn ") != functions_of(it):
            print(f"{words_of(it)}: its words or its functions are others")
            wrong += 1
    searches = sum(map(functions_of, tables))
    print(f"tables drawn: {len(tables)} with {searches} searches, {wrong} of them written otherwise than they are read")
    return wrong


def functions_of(table):
    return sum(len(it.searches) for it in table.indices)


# Drawn tables that are built and asked.


def value_of(draw, column):
    if column.null and draw.randrange(3) == 0:
        return None
    return {"int": draw.randrange(-1, 3), "text": draw.choice(("", "a", "\u00e9")), "bool": draw.randrange(2) == 1}[column.cell]


def literal(column, value, owned):
    """A value as the program writes it: in a record, which owns its text, or in a search."""
    if value is None:
        return "None"
    text = {"int": str(value), "bool": str(value).lower(), "text": f'"{value}"'}[column.cell]
    text = f"Text::copy_of(rt.alloc(), {text})?" if owned and column.cell == "text" else text
    return f"Some({text})" if column.null else text


def rank(value):
    """A value as it stands in the order of keys: absence, numbers, texts, truth values."""
    return (value is not None, value.encode() if isinstance(value, str) else value or 0)


class Asked:
    """A drawn table with its drawn rows: the function that asks the program, and what that has to print."""

    def __init__(self, draw, table):
        self.draw, self.table, self.lines, self.wanted, self.rows = draw, table, [], [], []

    def put(self):
        """Puts drawn rows in, of which the unique indices refuse some."""
        for _ in range(ROWS):
            row = {it.name: value_of(self.draw, it) for it in self.table.columns}
            same = [it for it in self.table.indices if it.unique and any(self.key(it, row) == self.key(it, other) for other in self.rows)]
            is_in = not same and len(self.rows) < self.table.most
            fields = ", ".join(f"{it.field}: {literal(it, row[it.name], True)}" for it in self.table.columns)
            self.say(f"records.insert({self.table.record} {{ {fields} }}).is_ok()", "true" if is_in else "false")
            self.rows += [row] * is_in

    @staticmethod
    def key(index, row):
        return [row[column.name] for column, _ in index.parts]

    def say(self, code, wanted):
        self.lines.append(f'    println!(rt; "{{}}", {code})?;')
        self.wanted.append(str(wanted))

    def look(self):
        """Asks each search for a drawn row's values; and in sorted indices how many records stand before the last of its key."""
        for index in self.table.indices:
            for name, count in index.searches:
                row = self.draw.choice(self.rows)
                asked = self.key(index, row)[:count]
                args = [literal(column, value, False) for (column, _), value in zip(index.parts, asked)]
                fails = any(column.cell == "text" for column, _ in index.parts[:count])
                call = f"{name}({', '.join(['rt.alloc()'] * fails + args)}){'?' * fails}"
                view = f"records.index({self.module}::{index.constant})"
                self.say(f"{view}.count(&{self.module}::{call})", sum(self.key(index, it)[:count] == asked for it in self.rows))
                if index.kind == "ranked":
                    self.say(f"{view}.lower_rank(&{self.module}::{call})", sum(self.before(index, self.key(index, it), asked) for it in self.rows))

    @staticmethod
    def before(index, key, asked):
        """Whether a key stands before the values of leading parts."""
        for value, other, (_, falls) in zip(key, asked, index.parts):
            if value != other:
                return (rank(value) < rank(other)) != falls
        return False

    @property
    def module(self):
        return self.table.module

    def code(self):
        self.put()
        self.look()
        head = f"fn ask_{self.module}(rt: &HostRuntime) -> io::Result<()> {{\n"
        made = f"    let mut records = Indexed::new(rt.alloc(), {self.module}::INDICES, {self.module}::MOST)?;\n"
        return head + made + "\n".join(self.lines) + "\n    Ok(())\n}\n"


def wrong_calls():
    """The function that makes the wrong call of a number."""
    arms = "".join(f'        "{at}" => {{ let _ = {code}; }}\n' for at, (code, _) in enumerate(WRONG_CALLS))
    made = "    let mut records: Indexed<items::Item> = Indexed::new(rt.alloc(), items::INDICES, items::MOST)?;\n    let sought = items::by_number(7);\n"
    return f"fn call_wrongly(rt: &HostRuntime, number: &str) -> io::Result<()> {{\n{made}    match number {{\n{arms}        _ => {{}}\n    }}\n    Ok(())\n}}\n"


def program_of(asked):
    """The text of a program that asks all tables, or makes the wrong calls of its words."""
    modules = "".join(f"mod {it.module};\n" for it in asked)
    names = "".join(f"use {it.module}::{it.table.record};\n" for it in asked)
    calls = "".join(f"    ask_{it.module}(&rt)?;\n" for it in asked)
    codes = "\n".join([*(it.code() for it in asked), wrong_calls()])
    uses = f"use indexed::{{Hashed, Indexed, Ordered, Ranked, Sequenced, Tag, Text}};\n{names}use std::env;\nuse std::io;\n"
    words = "    let words: Vec<String> = env::args(&rt)?.skip(1).collect(rt.alloc())?;\n    for it in &words {\n        call_wrongly(&rt, it)?;\n    }\n"
    head = f"//! Drawn tables.\n#![tactic(auto)]\n\nmod items;\n{modules}\n{uses}\n"
    return f"{head}{codes}\nfn main(rt: HostRuntime) -> io::Result<()> {{\n{words}{calls}    Ok(())\n}}\n"


def check_built(tables):
    """Builds a program with drawn tables without proof, and asks each search. Returns how many answers are others than by plain lists."""
    draw = random.Random(2)
    asked = [Asked(draw, it) for it in tables]
    with tempfile.TemporaryDirectory(prefix="new_record-") as room:
        for name in ("crates", "tools"):
            shutil.copytree(f"{TOP}/{name}", f"{room}/{name}", ignore=shutil.ignore_patterns("out", "__pycache__"))
        shutil.copy(f"{TOP}/crates.txt", room)
        folder = f"{room}/crates/drawn_tables"
        os.makedirs(f"{folder}/src")
        save(f"{room}/crates.txt", read(f"{room}/crates.txt") + "\ndrawn_tables: indexed\n")
        for it in asked:
            save(f"{folder}/src/{it.module}.rt", written(it.table))
        save(f"{folder}/src/items.rt", written(table_in(ITEMS)))
        save(f"{folder}/src/main.rt", program_of(asked))
        built = subprocess.run([f"{room}/tools/quick_build", "drawn_tables"], stdin=subprocess.DEVNULL, stdout=subprocess.PIPE, stderr=subprocess.STDOUT, text=True)
        if built.returncode:
            print(built.stdout)
            return 1
        program = f"{folder}/out/drawn_tables-unproved"
        told = subprocess.run([program], stdout=subprocess.PIPE, text=True)
        wrong = check_wrong_calls(program)
    return compare(told, [line for it in asked for line in it.wanted], len(tables)) + wrong


def check_wrong_calls(program):
    """That a program without proof ends at each wrong call, and says which it is. Returns how many do not."""
    wrong = 0
    for at, (code, wanted) in enumerate(WRONG_CALLS):
        told = subprocess.run([program, str(at)], stdout=subprocess.PIPE, stderr=subprocess.PIPE, text=True)
        if told.returncode >= 0 or told.stderr != f"{wanted}\n" or told.stdout:
            print(f"{code}: status {told.returncode}, {told.stderr!r}")
            wrong += 1
    print(f"wrong calls: {len(WRONG_CALLS)}, {wrong} of them without an end or its words")
    return wrong


def compare(told, wanted, count):
    found = told.stdout.splitlines()
    wrong = sum(a != b for a, b in zip(found, wanted)) + abs(len(found) - len(wanted)) + (told.returncode != 0)
    print(f"tables built without proof: {count}, {len(wanted)} answers, {wrong} of them others than by plain lists")
    return wrong


def self_check(run):
    tables = drawn(DRAWN)
    with tempfile.TemporaryDirectory(prefix="new_record-") as files:
        with in_folder(files):
            prepare()
        wrong = check_said(run, files)
    wrong += check_files() + check_drawn(tables) + check_built(tables[:BUILT])
    return 1 if wrong else 0
