"""Writes the module of a record: its struct, its indices and their searches, each with a contract.

A macro could not: it writes no struct, no function, no clause and no ghost line, and `rt ci` refuses an `impl` that a macro of the repository wrote. A trait of the
library could give an index its type, but not the fields, the row that the proofs read, or a search with the types of a key's columns.
"""
import subprocess
import tempfile

from parts.record_words import Wrong, words_in, words_of

TYPES = {"int": "i64", "text": "Text", "bool": "bool"}
ASKED = {"int": "i64", "text": "&str", "bool": "bool"}
# The word of a cell, in clauses and in code.
WORDS = {"int": "signed", "text": "text", "bool": "truth"}
VARIANTS = {"int": "Number", "text": "Text", "bool": "Truth"}
HEAD = "//! The record of a table, its indices, and a search for each key, as `tools/new_record` writes them of these words:"
FENCE = "//! ```text\n"
KINDS = {"sequenced": "A sequence in an order of its own", "random": "A sequence whose places can be counted"}
KEYED = {"ordered": "Ordered", "ranked": "Ordered with ranks", "hashed": "Hashed"}
# The most characters of a line that is broken here, and not by `rt fmt`.
WIDTH = 100


def written(table):
    """The text of the module."""
    parts = [head(table), uses(table), struct(table), constants(table), indices(table), impl(table)]
    parts += [copy_of(table)] * (not is_copy(table))
    parts += [search(index, *it) for index in table.indices for it in searches_of(index)]
    return laid_out("\n".join(parts))


def laid_out(text):
    """The text as `rt fmt` lays it out."""
    from parts.crate_builds import rtlib

    with tempfile.TemporaryDirectory(prefix="new_record-") as room:
        with open(f"{room}/record.rt", "w", encoding="utf-8") as it:
            it.write(text)
        ran = subprocess.run([rtlib.RATTLE, "fmt", "--write", f"{room}/record.rt"], stdout=subprocess.PIPE, stderr=subprocess.STDOUT, text=True)
        if ran.returncode:
            raise Wrong(f"what was written can't be laid out: {ran.stdout.strip()}")
        with open(f"{room}/record.rt", encoding="utf-8") as it:
            return it.read()


# The head, from which the words are read again.


def head(table):
    return "\n".join([HEAD, "//!", FENCE.rstrip(), *(f"//! {it}" for it in words_of(table)), "//! ```"])


def words_at_head(text):
    """The words at the head of a text that this wrote, or None."""
    before, found, rest = text.partition(FENCE)
    if not before.startswith(HEAD) or not found:
        return None
    lines = [it.removeprefix("//!").strip() for it in rest.partition("//! ```\n")[0].splitlines()]
    return words_in(lines) if lines and lines[0] else None


# What it imports.


def is_copy(table):
    return all(it.cell != "text" for it in table.columns)


def searched(table):
    """The columns that searches ask for."""
    return [column for it in table.indices for column, _ in it.parts]


def uses(table):
    columns, kinds = table.columns, {it.spec.upper() for it in table.indices}
    asked = searched(table)
    code = {"Field", "Fields", "Index", "Tag", *kinds, *(kind_of(it) for it in table.indices), *(WORDS[it.cell] for it in columns)}
    code |= {"Falling" if falls else "Rising" for it in table.indices for _, falls in it.parts}
    bodies = "".join(code for index in table.indices for *_, code in searches_of(index))
    code.update(["Search"] * bool(asked), ["Text"] * (not is_copy(table)), ["Value"] * ("Value::" in bodies))
    texts = any(it.cell == "text" for it in asked)
    alloc = ["use std::alloc::{AllocError, Global};"] if texts else ["use std::alloc::AllocError;"] if not is_copy(table) else []
    return "\n".join([*ghost_uses(table, asked), "", f"use indexed::{{{', '.join(sorted(code))}}};", *alloc, ""])


def ghost_uses(table, asked):
    prelude = ["◌≡◌"] + ["◌∷◌", "[]", "false"] * bool(asked)
    prelude += ["true"] * any(is_leading for index in table.indices for _, _, is_leading, _ in searches_of(index))
    prelude += ["IfOk"] * (any(it.cell == "text" for it in asked) or not is_copy(table))
    if len(prelude) == 1:
        return []
    words = [f"ghost use Rattle.indexed.specs.Declaration.{{{', '.join(sorted(cell_words(asked)))}}};"] * bool(asked)
    return [f"ghost use Rattle.std.specs.Prelude.{{{', '.join(prelude)}}};", *words]


def cell_words(columns):
    """The words that say the cells of columns."""
    return {WORDS[it.cell] for it in columns} | {"if_some" for it in columns if it.null}


# The record and its columns.


def type_of(column, types):
    return f"Option<{types[column.cell]}>" if column.null else types[column.cell]


def struct(table):
    derived = "Clone, Copy, Debug" if is_copy(table) else "Debug, Drop"
    fields = "".join(f"    pub {it.field}: {type_of(it, TYPES)},\n" for it in table.columns)
    return f"/// A record of the table `{table.name}`.\n#[derive({derived})]\npub struct {table.record} {{\n{fields}}}\n"


def constants(table):
    """The numbers of the columns, and the names of the indices, each with its number and its kind."""
    columns = "\n".join(f"    pub const {it.constant}: usize = {at};\n" for at, it in enumerate(table.numbered) if it)
    numbers = "\n".join(f"/// {told(it)}.\npub const {it.constant}: Tag<{kind_of(it)}> = Tag({at}, {kind_of(it)});\n" for at, it in enumerate(table.indices))
    most = f"/// The most records that there may be.\npub const MOST: u32 = {table.most};\n"
    return f"// The number of each column.\nimpl {table.record} {{\n{columns}}}\n\n{numbers}\n{most}"


def kind_of(index):
    """The type of an index's kind."""
    return index.kind.capitalize()


def told(index):
    """What an index is, in words."""
    if not index.parts:
        return KINDS[index.kind]
    key = ", then ".join(f"`{column.name}`{' from the greatest down' if falls else ''}" for column, falls in index.parts)
    return f"{KEYED[index.kind]}{' and unique' if index.unique else ''}, by {key}"


def indices(table):
    rows = []
    for it in table.indices:
        parts = ", ".join(f"{'Falling' if falls else 'Rising'}({table.record}::{column.constant})" for column, falls in it.parts)
        rows.append(f"    Index({it.spec.upper()}, &[{parts}]),\n")
    return f"/// The indices, for `Indexed::new`.\npub const INDICES: &[Index] = &[\n{''.join(rows)}];\n"


def cell(column, of):
    """A column's cell in a clause, of a value."""
    return f"if_some {WORDS[column.cell]} {of}" if column.null else f"{WORDS[column.cell]} {of}"


def impl(table):
    words = sorted(cell_words(table.columns) | {it.spec for it in table.indices})
    words = ["absent"] * (None in table.numbered) + words
    row = broken([cell(it, f"row.{it.field}") if it else "absent" for it in table.numbered] + ["[]"], "    ghost row_of = { λ row. ", " };")
    specs = " ∷ ".join([*(it.spec for it in table.indices), "[]"])
    arms = "".join(f"            {f'{table.record}::{it.constant}' if it else 2} => Some({field(it) if it else 'Field::Absent'}),\n" for it in table.numbered)
    return f"""impl Fields for {table.record} {{
    ghost use Rattle.std.specs.Prelude.{{◌∷◌, []}};
    ghost use Rattle.indexed.specs.Declaration.{{{', '.join(words)}}};

{row}

    ghost indices = {{ {specs} }};

    fn field(&self, column: usize) -> Option<Field<'_>> {{
        match column {{
{arms}            _ => None,
        }}
    }}
}}
"""


def broken(parts, before, behind):
    """Parts with ∷ between them, over as many lines as they need."""
    lines, line = [], before
    for at, part in enumerate(parts):
        more = part + (" ∷" if at + 1 < len(parts) else behind)
        if len(line) + len(more) > WIDTH and line.strip():
            lines.append(line.rstrip())
            line = "        "
        line += more + " "
    return "\n".join([*lines, line.rstrip()])


def field(column):
    """The field of a column."""
    of = {"int": "{}.into()", "text": "{}.as_str()", "bool": "{}"}[column.cell]
    if not column.null:
        return f"{WORDS[column.cell]}({of.format(f'self.{column.field}')})"
    borrowed = "&" if column.cell == "text" else ""
    some = f"Some(it) => {WORDS[column.cell]}({of.format('it')})"
    return f"match {borrowed}self.{column.field} {{ {some}, None => Field::Absent, }}"


def copy_of(table):
    """A record that holds texts owns them, so its copy may want memory."""
    fields = []
    for it in table.columns:
        of = f"self.{it.field}"
        if it.cell == "text":
            of = f"match &{of} {{ Some(it) => Some(it.copy()?), None => None, }}" if it.null else f"{of}.copy()?"
        fields.append(f"            {it.field}: {of},\n")
    return f"""impl {table.record} {{
    /// An equal record, to be changed and put in the place of this one by `replace`.
    pub fn copy(&self) -> Result<{table.record}, AllocError>
        ensures {{ IfOk result (λ copy. copy ≡ self.now) }}
    {{
        Ok({table.record} {{
{''.join(fields)}        }})
    }}
}}
"""


# The searches.


def searches_of(index):
    """The functions that make searches of an index: the name, the columns that it takes, whether it leads, and its body."""
    for name, count in index.searches:
        columns, leads = [column for column, _ in index.parts[:count]], count < len(index.parts)
        yield name, columns, leads, body(columns, leads)


def body(columns, leads):
    """The body of a search's function, in which a text and a value that may be absent have lines of their own."""
    lets, values = [], []
    for it in columns:
        of = {"int": "{}.into()", "text": "Text::copy_of(alloc, {})?", "bool": "{}"}[it.cell].format(it.field)
        value = f"Value::{VARIANTS[it.cell]}({of})"
        if it.null:
            value = f"match {it.field} {{ Some({it.field}) => {value}, None => Value::Absent, }}"
        if it.null or it.cell == "text":
            lets.append(f"    let {it.field} = {value};\n")
            value = it.field
        values.append(value)
    fails, one, behind = any(it.cell == "text" for it in columns), columns[0], ".leading()" if leads else ""
    if len(columns) == 1 and not one.null and one.cell == "text":
        return f"    Ok(Search::text(alloc, {one.field})?.leading())\n" if leads else f"    Search::text(alloc, {one.field})\n"
    first = f"Search::signed({one.field}.into())" if one.cell == "int" and not one.null else f"Search::of({values[0]})"
    found = first + "".join(f".and({it})" for it in values[1:]) + behind
    return "".join(lets) + (f"    Ok({found})\n" if fails else f"    {found}\n")


def search(index, name, columns, leads, code):
    fails = any(it.cell == "text" for it in columns)
    given = ", ".join(["alloc: Global"] * fails + [f"{it.field}: {type_of(it, ASKED)}" for it in columns])
    cells = " ∷ ".join([*(asked_cell(it) for it in columns), "[]"])
    made = f"record {{ leading = {'true' if leads else 'false'}; cells = {cells} }}"
    result, ensures = ("Result<Search, AllocError>", f"IfOk result (λ found. found ≡ {made})") if fails else ("Search", f"result ≡ {made}")
    if len(ensures) + 16 > WIDTH:
        ensures = ensures.replace(" cells = ", "\n        cells = ")
    what = "begins with this" if leads else "is this"
    return f"/// A search at `{index.constant}` for the records whose key {what}.\npub fn {name}({given}) -> {result}\n    ensures {{ {ensures} }}\n{{\n{code}}}\n"


def asked_cell(column):
    """The cell that a search asks for, in a clause: of a text its bytes."""
    if column.cell != "text":
        return cell(column, column.field)
    return f"if_some (λ it. text it.now) {column.field}.entry" if column.null else f"text {column.field}.now"
