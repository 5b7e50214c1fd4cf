"""The tables of `examples/every_kind`: `p` with an index of each kind, seven in all, and `t`, which gets full. Many tools send lines to them."""
import os

FILE = os.path.join(os.path.dirname(os.path.abspath(__file__)), "../..", "examples", "every_kind", "schema.toml")
TABLE = "[[table]]\n"

with open(FILE, encoding="utf-8") as it:
    SCHEMA = it.read()

# Each table's own part of the file.
SEVEN_INDICES, GETS_FULL = (TABLE + it for it in SCHEMA.split(TABLE)[1:])


def seven_indices(name, more=""):
    """The table of seven indices under another name, and with more indices, a line each."""
    named = SEVEN_INDICES.replace('name = "p"', f'name = "{name}"', 1)
    return named.removesuffix("]\n") + more + "]\n"
