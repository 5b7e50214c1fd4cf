"""Tables with several indices: in this process, in a folder that keeps them, or of a server.

    from pathlib import Path
    from thwartcornel import connect, open_folder, Tables, Container

    with Tables(Path("schema.toml")) as db:                   # in process, or
    with open_folder("data", Path("schema.toml")) as db:      # in process, and kept in a folder, or
    with connect("unix:/run/tables") as db:                   # of a server, or
    with connect(process=["table_server", "run", "--schema", "schema.toml"]) as db:
        people = db["people"]
        ann = people.insert(id=1, name="Ann", age=30)
        print(people[ann], people.find("by_id", 1) == ann)
        for handle, person in people.range("by_age", 18, 30):
            print(handle, person.name)
        with people.rollback(ann) as person:
            person.age += 1

`Container` has the same calls on records of a dataclass, in process and without JSON. See help(thwartcornel.Table), help(thwartcornel.Container)
and help(thwartcornel.connect). Nothing is needed beside the standard library, and for what is in process libthwartcornel.so.
"""
from .containers import Container
from .faults import (
    BadCommand,
    BadDefinition,
    BadJson,
    BadKey,
    BadLine,
    BadOrder,
    BadPlace,
    BadRow,
    Banned,
    Clash,
    Closed,
    Erased,
    Fault,
    FolderError,
    Full,
    NoIndex,
    NoMemory,
    NoTable,
    Overflow,
    Refused,
    SchemaError,
    Spent,
    Stale,
    WrongKind,
)
from .process import FolderTables, Tables, open_folder
from .records import Records
from .schemas import Column, Index, hashed, ordered, random_access, ranked, schema_text, sequenced
from .streams import Connection, connect
from .tables import Database, Later, Pipeline, Table
from .values import Cell, Handle, Row

__version__ = "0.1.0"
__all__ = [
    "BadCommand", "BadDefinition", "BadJson", "BadKey", "BadLine", "BadOrder", "BadPlace", "BadRow", "Banned", "Cell", "Clash", "Closed", "Column",
    "Connection", "Container", "Database", "Erased", "Fault", "FolderError", "FolderTables", "Full", "Handle", "Index", "Later", "NoIndex", "NoMemory",
    "NoTable", "Overflow", "Pipeline", "Records", "Refused", "Row", "SchemaError", "Spent", "Stale", "Table", "Tables", "WrongKind", "connect", "hashed",
    "open_folder", "ordered", "random_access", "ranked", "schema_text", "sequenced",
]  # fmt: skip
