"""The lines of a shell, and what is wrong with the one that was refused last: in the words of tools/explain_line."""
import dataclasses
import itertools
import json

from parts.line_session import Session
from parts.line_states import OF_STATE, is_of_state
from parts.line_told import faults_in_words
from parts.shell_table import shown
from reference.plain_machine import read

# The plain machine takes some seconds for so many lines, and for twice as many four times as long.
MOST_FOLLOWED = 2000
MOST_SHOWN = 80
OF_INDICES = ("add_index", "drop_index")
OTHERS_NOTE = "(as on empty tables, without indices that others made: not all writes are this shell's)"
LONG_NOTE = f"(as on empty tables: this shell has sent more than {MOST_FOLLOWED:,} lines)"
NO_SCHEMA = "(no more is told: the schema is not known here)"
NO_MORE = "(no more is told: the server's tables are not as the schema file and this shell's lines say; .schema shows its indices)"
NO_MORE_OF_LONG = f"(no more is told: this shell has sent more than {MOST_FOLLOWED:,} lines)"


@dataclasses.dataclass
class Line:
    """A line, the name of its fault, and whether it changed a table."""

    text: str
    fault: str | None
    is_write: bool

    def is_of_indices(self):
        return self.is_write and json.loads(self.text)["op"] in OF_INDICES


@dataclasses.dataclass
class Refused:
    """What a refused line was answered, how many lines there were with it, and where others wrote to the tables the indices that each was known to have."""

    answer: str
    number: int
    served: dict | None

    @property
    def fault(self):
        return json.loads(self.answer)["err"]


class ShellSession(Session):
    """Explains lines as tools/explain_line does, and calls each by its text."""

    def __init__(self, schema):
        super().__init__(schema)
        self.texts = []

    def take(self, text):
        """Carries a line out, and explains its answer."""
        self.texts.append(text)
        return self.explain(text.encode("utf-8", "surrogateescape"))

    def line_called(self, number):
        text = self.texts[number - 1]
        return f"your line {text if len(text) <= MOST_SHOWN else text[: MOST_SHOWN - 2] + '..'}"

    @staticmethod
    def lines_called(first, last):
        return f"this line and the {'one' if last - first == 1 else last - first} before it"


class Lines:
    """The lines that were answered so far, on the tables of a schema, and the one that was refused last; `schema` is None where it is not known."""

    def __init__(self, schema):
        self.schema, self.kept, self.refused = schema, [], None
        self.follow()

    def follow(self):
        """Begins the session that follows the lines where nobody else writes: it takes each of them once, up to the last that was asked for."""
        self.followed, self.explained, self.is_same = self.schema and ShellSession(self.schema), None, True

    def take(self, text, fault, is_write):
        # (a line that was refused for want of memory is as one that was not sent)
        if fault != "memory":
            self.kept.append(Line(text, fault, is_write))

    def refuse(self, answer, served=None):
        """Keeps what the last line was answered, which was refused, or erased its record."""
        self.refused = Refused(answer, len(self.kept), served)

    def explain(self, have_others=False):
        """What was wrong with the line that was refused last, on the tables as they were then; others may have written to them by now."""
        it = self.refused
        if it is None:
            return "no line was refused so far"
        explained = None
        if self.schema is not None and it.fault != "memory":
            explained = self.explained_on_tables(it) if self.is_followed(it) else self.explained_by_words(it)
        if explained is None:
            return "\n".join([shown(it.answer), *self.why_no_more(it)])
        return "\n".join([*faults_in_words(explained), *self.notes(it, have_others)])

    def is_followed(self, it):
        """Whether the tables are known as they were when a line was refused."""
        return it.served is None and it.number <= MOST_FOLLOWED

    def explained_on_tables(self, it):
        """How a refused line is explained on the tables as they were; None where that would not be what the server found."""
        try:
            for line in self.kept[self.followed.number : it.number]:
                self.explained = self.followed.take(line.text)
                self.is_same &= self.explained.name == line.fault
        except KeyboardInterrupt:
            self.follow()
            raise
        return self.explained if self.is_same and self.explained.answer.decode() == it.answer else None

    def explained_by_words(self, it):
        """How a refused line is explained where no more is known of the tables than an index of each, or some."""
        if not all((it.served or {}).values()):
            return None
        session, (*before, line) = ShellSession(self.schema), self.kept[: it.number]
        for one in filter(Line.is_of_indices, before):
            session.take(one.text)
        for name, indices in (it.served or {}).items():
            session.machine.tables[name].lists = {index: [] for index in indices}
        for one in broken_before(before):
            session.take(one.text)
        explained = session.take(line.text)
        # (what comes of records, another client may have brought about)
        is_of_records = it.fault in OF_STATE or explained.name == "handle" and is_of_state(session, read(line.text.encode()), "handle")
        return dataclasses.replace(explained, then=None) if explained.name == it.fault and not is_of_records else None

    def notes(self, it, have_others):
        """On which tables the explanation is one."""
        if not self.is_followed(it):
            return [LONG_NOTE if it.served is None else OTHERS_NOTE]
        since = sum(line.is_write for line in self.kept[it.number :])
        who = [f"{since} of your lines"] * bool(since) + ["other clients"] * have_others
        return [f"(as the tables were then: {' and '.join(who)} changed them since)"] if who else []

    def why_no_more(self, it):
        """Why no more is told of a line than its fault."""
        if self.schema is None:
            return [NO_SCHEMA]
        if it.fault == "memory":
            return []
        return [NO_MORE if self.is_followed(it) or it.served is not None else NO_MORE_OF_LONG]


def broken_before(lines):
    """The last lines, as many as are no commands: the next may be the end of theirs."""
    return [*itertools.takewhile(lambda it: it.fault in ("json", "command"), reversed(lines))][::-1]
