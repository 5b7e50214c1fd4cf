"""Tables behind locks in plain Python, with passes and journals: what `shared_cases` has to print for the lines of its input."""
import dataclasses

from reference.plain_machine import BUILT_IN, MAX_LINE, Fault, Machine, read

THREADS = """\
  table 0: 100 and 100 in order
  table 1: 0 and 0 in order
  {"at":200,"n":200,"ok":true}
  the same records and handles""".split("\n")


@dataclasses.dataclass
class Known:
    """What a session knows of a table."""

    writes: list = dataclasses.field(default_factory=list)
    seen: int = 0
    look: tuple | None = None


class Pass:
    def __init__(self, session, tables):
        self.session, self.known, self.kept = session, [Known() for _ in range(tables)], []


class Tables:
    """The tables of a schema, with a journal for each: entries of a session, a line and an answer."""

    def __init__(self, schema, workers):
        self.schema, self.workers, self.is_gathered, self.is_handed_out = schema, workers, False, False
        self.machine = Machine(schema)
        self.names = list(self.machine.tables)
        self.journals = [[] for _ in self.names]

    def is_stranger(self, held):
        return len(held.known) != len(self.names) or held.session >= self.workers

    def own(self, place, session):
        return [(number, *entry[1:]) for number, entry in enumerate(self.journals[place], 1) if entry[0] == session]

    def call(self, held, line):
        try:
            name = read(line)["t"]
        except Fault as fault:
            return '{"err":"%s"}' % fault
        if self.is_stranger(held):
            return "stranger"
        if name not in self.names:
            return '{"err":"table"}'
        place = self.names.index(name)
        known, own, count = held.known[place], self.own(place, held.session), len(self.journals[place])
        last, found = (it[-1][0] if it else 0 for it in (known.writes, own))
        if last != found:
            return f"regressed: expected {last}, found {found}"
        if count < known.seen:
            return f"regressed: expected {known.seen}, found {count}"
        return self.step(held.session, place, known, line)

    def step(self, session, place, known, line):
        answer, change = self.machine.answer(line)
        count = len(self.journals[place])
        if change:
            change()
            self.journals[place].append((session, line, answer))
            known.writes.append((count + 1, line, answer))
        else:
            known.look = count, line, answer
        known.seen = count + bool(change)
        return answer.decode()

    def after(self, place, count):
        """The tables after so many entries of one journal."""
        machine = Machine(self.schema)
        for _, line, _ in self.journals[place][:count]:
            machine.keep(machine.answer(line)[1])
        return machine

    def agrees(self, place, session, passes):
        held = [it for it in passes if it.session == session]
        if not held:
            return not self.own(place, session)
        if len(held) > 1 or self.is_stranger(held[0]):
            return False
        known = held[0].known[place]
        count, line, answer = known.look or (0, None, None)
        fits = line is None or count <= len(self.journals[place]) and self.after(place, count).answer(line)[0][:256] == answer[:256]
        return fits and known.writes == self.own(place, session)

    def mismatch(self, passes):
        sessions = sorted({*range(self.workers), *(it.session for it in passes)})
        failed = ((place, it) for place in range(len(self.names)) for it in sessions if not self.agrees(place, it, passes))
        return next(failed, None)


class Hall:
    """Tables and passes under names."""

    def __init__(self, schema, text_of):
        self.schema, self.text_of, self.sets, self.passes = schema, text_of, {}, {}

    def told(self, line):
        """What is printed for a line."""
        words = line.decode().split(" ")
        rest = line.split(b" ", 2)[2:]
        if words[0] == "later":
            if words[1] in self.passes:
                self.passes[words[1]].kept += rest
                return []
            return ["  no pass"]
        carry_out = getattr(self, "on_" + words[0], None)
        said = carry_out(words[1:], *rest) if carry_out else [self.call(words[0], words[1], *rest)]
        return [line.decode(), *said]

    def open(self, schema, name, workers):
        self.sets[name] = Tables(schema, int(workers))
        self.passes |= {f"{name}{it}": Pass(it, len(self.sets[name].names)) for it in range(int(workers))}
        return []

    def on_open(self, words, *_):
        return self.open(self.schema, *words)

    def on_builtin(self, words, *_):
        return self.open(BUILT_IN, *words)

    def on_threads(self, *_):
        return THREADS

    def call(self, name, tables, line):
        if name not in self.passes:
            return "  no pass"
        return "  " + self.sets[tables].call(self.passes[name], line) if self.is_open(tables) else "  no tables"

    def is_open(self, name):
        return name in self.sets and not self.sets[name].is_gathered and not self.sets[name].is_handed_out

    def on_join(self, words, *_):
        passes = [self.passes[it] for it in words[1:] if it in self.passes]
        if not self.is_open(words[0]):
            return ["  no tables"]
        said = ["  " + self.sets[words[0]].call(it, line) for it in passes for line in it.kept]
        for it in passes:
            it.kept = []
        return said

    def served(self, tables, held, line):
        """What a line of a stream is told: nothing where it is blank."""
        if len(line) > MAX_LINE:
            return '{"err":"line"}'
        return self.sets[tables].call(held, line) if line.strip(b" \t\r") else ""

    def on_serve(self, words, *_):
        tables, name = words
        if name not in self.passes:
            return ["  no pass"]
        if not self.is_open(tables):
            return ["  no tables"]
        held, said = self.passes[name], []
        kept, held.kept = held.kept, []
        for line in kept:
            told = self.served(tables, held, line)
            if told and not told.startswith("{"):
                # (what waits for the end of the piece that was read is not written; the cases that are refused have one piece)
                return ["  " + told]
            said += [told] * bool(told)
        return said

    def on_alone(self, words, *_):
        if words[0] not in self.passes:
            return ["  no pass"]
        machine = Machine(self.schema)
        machine.tables = dict(list(machine.tables.items())[:1])
        return [self.answered(machine, it) for it in self.passes[words[0]].kept]

    @staticmethod
    def answered(machine, line):
        answer, change = machine.answer(line)
        machine.keep(change)
        return "  " + answer.decode()

    def on_gather(self, words, *_):
        tables, passes = self.sets.get(words[0]), [self.passes[it] for it in words[1:] if it in self.passes]
        if not self.is_open(words[0]):
            return ["  no tables"]
        failed = tables.mismatch(passes)
        if failed:
            return ["  mismatch: table %d, session %d" % failed]
        tables.is_gathered = True
        self.passes = {name: it for name, it in self.passes.items() if name not in words[1:]}
        return [*self.entries(tables), *self.text(tables), "  answered again the same: yes"]

    @staticmethod
    def entries(tables):
        for place, name in enumerate(tables.names):
            yield f"  table {name}"
            counts = {}
            for session, _, answer in tables.journals[place]:
                counts[session] = counts.get(session, 0) + 1
                yield f"    session {session}, write {counts[session]}: {answer.decode()}"

    def text(self, tables):
        return [self.text_of(read(line)) for journal in tables.journals for _, line, _ in journal]

    def on_uncompared(self, words, *_):
        if not self.is_open(words[0]):
            return ["  no tables"]
        tables = self.sets[words[0]]
        tables.is_handed_out = True
        return [*(f"  entries: {len(it)}" for it in tables.journals), *self.text(tables)]

    def on_write(self, words, *_):
        return self.text(self.sets[words[0]]) if self.is_told(words[0]) else ["  no journals"]

    def is_told(self, name):
        return name in self.sets and self.sets[name].is_gathered

    def on_narrow(self, words, *_):
        return ["  narrow writers take fronts: yes" if self.is_told(words[0]) else "  no journals"]

    def on_again(self, words, line):
        return ["  " + self.sets[words[0]].machine.answer(line)[0].decode() if self.is_told(words[0]) else "  no journals"]
