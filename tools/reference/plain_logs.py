"""The cases of crates/log_cases in Python: tables of the plain machine with their logs, over files that fail."""
from reference.command_texts import command_text
from reference.plain_checks import CheckedCase
from reference.plain_machine import MEMORY, Fault, Machine, read

BOUNDLESS = 2**64


def contents(text):
    return [f"  | {it}" for it in text.decode().split("\n")]


class Log:
    """The bytes of a log, and how its disk fails."""

    def __init__(self, table):
        self.table, self.bytes, self.synced, self.syncs = table, b"", 0, 0
        self.room, self.syncs_left, self.is_over = BOUNDLESS, BOUNDLESS, False

    def takes(self, verb, text):
        """Whether a line says what the log has, or how its disk fails."""
        if verb in ("line", "torn"):
            self.bytes += text.encode() + b"\n" * (verb == "line")
        elif verb == "zeros":
            self.bytes += bytes(int(text))
        elif verb == "room":
            self.room = int(text)
        elif verb == "syncs":
            self.syncs_left = int(text)
        return verb in ("line", "torn", "zeros", "room", "syncs", "pieces", "interrupts")

    def load(self, machine):
        """Runs the whole lines. Returns how many bytes were torn, or why it isn't opened."""
        *lines, torn = self.bytes.split(b"\n")
        for number, line in enumerate(lines, 1):
            answer, change = machine.answer(line)
            if change is None or read(line)["t"] != self.table:
                return None, f"line {number}"
            machine.keep(change)
        self.bytes = self.bytes[: len(self.bytes) - len(torn)]
        return (len(torn), None) if self.sync() else (None, "the disk failed")

    def append(self, text):
        front = text[: self.room]
        self.bytes, self.room = self.bytes + front, self.room - len(front)
        self.is_over = front != text
        return not self.is_over

    def sync(self):
        if self.is_over or not self.syncs_left:
            self.is_over = True
            return False
        self.synced, self.syncs, self.syncs_left = len(self.bytes), self.syncs + 1, self.syncs_left - 1
        return True


def called(machine, log, line):
    """The answer to a command on a table with its log, or None where the log is over."""
    if log.is_over:
        return None
    answer, change = machine.answer(line)
    if change is not None:
        if not log.append(command_text(read(line)).encode() + b"\n"):
            return None
        machine.keep(change)
    return answer.decode()


class LogCase:
    """One table over a disk in memory."""

    def __init__(self, schema):
        self.schema, self.log, self.machine, self.mark = schema, Log(None), None, None

    def told(self, verb, text):
        if self.log.takes(verb, text):
            return []
        return getattr(self, verb)(text)

    def open(self, text):
        table, room = text.split()
        machine = Machine(self.schema)
        if table not in machine.tables:
            return ["  no such table"]
        self.log.table = table
        torn, why = self.log.load(machine)
        if why:
            return [f"  {why}", *contents(self.log.bytes)]
        self.machine, self.log.room = machine, int(room)
        return [f"  {table}, {torn} bytes were cut off"]

    def call(self, text):
        if not self.machine:
            return ["  over"]
        if is_of_another(text, self.log.table):
            return ['  {"err":"table"}']
        told = called(self.machine, self.log, text.encode())
        return [f"  {told or 'over'}"]

    def sync(self, _):
        return ["  synced" if self.machine and self.log.sync() else "  over"]

    def reach(self, _):
        self.mark = len(self.log.bytes) if self.machine else None
        return []

    def reached(self, _):
        return ["  yes" if self.machine and self.mark is not None and self.mark <= self.log.synced else "  no"]

    def close(self, _):
        told, self.machine = contents(self.log.bytes) if self.machine else ["  no log"], None
        return told


def is_of_another(line, table):
    """Whether a line is a command that names another table."""
    try:
        return read(line.encode())["t"] != table
    except Fault:
        return False


class SeatCase:
    """A table of each declaration over a file, and sessions."""

    def __init__(self, schema):
        self.machine = Machine(schema)
        self.logs = {it: Log(it) for it in self.machine.tables}
        self.syncing, self.sent, self.is_open = None, [], False

    def told(self, verb, text):
        if verb == "open":
            self.syncing = text
            return list(self.opened())
        if self.syncing is None:
            table, _, rest = text.partition(" ")
            self.logs[table].takes(verb, rest)
            return []
        if verb == "+":
            self.sent.append(text.encode())
            return []
        return self.synced() if verb == "sync" else self.sends(verb, text)

    def opened(self):
        for log in self.logs.values():
            _, why = log.load(self.machine)
            if why:
                yield from [f"  {log.table}:  {why}", *contents(log.bytes)]
                return
        self.is_open = True
        yield from (f"  {at}: {table}" for at, table in enumerate(self.logs))

    def ends(self):
        for log in self.logs.values() if self.is_open else ():
            yield from [log.table, *contents(log.bytes), f"  {log.synced} bytes are synced, by {log.syncs} syncs"]

    def over(self, log):
        return f"  over: table {list(self.logs).index(log.table)}"

    def synced(self):
        """All logs that have more bytes than synced ones are synced, and the first that is over is told."""
        over = [it for it in self.logs.values() if it.synced < len(it.bytes) and not it.sync()]
        return [self.over(over[0]) if over else "  synced"]

    def sends(self, verb, text, refused=()):
        """What a session tells, where memory was refused for the lines at these places."""
        _, _, room = text.partition(" ")
        lines, self.sent = [it for it in self.sent if it.strip()], []
        answers, marked = [], []
        for at, line in enumerate(lines):
            log = self.log_of(line) if at not in refused else None
            answer = MEMORY.decode() if at in refused else called(self.machine, log, line) if log else self.machine.answer(line)[0].decode()
            if answer is None:
                return [*contents(b""), self.over(log)]
            answers.append(answer)
            marked += [log] * (log is not None and self.syncing == "each")
        for log in self.logs.values():
            if log in marked and log.synced < len(log.bytes) and not log.sync():
                return [*contents(b""), self.over(log)]
        taken = "".join(it + "\n" for it in answers).encode()
        room = BOUNDLESS if verb == "broken" else int(room)
        end = "a write failed" if room < len(taken) else "a read failed" if verb == "broken" else "served"
        return [*contents(taken[:room]), f"  {end}"]

    def log_of(self, line):
        try:
            return self.logs.get(read(line)["t"])
        except Fault:
            return None


def cases_of(text):
    """The name of each case, its lines, and the tables that it begins with."""
    schema, *cases = text.decode().split("=== ")
    for case in cases:
        name, *lines = case.split("\n")[:-1]
        kind, table, *_ = name.split()
        yield name, lines, {"log": LogCase, "seats": SeatCase, "checked": lambda it: CheckedCase(it, table)}[kind](schema)


def log_cases(text):
    """What the program prints for its input."""
    for name, lines, kept in cases_of(text):
        yield f"=== {name}"
        for line in lines:
            verb, _, rest = line.partition(" ")
            yield line
            yield from kept.told("reach" if verb == "mark" else verb, rest)
            if verb == "open" and isinstance(kept, SeatCase) and not kept.is_open:
                break
        yield from kept.ends() if isinstance(kept, SeatCase) else ()
