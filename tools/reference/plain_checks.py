"""The cases of crates/log_cases over disks that check themselves, in Python: what each start makes of a log, by the rules of the files alone."""
from reference.checked_log import MARK_BYTES, Hurt, Link, Strange, digest, line_text, mark_text, read_marks, recovered, slot_text
from reference.command_texts import command_text
from reference.plain_machine import Machine, read

BOUNDLESS = 2**64
BLOCKS, BLOCK = 10, 16


def contents(text):
    return [f"  | {it}" for it in text.decode().split("\n")]


class Failed(Exception):
    """The disk failed."""


class NoWrite(Exception):
    """The line of this number is no accepted write."""


class File:
    """A file in memory: how many bytes of it are synced, where it was written, and how much it takes."""

    def __init__(self, data, synced, room, syncs):
        self.data, self.synced, self.room, self.syncs_left, self.syncs = data, synced, room, syncs, 0
        self.least, self.most = BOUNDLESS, 0

    def write(self, at, data):
        front = data[: self.room]
        if front:
            self.data = self.data[:at] + front + self.data[at + len(front) :]
            self.room, self.synced = self.room - len(front), min(self.synced, at)
            self.least, self.most = min(self.least, at), max(self.most, at + len(front))
        if front != data:
            raise Failed

    def sync(self):
        if not self.syncs_left:
            raise Failed
        self.synced, self.syncs, self.syncs_left = len(self.data), self.syncs + 1, self.syncs_left - 1


class Mark:
    """The bytes of a mark, and how many slots it takes."""

    def __init__(self, data, slots):
        self.data, self.slots = data, slots

    def put(self, link):
        _, at = read_marks(self.data)
        if not self.slots:
            raise Failed
        text, self.slots = slot_text(link), self.slots - 1
        self.data = self.data[:at] + text + self.data[at + len(text) :]


class Server:
    """A log that is served: what was found of it, its machine, and what is known to be durable."""

    def __init__(self, schema, table, file, mark):
        self.file, self.mark, self.is_over, self.is_settled, self.begun = file, mark, False, False, None
        self.found = recovered(file.data, Link(0, digest(table.encode())), read_marks(mark.data)[0])
        self.machine, self.last, self.durable = Machine(schema), self.found.last, self.found.durable
        for number, line in enumerate(self.found.lines, 1):
            _, change = self.machine.answer(line.write)
            if change is None or read(line.write)["t"] != table:
                raise NoWrite(number)
            self.machine.keep(change)
        self.make_sure()

    def make_sure(self):
        if not self.is_settled:
            self.file.data = self.file.data[: self.found.end]
            self.file.synced = min(self.file.synced, self.found.end)
            tail = sum(len(it) + 1 for it in self.file.data.split(b"\n")[: self.durable])
            self.file.write(tail, self.file.data[tail:])
        self.file.sync()
        self.mark.put(self.last)
        self.is_settled, self.durable = True, self.last.number

    def sync(self):
        return self.does(self.make_sure)

    def begin(self):
        self.begun = self.last

    def count_begun(self):
        if self.begun:
            self.file.sync()
            if self.begun.number > self.durable:
                self.mark.put(self.begun)
                self.durable = self.begun.number

    def end(self):
        return self.does(self.count_begun)

    def does(self, call, *words):
        """Whether a call of the files succeeds, where none has failed before."""
        try:
            if not self.is_over:
                call(*words)
                return True
        except Failed:
            self.is_over = True
        return False

    def call(self, line):
        """The answer to a command, or None where the log is over."""
        if self.is_over:
            return None
        answer, change = self.machine.answer(line)
        if change is not None:
            text, link = line_text(command_text(read(line)).encode(), self.last, self.durable)
            if not self.does(self.file.write, len(self.file.data), text):
                return None
            self.machine.keep(change)
            self.last = link
        return answer.decode()


def reason(fault):
    """Why a log is not started."""
    if isinstance(fault, Hurt):
        return f"  hurt: writes {fault.args[0]} to {fault.args[1]}"
    if isinstance(fault, Strange):
        return f"  the mark of write {fault.args[0]} is of another log"
    return f"  line {fault.args[0]}" if isinstance(fault, NoWrite) else "  the disk failed"


class CheckedCase:
    """One table over a disk that checks itself."""

    def __init__(self, schema, table):
        self.schema, self.table = schema, table
        self.log, self.synced, self.mark_data, self.kept, self.server = b"", 0, bytes(MARK_BYTES), bytes(MARK_BYTES), None
        self.rests()

    def rests(self):
        self.limits = {"syncs": BOUNDLESS, "room": BOUNDLESS, "slots": BOUNDLESS, "pieces": BOUNDLESS}

    def told(self, verb, text):
        if verb in self.limits:
            self.limits[verb] = int(text)
            return []
        return getattr(self, verb)(text) or []

    def line(self, text):
        self.log += text.encode() + b"\n"

    def torn(self, text):
        self.log += text.encode()

    def zeros(self, text):
        self.log += bytes(int(text))

    def cut(self, text):
        self.log = self.log[: max(0, len(self.log) - int(text))]

    def reach(self, text):
        """The mark: "mark" is the word of a case."""
        if text == "keep":
            self.kept = self.mark_data
        else:
            self.mark_data = {"kept": self.kept, "none": bytes(MARK_BYTES), "strange": mark_text(Link(1, b"%016x" % 1))}[text]

    def files(self, log):
        return File(log, min(self.synced, len(log)), self.limits["room"], self.limits["syncs"]), Mark(self.mark_data, self.limits["slots"])

    def take_back(self, file, mark):
        self.log, self.synced, self.mark_data = file.data, file.synced, mark.data
        self.rests()

    def open(self, _):
        file, mark = self.files(self.log)
        try:
            self.server = Server(self.schema, self.table, file, mark)
        except (Hurt, Strange, NoWrite, Failed) as fault:
            self.take_back(file, mark)
            return [reason(fault)]
        found = self.server.found
        return [f"  {found.last.number} writes, {found.durable} durable, {found.torn} bytes behind with {len(found.behind)} lines"]

    def call(self, text):
        return [f"  {(self.server.call(text.encode()) if self.server else None) or 'over'}"]

    def sync(self, _):
        return ["  synced" if self.server and self.server.sync() else "  over"]

    def begin(self, _):
        if self.server:
            self.server.begin()

    def end(self, _):
        return ["  synced" if self.server and self.server.end() else "  over"]

    def close(self, _):
        if not self.server:
            return ["  no log"]
        file, mark, self.server = self.server.file, self.server.mark, None
        self.take_back(file, mark)
        written = f"written from {file.least} to {file.most}" if file.least < file.most else "nothing written"
        return [*contents(file.data), f"  {written}; {file.synced} bytes are synced, by {file.syncs} syncs"]

    # Sweeps.

    def verdict(self, log):
        """What a start makes of another log in the place of this one."""
        file, mark = self.files(log)
        try:
            Server(self.schema, self.table, file, mark)
        except (Hurt, Strange, NoWrite, Failed):
            return "refused"
        if not self.log.startswith(file.data):
            return "wrong"
        return "whole" if file.data == self.log else "short" if len(file.data) < self.synced else "cut"

    def sweep(self, logs):
        found = [self.verdict(it) for it in logs]
        shown = {"whole": "served whole", "cut": "cut behind what was synced", "short": "cut before", "refused": "refused", "wrong": "wrong"}
        return ["  " + ", ".join(f"{found.count(it)} {text}" for it, text in shown.items())]

    def ends(self, _):
        return self.sweep(self.log[:at] for at in range(len(self.log) + 1))

    def holes(self, _):
        places = [(at, at + BLOCK) for at in range(self.synced, len(self.log), BLOCK)][:BLOCKS]
        return self.sweep(self.with_holes([it for block, it in enumerate(places) if number >> block & 1]) for number in range(1024))

    def with_holes(self, places):
        log = bytearray(self.log)
        for first, last in places:
            log[first:last] = bytes(len(log[first:last]))
        return bytes(log)

    def flips(self, _):
        return self.sweep(self.log[:at] + bytes([self.log[at] ^ 1 << bit]) + self.log[at + 1 :] for at in range(len(self.log)) for bit in range(8))

    def lines(self, _):
        lines = self.log.splitlines(keepends=True)
        missing = [lines[:at] + lines[at + 1 :] for at in range(len(lines))]
        doubled = [lines[: at + 1] + lines[at:] for at in range(len(lines))]
        exchanged = [lines[: at - 1] + [lines[at], lines[at - 1]] + lines[at + 1 :] for at in range(1, len(lines))]
        return self.sweep(b"".join(it) for it in missing + doubled + exchanged)
