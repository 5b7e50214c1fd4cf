#!/usr/bin/env python3
"""The program table_keeper in Python over the plain machine, as it is to be or with one fault.

plain_keeper.py FAULT WORDS ..    FAULT is one of FAULTS, or `none`; the words are those of table_keeper
"""
import argparse
import contextlib
import fcntl
import json
import os
import pickle
import re
import socket
import sys
import threading
import time
import tomllib

sys.path[0] = os.path.dirname(sys.path[0])
from reference.checked_log import MARK_BYTES, SLOT_BYTES, Hurt, Link, Strange, bases_of, declaration_text, line_text, read_line, read_marks, read_state, recovered, slot_text, state_text, torn_text
from reference.command_texts import command_text
from reference.plain_machine import MEMORY, Fault, Machine, Record, by_age, read

FAULTS = {
    "none",
    "starts empty", "a torn line is carried out", "a torn line stays", "a torn line is not told", "a torn line refuses", "a whole line goes with a torn one",
    "zeros are a line", "a bad line is passed over", "lines are counted from 0", "the wrong file is told", "a log is cut before all are read",
    "hurt lines are cut", "the mark is not looked at", "marks are not written", "marks before it syncs", "a mark that is gone is not told",
    "the tail is not rewritten", "the tail is cut and appended", "lines tell nothing durable", "lines tell too much",
    "two keepers at once", "any schema will do", "a declaration is its bytes", "an old socket keeps it out", "appends what was sent", "appends reads",
    "appends refused writes",
    "answers before it appends", "answers before it syncs", "answers while another syncs", "a commit waits for all", "never syncs",
    "its folder is never synced",
    "goes on after a failed append", "tells no file", "ends with status 0", "nobody is idle", "busy ones are idle", "half a line is carried out",
    "a connection too many is closed", "a worker ends with its connection", "a failed accept ends a worker", "appends without its lock",
    "keeps each write", "a refused start empties a log", "a refused line is carried out", "a refused line has no answer",
    "a refused connection ends a worker",
    "a state loses an order", "a state loses its number", "a state has the schema's indices alone", "a state numbers handles anew", "a state's digest is not looked at",
    "a cut state is an empty table", "any state will do", "a half written state is read", "the old log runs on the new state", "an old log stays",
    "a half written state stays", "a log without its state is passed over", "a compact removes the log first", "a compact renames before it syncs",
    "a missing log is made", "a state has no types", "an old log goes by its name", "an old log goes by its number", "a longer old log is passed over",
    "a log that is left is not told", "an old journal is passed over",
    "a front of a journal is taken", "a journal comes to other writes", "an upgrade removes the journal first",
    "a slow line is not idle", "a slow taker is not idle", "takers of lines are idle", "answers a browser", "answers a browser in pieces", "ends at any word", "ends at a later request",
    "all may open its files", "all may open its folder", "all may open its socket",
    "a failed compact ends with status 0", "a failed compact takes the log", "a second compact empties the state", "a refused compact takes the log",
}


class Stop(Exception):
    """The end of the program: its status and its text."""


def has_fault(name):
    return sys.argv[1] == name


def stop(status, text):
    """Ends the program from any thread."""
    os.write(2, text.encode())
    os._exit(status)


def append(file, text):
    while text:
        text = text[os.write(file, text) :]


class Memory:
    """Memory that is refused as refusing_malloc.c refuses it: here each start, each connection and each line asks for some once."""

    def __init__(self):
        self.refuse_at, self.refuses_on = int(os.environ.get("REFUSE_AT", 0)), "REFUSE_ON" in os.environ
        self.count, self.lock = 0, threading.Lock()

    def is_armed(self):
        if "ARMED_FILE" not in os.environ:
            return True
        with open(os.environ["ARMED_FILE"], "rb") as file:
            return file.read(1) != b"\0"

    def is_refused(self):
        if not self.refuse_at or not self.is_armed():
            return False
        with self.lock:
            self.count += 1
            if self.count == self.refuse_at:
                open(os.environ["REFUSED_FILE"], "wb").close()
            return self.count == self.refuse_at or self.refuses_on and self.count > self.refuse_at


def sync_folder(folder):
    opened = os.open(folder, os.O_RDONLY)
    if not has_fault("its folder is never synced"):
        os.fsync(opened)
    os.close(opened)


def file_mode():
    return 0o666 if has_fault("all may open its files") else 0o600


def write_at(file, at, text):
    while text:
        count = os.pwrite(file, text, at)
        at, text = at + count, text[count:]


def make(path, text):
    """A file with this text."""
    file = os.open(path, os.O_WRONLY | os.O_CREAT | os.O_TRUNC, file_mode())
    append(file, text)
    os.fsync(file)
    os.close(file)


def begins_as_a_request(text):
    """Whether a stream that begins with this text is a request of HTTP: begins with a method in capital letters, and a space."""
    if has_fault("answers a browser"):
        return False
    if has_fault("ends at any word"):
        return bool(re.match(rb"[A-Za-z]+ ", text))
    return bool(re.match(rb"[A-Z]{3,} ", text))


def remove(path):
    with contextlib.suppress(FileNotFoundError):
        os.remove(path)


class Files:
    """The files of a table in the folder."""

    def __init__(self, folder, name):
        self.folder, self.name = folder, name
        self.state, self.draft, self.journal, self.mark = (f"{folder}/{name}.{it}" for it in ("state", "state.new", "log.new", "mark"))
        self.declaration = f"{folder}/{name}.schema"

    def log(self, number):
        """The path of the log behind a state, or of that which begins with the empty table."""
        return f"{self.folder}/{self.name}.{'' if number is None else f'{number}.'}log"

    def numbers(self):
        """The numbers of the states that logs are behind, and None for that which begins with the empty table."""
        found = [re.fullmatch(rf"{self.name}\.(?:(0|[1-9]\d*)\.)?log", it) for it in sorted(os.listdir(self.folder))]
        return [it.group(1) and int(it.group(1)) for it in found if it]

    def old_ones(self):
        """The logs of an older keeper."""
        return [f"{self.folder}/{it}" for it in sorted(os.listdir(self.folder)) if re.fullmatch(rf"{self.name}\.((0|[1-9]\d*)\.)?jsonl", it)]


def text_of(path):
    """What a file has, or None where there is none."""
    try:
        with open(path, "rb") as file:
            return file.read()
    except FileNotFoundError:
        return None
    except OSError:
        raise Stop(1, f"device: file: {path}\n") from None


class State:
    """What a file has of a table: its records with their handles, in the order of each index, and its number of writes."""

    def __init__(self, files, table, base):
        self.files, self.table, self.base, self.is_there = files, table, base, False

    def number(self):
        """The number in the name of the log behind it."""
        return self.base.number if self.is_there else None

    def cells(self):
        return json.dumps([f"{it.cell}{'?' * it.null}" for it in self.table.columns.values()], separators=(",", ":")).encode()

    def body(self):
        lists, writes = self.table.lists, self.table.writes
        if has_fault("a state loses an order"):
            lists = {it: records if it.kind in ("ordered", "ranked") else by_age(records) for it, records in lists.items()}
        if has_fault("a state has the schema's indices alone"):
            lists = dict(list(lists.items())[:1])
        if has_fault("a state numbers handles anew"):
            new = {id(it): Record(at, it.stamp, it.row) for at, it in enumerate(by_age(self.table.records))}
            lists = {index: [new[id(it)] for it in records] for index, records in lists.items()}
        text = pickle.dumps((self.table.name, self.table.columns, len(self.table.records) if has_fault("a state loses its number") else writes, lists))
        return b'"%s"\n' % text.hex().encode()

    def read(self):
        """Puts the state into the empty table, where there is one."""
        path = self.files.state
        if has_fault("a half written state is read") and os.path.exists(self.files.draft):
            path = self.files.draft
        text = text_of(path)
        if text is None:
            return
        found = read_state(text)
        if not found and has_fault("a state's digest is not looked at"):
            start, _, rest = text.partition(b"\n")
            found = start[-18:-2], rest.rpartition(b'{"c"')[0]
        try:
            name, columns, writes, lists = pickle.loads(bytes.fromhex(found[1][1:-2].decode()))
        except Exception:
            if has_fault("a cut state is an empty table"):
                return
            raise Stop(8, f"state: {path}\n") from None
        same = list(columns) == list(self.table.columns) if has_fault("a state has no types") else columns == self.table.columns
        if (name != self.table.name or not same) and not has_fault("any state will do"):
            raise Stop(8, f"state: {path}: 1\n")
        self.table.lists, self.table.writes, self.base, self.is_there = lists, writes, Link(writes, found[0]), True

    def refuse_others(self):
        """Logs that do not fit the state, or are of an older keeper."""
        if not has_fault("an old journal is passed over"):
            for path in self.files.old_ones():
                raise Stop(8, f"old: {path}\n")
        for number in self.files.numbers():
            is_later = number is not None and (number > self.base.number or not self.is_there)
            if is_later and not has_fault("a log without its state is passed over"):
                raise Stop(8, f"state: none before: {self.files.log(number)}\n")
            if self.is_there and number != self.base.number and not is_later and not has_fault("a longer old log is passed over"):
                lines = list(filter(None, map(read_line, text_of(self.files.log(number)).split(b"\n")[:-1])))
                if any(max(it.number, it.durable) > self.base.number for it in lines):
                    raise Stop(8, f"state: too old for: {self.files.log(number)}\n")
        is_declared = os.path.exists(self.files.declaration)
        if not self.is_there and is_declared and not os.path.lexists(self.files.log(None)) and not has_fault("a missing log is made"):
            raise Stop(8, f"missing: {self.files.log(None)}\n")

    def is_spent(self, number, first):
        """Whether a log from before the state ends where that begins."""
        text = text_of(self.files.log(number))
        line = read_line(text.partition(b"\n")[0])
        base = first if not number else Link(number, line.before if line else b"")
        try:
            found = recovered(text, base)
        except Hurt:
            return False
        if has_fault("an old log goes by its number"):
            return found.last.number == self.base.number
        return found.last == self.base and not found.torn

    def clean(self, first):
        """Removes what is older than the state."""
        if not has_fault("a half written state stays"):
            remove(self.files.draft)
        remove(self.files.journal)
        if not self.is_there or has_fault("an old log stays"):
            return
        for number in self.files.numbers():
            if number == self.base.number:
                continue
            path = self.files.log(number)
            if has_fault("an old log goes by its name") or self.is_spent(number, first):
                remove(path)
            elif not has_fault("a log that is left is not told"):
                os.write(2, f"left: {path}: it does not end with write {self.base.number}\n".encode())

    def put(self, last, first):
        """Writes the state behind this write in place of the one before, and an empty log."""
        if self.is_there and self.base.number == last.number:
            if has_fault("a second compact empties the state"):
                self.table.lists = {it: [] for it in self.table.lists}
                self.put_text(last)
            return
        if has_fault("a compact removes the log first"):
            remove(self.files.log(self.number()))
        try:
            self.put_text(last)
        except OSError:
            if not has_fault("a half written state stays"):
                remove(self.files.draft)
            if has_fault("a failed compact takes the log"):
                remove(self.files.log(self.number()))
            raise Stop(0 if has_fault("a failed compact ends with status 0") else 9, f"compact: {self.files.draft}\n") from None
        self.base, self.is_there = last, True
        try:
            sync_folder(self.files.folder)
            make(self.files.log(last.number), b"")
            sync_folder(self.files.folder)
        except OSError:
            raise Stop(1, f"device: file: {self.files.folder}\n") from None
        self.clean(first)

    def put_text(self, last):
        file = os.open(self.files.draft, os.O_WRONLY | os.O_CREAT | os.O_TRUNC, file_mode())
        try:
            append(file, state_text(self.cells(), last.digest, self.body()))
            if has_fault("a compact renames before it syncs"):
                os.rename(self.files.draft, self.files.state)
            os.fsync(file)
        finally:
            os.close(file)
        if not has_fault("a compact renames before it syncs"):
            os.rename(self.files.draft, self.files.state)


class Log:
    """A table and the log of its accepted writes."""

    def __init__(self, folder, table, first):
        self.name, self.table, self.lock, self.kept, self.late = table.name, table, threading.Lock(), [], None
        self.file, self.first, self.mark_synced = None, first, 0
        self.files = Files(folder, table.name)
        self.state = State(self.files, table, first)
        self.state.read()
        self.state.refuse_others()
        path = self.files.log(self.state.number())
        if has_fault("the old log runs on the new state") and os.path.exists(self.files.log(None)):
            path = self.files.log(None)
        self.path = f"{folder}/x.log" if has_fault("the wrong file is told") else path
        self.text = b"" if has_fault("starts empty") else text_of(path) or b""
        self.is_synced = True

    def load(self, machine):
        """Decides about the log, and carries out its lines. Nothing is changed."""
        base, text = self.state.base, self.text
        found = text_of(self.files.mark)
        self.mark, self.slot = (None, 0) if has_fault("the mark is not looked at") else read_marks(found or b"")
        if has_fault("a torn line is carried out") and read_line(text.rpartition(b"\n")[2]):
            text = self.text = text + b"\n"
        try:
            self.found = recovered(text, base, self.mark)
        except Hurt as why:
            if not has_fault("hurt lines are cut"):
                raise Stop(6, "hurt: %s: writes %d to %d\n" % (self.path, *why.args)) from None
            self.found = self.front(text, base)
        except Strange:
            raise Stop(8, f"mark: {self.files.mark}: of another log\n") from None
        if has_fault("a torn line refuses") and self.found.torn or has_fault("zeros are a line") and text[self.found.end :].startswith(b"\0"):
            raise Stop(6, f"line: {self.path}: {len(self.found.lines) + 1}\n")
        if has_fault("a whole line goes with a torn one") and self.found.torn and self.found.lines:
            self.found = self.front(text[: self.found.end - 1], base)
        for number, line in enumerate(self.found.lines, 0 if has_fault("lines are counted from 0") else 1):
            change = machine.answer(line.write)[1]
            if change and read(line.write)["t"] == self.name:
                machine.keep(change)
            elif not has_fault("a bad line is passed over"):
                raise Stop(6, f"line: {self.path}: {number}\n")
        self.last, self.at = self.found.last, self.found.end
        if has_fault("a log is cut before all are read"):
            self.open()
            self.settle()

    def front(self, text, base):
        """The whole log at the front of these bytes, whatever else is known."""
        lines = text.split(b"\n")[:-1]
        for count in range(len(lines), -1, -1):
            try:
                return recovered(b"".join(it + b"\n" for it in lines[:count]), base)._replace(torn=len(self.text))
            except Hurt:
                pass

    def open(self):
        """Opens the log and the mark, which are made where they are not there."""
        for path, text in ((self.path, b""), (self.files.mark, bytes(MARK_BYTES))):
            if not os.path.lexists(path):
                make(path, text)
        try:
            self.file, self.mark_file = (os.open(it, os.O_RDWR) for it in (self.path, self.files.mark))
        except OSError:
            raise Stop(1, f"device: file: {self.path}\n") from None

    def settle(self):
        """Cuts off what is torn, and tells it; writes what is not known to be on the disk once more in its place; and marks all that."""
        torn, self.found = self.found.torn, self.found._replace(torn=0)
        if torn and not has_fault("a torn line stays"):
            os.ftruncate(self.file, self.found.end)
        if torn and not has_fault("a torn line is not told"):
            os.write(2, torn_text(self.path, self.found._replace(torn=torn)).encode())
        if self.found.lines and not self.mark and not has_fault("a mark that is gone is not told"):
            os.write(2, f"mark: {self.files.mark}: none\n".encode())
        tail = [it for it in self.found.lines if it.number > self.found.durable]
        begin = self.found.end - sum(len(it) + 1 for it in self.text[: self.found.end].split(b"\n")[:-1][len(self.found.lines) - len(tail) :])
        if not has_fault("the tail is not rewritten"):
            if has_fault("the tail is cut and appended"):
                os.ftruncate(self.file, begin)
            write_at(self.file, begin, self.text[begin : self.found.end])
        if has_fault("a torn line stays") and torn:
            self.at += torn
        os.fdatasync(self.file)
        self.durable = self.last.number
        self.put_mark()
        os.fdatasync(self.mark_file)

    def put_mark(self):
        if not has_fault("marks are not written"):
            write_at(self.mark_file, self.slot, slot_text(self.last))
            self.slot = SLOT_BYTES - self.slot

    def keep(self, line, change):
        """Carries out a write, once its line is in the log."""
        text = line if has_fault("appends what was sent") else command_text(read(line)).encode()
        if has_fault("keeps each write"):
            self.kept.append(text)
        durable = self.last.number if has_fault("lines tell too much") else 0 if has_fault("lines tell nothing durable") else self.durable
        text, self.last = line_text(text, self.last, durable)
        at, self.at = self.at, self.at + len(text)
        try:
            if has_fault("answers before it appends"):
                self.put_before_the_next(at, text)
            elif has_fault("appends without its lock"):
                self.put_behind_the_next(at, text)
            else:
                write_at(self.file, at, text)
        except OSError:
            self.fail()
        self.is_synced = False
        change()

    def put_before_the_next(self, at, text):
        """Puts the line before, and holds this one back."""
        if self.late is not None:
            write_at(self.file, *self.late)
        self.late = (at, text)

    def put_behind_the_next(self, at, text):
        """Exchanges two lines, as where each writer appends its own once the other has the lock."""
        if self.late is None:
            self.late = (at, text)
        else:
            (at, late), self.late = self.late, None
            write_at(self.file, at, text + late)

    def wait_for_all(self):
        """Waits until so many lines are carried out as ten clients send by the time that each has come three times."""
        behind = self.last.number + 30
        while self.last.number < behind:
            time.sleep(0.001)

    def sync(self):
        """Syncs what was appended, or waits for who does."""
        if has_fault("answers while another syncs") and self.lock.locked():
            return
        with self.lock:
            if self.is_synced or has_fault("never syncs"):
                return
            self.is_synced = True
            try:
                if has_fault("marks before it syncs"):
                    self.put_mark()
                os.fdatasync(self.file)
                self.durable = self.last.number
                if not has_fault("marks before it syncs"):
                    self.put_mark()
                if time.monotonic() - self.mark_synced > 1:
                    self.mark_synced = time.monotonic()
                    os.fdatasync(self.mark_file)
            except OSError:
                self.fail()

    def fail(self):
        if not has_fault("goes on after a failed append"):
            stop(0 if has_fault("ends with status 0") else 5, "log\n" if has_fault("tells no file") else f"log: {self.path}\n")


def declared(text):
    """The tables that a schema file declares, as they are printed; none where it is none."""
    try:
        return [declaration_text(it) for it in tomllib.loads(text.decode())["table"]]
    except (KeyError, ValueError):
        return None


def upgrade(folder, machine, bases):
    """Takes over the logs of an older keeper that are behind no state: each table gets a state in their place."""
    for name, table in machine.tables.items():
        files = Files(folder, name)
        for path in files.old_ones():
            if not os.path.exists(files.state):
                for line in text_of(path).split(b"\n")[:-1]:
                    machine.keep(machine.answer(line)[1])
                state = State(files, table, bases[name])
                if has_fault("an upgrade removes the journal first"):
                    remove(path)
                state.put(Link(table.writes, bases[name].digest), bases[name])
            remove(path)


class Keeper:
    """The tables of a schema with their logs."""

    def __init__(self, given):
        self.given, self.folder, self.memory = given, given.data, Memory()
        try:
            with open(given.schema, encoding="utf-8") as file:
                schema = file.read()
        except OSError:
            raise Stop(1, f"device: file: {given.schema}\n") from None
        self.machine, bases = Machine(schema), bases_of(schema)
        self.hold(schema)
        if given.upgrade:
            upgrade(self.folder, self.machine, bases)
            self.machine = Machine(schema)
        self.logs = {}
        for name, table in self.machine.tables.items():
            self.logs[name] = Log(self.folder, table, bases[name])
            self.logs[name].load(self.machine)
        if self.memory.is_refused():
            for log in self.logs.values() if has_fault("a refused start empties a log") else ():
                os.truncate(log.path, 0)
            raise Stop(1, "memory\n")
        if given.export is None:
            self.settle_all(schema)

    def settle_all(self, schema):
        """What a start changes, once all is decided."""
        try:
            sync_folder(self.folder)
            for log in self.logs.values():
                if log.file is None:
                    log.open()
                    log.settle()
            sync_folder(self.folder)
            self.declare(schema)
            sync_folder(self.folder)
        except OSError:
            raise Stop(1, f"device: file: {self.folder}\n") from None
        for log in self.logs.values():
            log.state.clean(log.first)

    def named(self, name):
        if name not in self.logs:
            raise Stop(2, f"error: the schema has no table '{name}'\n")
        return self.logs[name]

    def export(self, name):
        """Prints the writes of a log."""
        log = self.named(name)
        for line in log.found.lines:
            sys.stdout.write(line.write.decode() + "\n")
        if log.state.is_there:
            os.write(2, f"behind: {log.path}: the log begins behind write {log.state.base.number}\n".encode())

    def take(self, name):
        """Takes a plain journal from standard input into the log of a table without writes."""
        log = self.named(name)
        if log.state.is_there or log.last.number and not has_fault("a journal comes to other writes"):
            raise Stop(8, f"filled: {log.path}\n")
        number, text = 0, b""
        for number, line in enumerate(sys.stdin.buffer.read().splitlines(), 1):
            change = self.machine.answer(line)[1]
            if change is None or read(line)["t"] != name:
                if has_fault("a front of a journal is taken"):
                    break
                raise Stop(6, f"line: standard input: {number}\n")
            self.machine.keep(change)
            line, log.last = line_text(command_text(read(line)).encode(), log.last, 0)
            text += line
        make(log.files.journal, text)
        os.rename(log.files.journal, log.path)
        sync_folder(self.folder)

    def compact(self):
        """Writes the state of each table."""
        if self.memory.is_refused():
            if has_fault("a refused compact takes the log"):
                for log in self.logs.values():
                    remove(log.path)
            raise Stop(1, "memory\n")
        for log in self.logs.values():
            log.state.put(log.last, log.first)

    def hold(self, schema):
        """Takes the folder, and compares the declaration beside the logs."""
        try:
            if not os.path.isdir(self.folder):
                os.mkdir(self.folder, 0o777 if has_fault("all may open its folder") else 0o700)
            self.lock = os.open(f"{self.folder}/lock", os.O_RDWR | os.O_CREAT, file_mode())
            fcntl.flock(self.lock, fcntl.LOCK_EX | fcntl.LOCK_NB)
        except BlockingIOError:
            if not has_fault("two keepers at once"):
                raise Stop(7, f"taken: {self.folder}\n") from None
        except OSError:
            raise Stop(1, f"device: file: {self.folder}\n") from None
        for it in tomllib.loads(schema)["table"]:
            self.compare(it, f"{self.folder}/{it['name']}.schema")

    def compare(self, table, path):
        """Compares the declaration of a table with the one beside its log."""
        found = text_of(path)
        if found is None:
            return
        fits = found == declaration_text(table).encode() if has_fault("a declaration is its bytes") else declared(found) == [declaration_text(table)]
        if not fits and not has_fault("any schema will do"):
            raise Stop(3, f"schema: other: {path}\n")

    def declare(self, schema):
        """Writes the declarations that are not there."""
        for it in tomllib.loads(schema)["table"]:
            path = f"{self.folder}/{it['name']}.schema"
            if not os.path.exists(path):
                make(f"{path}.part", declaration_text(it).encode())
                os.rename(f"{path}.part", path)

    def answer(self, line):
        """The answer to a line, behind what it leaves in its table and its log."""
        is_refused = self.memory.is_refused()
        if is_refused and not has_fault("a refused line is carried out"):
            return b"" if has_fault("a refused line has no answer") else MEMORY
        try:
            log = self.logs[read(line)["t"]]
        except (Fault, KeyError):
            return self.machine.answer(line)[0]
        with log.lock:
            answer, change = self.machine.answer(line)
            if has_fault("appends reads") and b'"size"' in line or has_fault("appends refused writes") and b'"banned"' in answer:
                log.keep(line, lambda: None)
            if change:
                log.keep(line, change)
        return MEMORY if is_refused else answer

    def settle(self, is_lone):
        """Syncs what was appended by one line or more, as it is asked for."""
        if has_fault("answers while another syncs"):
            time.sleep(0.001)
        if self.given.sync == "each" and not has_fault("answers before it syncs"):
            for log in self.logs.values():
                if is_lone and has_fault("a commit waits for all"):
                    log.wait_for_all()
                log.sync()

    def receive(self, connection, rest):
        try:
            return connection.recv(4096)
        except TimeoutError:
            if has_fault("half a line is carried out"):
                self.answer(rest)
            return None

    def send(self, connection, answers):
        """Sends answers, each of which may take as long as an idle connection may be."""
        if has_fault("takers of lines are idle"):
            connection.sendall(b"".join(answers))
            return
        for answer in answers:
            if not has_fault("a slow taker is not idle"):
                connection.sendall(answer)
            while has_fault("a slow taker is not idle") and answer:
                answer = answer[connection.send(answer) :]

    def serve(self, connection):
        rest = b""
        idle = None if has_fault("nobody is idle") else self.given.idle or None
        connection.settimeout(idle)
        begun = waits = time.monotonic()
        is_first = True
        while piece := self.receive(connection, rest):
            if begins_as_a_request(piece if has_fault("answers a browser in pieces") else rest + piece) and (is_first or has_fault("ends at a later request")):
                return
            *lines, rest = (rest + piece).split(b"\n")
            is_first = is_first and not lines
            if not lines and idle and not has_fault("a slow line is not idle"):
                left = idle - (time.monotonic() - waits)
                if left <= 0:
                    return
                connection.settimeout(left)
                continue
            connection.settimeout(idle)
            answers = [self.answer(it) + b"\n" for it in lines if it.strip()]
            self.settle(len(answers) == 1)
            self.send(connection, answers)
            waits = time.monotonic()
            if has_fault("busy ones are idle") and self.given.idle and time.monotonic() - begun > self.given.idle:
                return
        if piece is not None and rest.strip():
            connection.sendall(self.answer(rest) + b"\n")

    def work(self, listener):
        """Serves connections, one after the other."""
        while True:
            try:
                connection, _ = listener.accept()
            except OSError:
                if has_fault("a failed accept ends a worker"):
                    return
                time.sleep(0.01)
                continue
            with contextlib.suppress(OSError), connection:
                is_refused = self.memory.is_refused()
                if not is_refused:
                    self.serve(connection)
            if has_fault("a worker ends with its connection") or is_refused and has_fault("a refused connection ends a worker"):
                return

    def sync_each_second(self):
        while True:
            time.sleep(0.1 if has_fault("answers before it syncs") else 1)
            for log in self.logs.values():
                log.sync()


def listening(address):
    """The listener at an address. A socket file that nobody listens at is taken away."""
    kind, _, place = address.partition(":")
    if kind == "tcp":
        host, _, port = place.rpartition(":")
        return socket.create_server((host, int(port)))
    listener = socket.socket(socket.AF_UNIX)
    if os.path.exists(place) and not has_fault("an old socket keeps it out"):
        with socket.socket(socket.AF_UNIX) as other:
            if other.connect_ex(place):
                os.remove(place)
    try:
        listener.bind(place)
    except OSError:
        raise Stop(1, "device: listen\n") from None
    os.chmod(place, 0o777 if has_fault("all may open its socket") else 0o700)
    listener.listen(128)
    return listener


def between(low, high):
    def number(text):
        if not low <= int(text) <= high:
            raise argparse.ArgumentTypeError(f"{text} is not from {low} to {high}")
        return int(text)

    return number


def words():
    reader = argparse.ArgumentParser()
    for name in ("--schema", "--data"):
        reader.add_argument(name, required=True)
    reader.add_argument("--listen")
    for name in ("--export", "--import", "--alter", "--fill"):
        reader.add_argument(name)
    for name in ("--compact", "--upgrade"):
        reader.add_argument(name, action="store_true")
    reader.add_argument("--workers", type=between(1, 256), default=16)
    reader.add_argument("--sync", choices=("each", "second", "never"), default="each")
    reader.add_argument("--idle", type=between(0, 10**6), default=0)
    return reader.parse_args(sys.argv[2:])


def main():
    given = words()
    given.taken = vars(given)["import"]
    if [given.listen is not None, given.compact, given.export is not None, given.taken is not None, given.upgrade, given.alter is not None].count(True) != 1:
        stop(2, "error: one of --listen ADDRESS, --compact, --export NAME, --import NAME, --dump NAME, --upgrade and --alter NEW is needed, and no other of them\n")
    if given.listen is None:
        try:
            keeper = Keeper(given)
            if given.compact:
                keeper.compact()
            for name, does in ((given.export, keeper.export), (given.taken, keeper.take)):
                if name is not None:
                    does(name)
        except Stop as why:
            stop(*why.args)
        return
    if not given.listen.startswith(("unix:/", "tcp:127.")):
        stop(2, "listen\n")
    try:
        keeper = Keeper(given)
        listener = listening(given.listen)
    except Stop as why:
        stop(*why.args)
    print("listening", flush=True)
    if has_fault("a connection too many is closed"):
        threading.Thread(target=lambda: [it[0].close() for it in iter(listener.accept, None)]).start()
    threads = [threading.Thread(target=keeper.work, args=(listener,)) for _ in range(given.workers)]
    if given.sync == "second" or has_fault("answers before it syncs"):
        threads.append(threading.Thread(target=keeper.sync_each_second, daemon=True))
    for it in threads:
        it.start()


if __name__ == "__main__":
    main()
