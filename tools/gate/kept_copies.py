"""The cases of tools/gate/run_keeper about folders that are copied while the program serves."""
import glob
import shutil
import threading
import time

from gate.endings import SCHEMA, accepted, ask, inserts, wants
from gate.keeping import Room, size
from reference.histories import Wrong

TWO = SCHEMA + SCHEMA.replace('"p"', '"o"')
NAMES = ("p", "o")
WRITERS, COPIES, SOME = 4, 6, 20
HURT = 6


def copied(room, name, parts=(["*.mark"], ["*.log", "*.schema"])):
    """Another room, whose folder is a copy of this one's: of the files of these endings, part after part."""
    other = Room(f"{room.folder}/{name}", room.program, room.schema)
    for endings in parts:
        for path in (it for ending in endings for it in glob.glob(f"{room.folder}/data/{ending}")):
            shutil.copy(path, f"{other.folder}/data")
    return other


class Writer(threading.Thread):
    """Writes records of its own numbers to one table, a few at a time, until it is told to end."""

    def __init__(self, keeper, number):
        super().__init__()
        self.keeper, self.number, self.answered, self.is_ended = keeper, number, 0, threading.Event()
        self.table, self.why = NAMES[number % len(NAMES)], None

    def run(self):
        try:
            with self.keeper.connect() as connection:
                while not self.is_ended.is_set():
                    first = (self.number << 20) + self.answered
                    answers = ask(connection, inserts(SOME, first, self.table.encode()))
                    wants("the answers", [it.endswith(b'"ok":true}\n') for it in answers], [True] * SOME)
                    self.answered += SOME
        except (OSError, Wrong) as why:
            self.why = why


def held_by(other, writers, answered):
    """Compares what a copy holds with the logs as they stood, and with what was answered before it began."""
    with other.kept("--sync", "each") as keeper:
        held = size(keeper)
        keeper.stop()
    logs = {name: other.log(name).splitlines() for name in NAMES}
    wants("the records of p", held, len(logs["p"]))
    for writer, count in zip(writers, answered):
        first = writer.number << 20
        own = [it for it in logs[writer.table] if first <= int(it.split(b'"id":')[1].split(b",")[0]) < first + (1 << 20)]
        wants(f"writer {writer.number}: at least {count} writes", len(own) >= count, True)
    return logs


def folder_copied_while_it_serves(room):
    """A copy, first of the marks and then of the other files, starts with a front of each table's writes, and with each that was answered before it began."""
    room.declare(TWO)
    with room.kept("--sync", "each") as keeper:
        writers = [Writer(keeper, it) for it in range(WRITERS)]
        for it in writers:
            it.start()
        copies = []
        for number in range(COPIES):
            time.sleep(0.15)
            answered = [it.answered for it in writers]
            copies.append((copied(room, f"copy{number}"), answered))
        for it in writers:
            it.is_ended.set()
        for it in writers:
            it.join()
        keeper.stop()
    for it in writers:
        if it.why:
            raise Wrong(f"writer {it.number}: {it.why}")
    wants("it wrote meanwhile", all(it.answered for it in writers), True)
    whole = {name: room.log(name).splitlines() for name in NAMES}
    for other, answered in copies:
        for name, writes in held_by(other, writers, answered).items():
            wants(f"{name}: a front of the writes", writes, whole[name][: len(writes)])


def folder_copied_marks_last(room):
    """Where the marks are copied last, they may tell of writes that the copy has not: then it does not start."""
    lines = inserts(8)
    with room.kept("--sync", "each") as keeper, keeper.connect() as connection:
        wants("the answers", ask(connection, lines[:4]), accepted(4))
        other = copied(room, "copy", (["*.log", "*.schema"],))
        time.sleep(1.1)
        wants("the answers", ask(connection, lines[4:]), accepted(4, 4))
        shutil.copy(room.path("p", "mark"), f"{other.folder}/data")
        keeper.stop()
    other.refused(HURT, f"hurt: @/data/p.log: writes 5 to {room.marked()}")


COPY_CASES = [folder_copied_while_it_serves, folder_copied_marks_last]
