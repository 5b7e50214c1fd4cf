"""The cases of tools/gate/run_keeper about logs, states and marks that are hurt, disks that fail or lose the power, journals that come and go, and folders of an older keeper."""
import contextlib
import os
import random
import re

from draw.drawing import Drawer
from gate.endings import SCHEMA, accepted, ask, built_library, inserts, wants
from gate.keeping import FULL, LINE, STATE, Tables, but_marks, filled, shows, size
from gate.power_cuts import WatchedFolder, records_of
from parts.built_program import TOP
from reference.checked_log import SLOT_BYTES, Link, line_text, log_text, mark_text, read_state, recovered, state_text
from reference.histories import Wrong, run_again

LINES, NEWLINE = inserts(4), b"\n"
CLEARS = [b'{"op":"clear","t":"p"}\n'] * 2
HURT = "hurt: @/data/p.log: writes %d to %d"
OLD_FOLDERS = f"{TOP}/tools/gate/old_folders.txt"


def flips(text, places):
    """The text with each bit flipped in turn of the bytes at these places, which come from all parts of it by turns."""
    for place in sorted(places, key=lambda it: it * 7919 % 1009):
        for bit in range(8):
            yield f"byte {place}, bit {bit}", text[:place] + bytes([text[place] ^ 1 << bit]) + text[place + 1 :]


def start_of(room):
    """A start that is ended once it listens: its status, or None where it listened, and what it said."""
    with room.keeper("--sync", "never", workers=1) as keeper:
        if keeper.process.stdout.readline():
            return None, keeper.stop().replace(room.folder, "@")
        status, said = keeper.ended()
        return status, said.replace(room.folder, "@")


class Hurting:
    """A folder in which one file is hurt after the other, and what a start makes of each."""

    def __init__(self, room, name):
        self.room, self.files, self.name = room, room.files() | declarations(room), name
        self.counts = {"refused": 0, "told": 0, "whole": 0}

    def tries(self, told, text, judge):
        """Starts with this text in the file. What is refused has changed nothing."""
        lay_all(self.room, self.files | {self.name: text})
        before = self.room.files()
        status, said = start_of(self.room)
        what = judge(status, said)
        if what not in self.counts:
            raise Wrong(f"{self.name}, {told}: status {status}, and it says {said!r}")
        if what == "refused":
            wants(f"{self.name}, {told}: the files", self.room.files(), before)
        self.counts[what] += 1


def declarations(room):
    folder = f"{room.folder}/data"
    return {name: open(f"{folder}/{name}", "rb").read() for name in os.listdir(folder) if name.endswith(".schema")}


def lay_all(room, files):
    """These files with the declarations among them."""
    room.lay({name: text for name, text in files.items() if not name.endswith(".schema")})
    for name, text in files.items():
        if name.endswith(".schema"):
            room.put_declaration(text, name)


def is_refused(*begins):
    return lambda status, said: "refused" if status and said.startswith(begins) else None


def is_cut_or_refused(status, said):
    return "told" if status is None and "torn: @/data/p.log: " in said else is_refused("hurt: ")(status, said)


def is_whole(status, said):
    """(A mark that is not there any more is told.)"""
    return "whole" if status is None and said in ("", "mark: @/data/p.mark: none\n") else None


def each_bit_of_a_log(room):
    """Each bit of a log is flipped whose lines were answered: each start is refused. Where only the first was, flips of the second line cut it, and that is told."""
    room.put(b"".join(CLEARS), mark=2)
    starts_whole(room, 2)
    hurting = Hurting(room, "p.log")
    text = hurting.files["p.log"]
    for told, it in flips(text, range(len(text))):
        hurting.tries(told, it, is_refused("hurt: @/data/p.log: writes "))
    room.put(b"".join(CLEARS), mark=1)
    hurting.files |= room.files()
    first = text.index(NEWLINE) + 1
    for told, it in flips(text, range(first, len(text))):
        hurting.tries(told, it, is_cut_or_refused)
    wants("what was refused and told", hurting.counts, {"refused": 8 * len(text), "told": 8 * (len(text) - first), "whole": 0})


def starts_whole(room, count):
    with room.kept() as keeper, keeper.connect() as connection:
        wants("the number of writes", ask(connection, [b'{"op":"size","t":"p"}\n'])[0].partition(b",")[0], b'{"at":%d' % count)
        wants("what it says", keeper.stop(), "")


def each_bit_of_a_state(room):
    """Each bit of a state is flipped: each start is refused."""
    filled(room, LINES[:1])
    room.compact()
    hurting = Hurting(room, "p.state")
    text = hurting.files["p.state"]
    for told, it in flips(text, range(len(text))):
        hurting.tries(told, it, is_refused("state: @/data/p.state"))


def each_bit_of_a_mark(room):
    """Each bit of a mark is flipped, but of its zeros one in some: each start serves the whole log."""
    room.put(b"".join(CLEARS), mark=2)
    starts_whole(room, 2)
    hurting = Hurting(room, "p.mark")
    text = hurting.files["p.mark"]
    room.lay({"p.log": hurting.files["p.log"]})
    wants("a start without a mark", start_of(room), (None, "mark: @/data/p.mark: none\n"))
    for told, it in (("none", mark_text()), ("half a mark", text[:SLOT_BYTES]), ("nothing", b"")):
        hurting.tries(told, it, is_whole)
    full = [at + it for at in (0, SLOT_BYTES) for it in range(SLOT_BYTES) if it < 76 or it % 128 == 0]
    for told, it in flips(text, full):
        hurting.tries(told, it, is_whole)


def each_bit_of_a_declaration(room):
    """Each bit of a declaration is flipped: each start is refused, or serves the whole log."""
    room.put(b"".join(CLEARS), mark=2)
    starts_whole(room, 2)
    hurting = Hurting(room, "p.schema")
    text = hurting.files["p.schema"]
    for told, it in flips(text, range(len(text))):
        hurting.tries(told, it, lambda *found: is_refused("schema: other: ")(*found) or is_whole(*found))
    lay_all(room, hurting.files)


def lines_that_are_missing(room):
    """A log that is gone, empty, cut, lacks lines, has lines exchanged or doubled, or is an older one, refuses the start where its writes were answered."""
    lines = inserts(12)
    filled(room, lines[:5])
    older = room.files()
    with room.kept() as keeper, keeper.connect() as connection:
        for line, answer in zip(lines[5:], accepted(12)[5:]):
            wants("the answer", ask(connection, [line]), [answer])
        keeper.stop()
    files = room.files()
    text = files["p.log"].splitlines(keepends=True)
    hurt = {"empty": [], "one": text[:1], "all but one": text[:-1], "the first": text[1:], "the middle": text[:2] + text[10:], "one of the middle": text[:6] + text[7:], "turned": text[::-1], "an older one": [older["p.log"]]}
    hurt |= {f"exchanged at {at}": [*text[:at], text[at + 1], text[at], *text[at + 2 :]] for at in (0, 5, 10)}
    hurt |= {f"doubled at {at}": [*text[: at + 1], *text[at:]] for at in (0, 5, 10)}
    for name, it in hurt.items():
        room.lay(files | {"p.log": b"".join(it)})
        status, said = start_of(room)
        if status != LINE or not re.fullmatch(r"hurt: @/data/p.log: writes \d+ to 12\n", said):
            raise Wrong(f"{name}: status {status}, and it says {said!r}")
    room.lay({name: it for name, it in files.items() if name != "p.log"})
    room.refused(STATE, "missing: @/data/p.log")
    room.lay(files | {"p.log": b"".join([*text, text[-1]])})
    wants("the last line twice", start_of(room), (None, f"torn: @/data/p.log: {len(text[-1])} bytes were cut off, with 1 lines from write 12 on\n"))
    others = log_text(inserts(12, 50), room.base())
    room.lay(files | {"p.log": others})
    room.refused(STATE, "mark: @/data/p.mark: of another log")
    room.lay(files | {"p.mark": mark_text(Link(14, b"0" * 16))})
    room.refused(LINE, HURT % (13, 14))
    for it, count, said in ((files, 12, ""), ({"p.log": b"".join(text[:7])}, 7, "mark: @/data/p.mark: none\n")):
        room.lay(it)
        with room.kept() as keeper:
            wants("the records", size(keeper), count)
            wants("what it says", keeper.stop().replace(room.folder, "@"), said)


def state_of_another_log(room):
    """A state and a log that are not of each other: the mark or the lines tell. The log before stays."""
    filled(room, LINES)
    before = room.files()
    room.compact()
    state = room.files()["p.state"]
    last, body = read_state(state)
    other = state_text(b'["int","int"]', b"%016x" % (int(last, 16) ^ 1), body)
    room.lay({"p.log": before["p.log"], "p.state": other, "p.mark": room.files()["p.mark"], "p.4.log": b""})
    room.refused(STATE, "mark: @/data/p.mark: of another log")
    room.lay({"p.state": state, "p.mark": mark_text(Link(6, b"0" * 16))})
    room.refused(LINE, "hurt: @/data/p.4.log: writes 5 to 6")
    first = line_text(inserts(1, 5)[0][:-1], Link(4, b"0" * 16), 4)[0]
    second = line_text(inserts(1, 6)[0][:-1], Link(5, b"0" * 16), 5)[0]
    room.lay({"p.state": state, "p.4.log": first + second})
    room.refused(LINE, "hurt: @/data/p.4.log: writes 5 to 5")
    room.lay({"p.state": state})
    with room.kept() as keeper:
        wants("the records of a state alone", size(keeper), 4)
        wants("what it says", keeper.stop(), "")


def journal_beside_its_state(room):
    """A plain journal under the name of a log of an older keeper refuses the start, beside a state, beside a log, and alone. Nothing takes it for a log."""
    filled(room, LINES)
    log = room.files()
    room.compact()
    for files in (log, room.files(), {}):
        for name in ("p.jsonl", "p.0.jsonl", "p.4.jsonl", "p.9.jsonl"):
            room.lay(files | {name: b"".join(LINES)})
            room.refused(STATE, f"old: @/data/{name}")
            room.compact(STATE, f"old: @/data/{name}")
    for name in ("p.log", "p.4.log"):
        room.lay(room.files() | {name: b"".join(LINES)})
    room.lay(log | {"p.log": b"".join(LINES)})
    room.refused(LINE, HURT % (1, 4))


# Ends that a power cut leaves.


def blocks_that_are_left_out(room):
    """A log whose unsynced end lacks blocks of 512 bytes, in any order: no start is refused, each has what was synced, and what is cut is told."""
    draw, base = random.Random(5), room.base()
    for _ in range(60):
        count, lines, text, last = draw.randrange(1, 8), inserts(draw.randrange(8, 40)), b"", base
        for number, line in enumerate(lines):
            made, last = line_text(line[:-1], last, min(count, number))
            text += made
            synced = len(text) if number + 1 == count else synced if number >= count else 0
        blocks = [at for at in range(synced // 512 * 512, len(text), 512) if draw.random() < draw.choice((0.2, 0.6))]
        left = bytearray(text)
        for at in blocks:
            begin = max(at, synced)
            left[begin : at + 512] = bytes(len(left[begin : at + 512]))
        left = bytes(left[: draw.choice((len(left), draw.randint(synced, len(left))))])
        room.lay({"p.log": left, "p.mark": mark_text(recovered(text[:synced], base).last)})
        found = recovered(left, base)
        with room.kept() as keeper:
            wants("the records", (size(keeper), len(found.lines) >= count), (len(found.lines), True))
            wants("whether it is told", keeper.stop() != "", found.torn > 0)
        wants("the log", room.log(), b"".join(lines[: len(found.lines)]))


def watched(room, **names):
    library = built_library(os.path.dirname(room.folder), "watched_disk")
    return {"LD_PRELOAD": library, "WATCHED_FILE": f"{room.folder}/records", **{name: str(it) for name, it in names.items()}}


def answers_until_it_ends(room, lines, **names):
    """Sends lines one by one, and counts the answers until the program ends."""
    told = 0
    with room.keeper(environment=watched(room, **names)) as keeper:
        if not keeper.process.stdout.readline():
            return told, *keeper.ended()
        with contextlib.suppress(OSError), keeper.connect() as connection:
            for line in lines:
                if not ask(connection, [line])[0].endswith(NEWLINE):
                    break
                told += 1
        if told == len(lines):
            keeper.process.kill()
        return told, *keeper.ended()


def power_cut_behind_a_failed_sync(room):
    """A sync fails, and the program ends. The next start reads what the system still has, writes the tail again, syncs it, and answers on. Then the power
    goes: every answered write is there."""
    for seed in range(24):
        draw = random.Random(seed)
        room.lay({})
        with contextlib.suppress(FileNotFoundError):
            os.remove(f"{room.folder}/data/p.schema")
            os.remove(f"{room.folder}/records")
        folder, lines = WatchedFolder(f"{room.folder}/data", f"{room.folder}/records", draw), inserts(60)
        answered, status, said = answers_until_it_ends(room, lines, FAIL_AT=draw.randrange(10, 30))
        wants(f"seed {seed}: how it ends", (status, said), (FULL, f"log: {room.path()}\n"))
        folder.killed()
        there = len(recovered(room.raw(), room.base()).lines)
        wants(f"seed {seed}: the writes that are there", there >= answered, True)
        more, status, said = answers_until_it_ends(room, lines[there : there + draw.randrange(1, 20)])
        folder.power_cut()
        with room.kept() as keeper:
            found = size(keeper)
            keeper.stop()
        if found < there + more:
            raise Wrong(f"seed {seed}: {there} and {more} were answered, and {found} are there")
        wants(f"seed {seed}: the log", room.log(), b"".join(lines[:found]))


def calls_of_a_start(room):
    """The folder is synced before a name is made, the tail is written again in its place and synced, then it is marked, and the mark and the folder are synced."""
    room.put(b"".join(LINES), torn=b"{")
    text = room.raw()
    os.remove(room.path("p", "mark"))
    answers_until_it_ends(room, [])
    with open(f"{room.folder}/records", "rb") as file:
        records = [it for it in records_of(file.read()) if it[0] != "N" or not it[3].endswith(b"/lock")]
    number, *others = (os.stat(it).st_ino for it in (room.path(), room.path("p", "mark"), f"{room.folder}/data"))
    names = {number: {"W": "tail", "T": "cut", "S": "synced"}, others[0]: {"W": "mark", "S": "settled"}, others[1]: {"S": "folder"}}
    made = [names.get(it, {}).get(kind, kind) for kind, it, *_ in records]
    begun = text[:-1].rindex(NEWLINE, 0, -1) + 1
    tail = [(at, len(written)) for kind, it, at, written, _ in records if it == number and kind == "W"]
    wants("the tail", (tail[0][0] <= begun, sum(count for _, count in tail), tail[-1][0] + tail[-1][1]), (True, len(text) - 1 - tail[0][0], len(text) - 1))
    last = lambda it: len(made) - 1 - made[::-1].index(it)
    orders = [made.index("folder"), made.index("N")], [made.index("tail"), made.index("synced"), last("mark"), last("settled"), last("folder")]
    if any(order != sorted(order) for order in orders):
        raise Wrong(f"the calls of a start: {made}")


def lines_that_tell_what_is_synced(room):
    """A line tells how many writes were synced before it was made: with --sync each all before the piece that it came in, with never those of the start."""
    begun = 0
    for sync, sizes in (("each", (1, 1, 5, 1, 3)), ("never", (4, 1, 3)), ("each", (2, 1))):
        wanted = []
        with room.kept("--sync", sync) as keeper, keeper.connect() as connection:
            first = begun
            for count in sizes:
                wants("the answers", ask(connection, inserts(count, begun)), accepted(count, begun))
                wanted += [begun if sync == "each" else first] * count
                begun += count
            wants(f"the mark under {sync}", room.marked(), begun if sync == "each" else first)
            keeper.stop()
        found = [it.durable for it in recovered(room.raw(), room.base()).lines]
        wants(f"what the lines tell under {sync}", found[first:], wanted)


# Journals that come and go.


def exported(room, table="p"):
    status, out, said = room.does("--export", table)
    wants("the end of an export", status, 0)
    return out, said


def journals_that_go(room):
    """The lines that --export prints are answered by the server's `run` as the writes were. Behind a state it says behind which write they begin. Nothing is changed."""
    room.declare(SCHEMA)
    draw, drawer, tables = random.Random(3), Drawer(3, SCHEMA, "p"), Tables(SCHEMA)
    for begun in (0, None):
        with room.kept() as keeper, keeper.connect() as connection:
            for _ in range(60):
                line = drawer.line() + NEWLINE
                answer, _ = tables.take(line)
                drawer.machine = tables.machine
                wants(f"{line!r}", ask(connection, [line]), [answer])
            keeper.stop()
        files = room.files()
        out, said = exported(room)
        wants("the files", room.files(), files)
        if begun == 0:
            wants("what is printed", (out, said), (tables.logs()["p"], []))
            views, shown = tables.views()
            wants("the journal, run again", run_again(SCHEMA, out, [it[:-1] for it in views])[-len(shown) :], [it[:-1] for it in shown])
            room.compact()
            begun = len(tables.lines["p"])
        else:
            number = next(it for it in room.files() if it.endswith(".log")).split(".")[1]
            wants("what is printed behind a state", (out, said), (b"".join(tables.lines["p"][int(number) :]), [f"behind: {room.path(f'p.{number}')}: the log begins behind write {number}"]))
    room.ends_so(2, "error: the schema has no table 'x'", "--export", "x")


def journals_that_come(room):
    """A journal is taken in by --import alone, wholly or not at all: the next start has its writes, and its log is one of this keeper."""
    tables = Tables()
    room.ends_so(0, "", "--import", "p", text=b"")
    for bad, number in ((b"[1\n", 3), (b'{"op":"size","t":"p"}\n', 3), (b"\n", 3), (LINES[1], 3), (b'{"op":"clear","t":"o"}\n', 3), (LINES[2][:-1] + b" x\n", 3)):
        room.ends_so(LINE, f"line: standard input: {number}", "--import", "p", text=b"".join([*LINES[:2], bad, *LINES[2:]]))
        wants("the log", room.logs(), {"p": b""})
    wants("what is left over", sorted(room.files()), ["p.log", "p.mark"])
    spaced = [it.replace(b'"op":"insert",', b"").replace(b"{", b'{ "op" : "insert", ', 1) for it in LINES]
    room.ends_so(0, "", "--import", "p", text=b"".join(spaced)[:-1])
    wants("the log", room.logs(), {"p": b"".join(LINES)})
    tables.answers(LINES)
    for compacts in (False, True):
        if compacts:
            room.compact()
        files = room.files()
        room.ends_so(STATE, f"filled: @/data/p{'.4' * compacts}.log", "--import", "p", text=inserts(1, 9)[0])
        wants("the log and the state", but_marks(room.files()), but_marks(files))
        with room.kept() as keeper:
            shows(keeper, tables)
            keeper.stop()
    room.ends_so(2, "error: the schema has no table 'x'", "--import", "x", text=b"")


def import_that_is_killed(room):
    """Killed at each step, it leaves all writes or none, and it may be done again."""
    for at in range(1, 200):
        room.lay({})
        with contextlib.suppress(FileNotFoundError):
            os.remove(f"{room.folder}/data/p.schema")
        status, _, _ = room.does("--import", "p", environment=watched(room, KILL_AT=at), text=b"".join(LINES))
        found = start_of(room)
        wants(f"step {at}: the next start", found[0], None)
        if room.log() not in (b"", b"".join(LINES)):
            raise Wrong(f"step {at}: the log has {room.log()!r}")
        wants(f"step {at}: what is left over", sorted(room.files()), ["p.log", "p.mark"])
        if status == 0:
            return
        if not room.log():
            room.ends_so(0, "", "--import", "p", text=b"".join(LINES))
        wants(f"step {at}: the log", room.log(), b"".join(LINES))
    raise Wrong("it has no end")


# Folders of an older keeper.


def old_folders():
    """The schema of such folders, and of each its name, its writes, and its files."""
    with open(OLD_FOLDERS, "rb") as file:
        schema, *folders = file.read().split(b"=== ")[1:]
    for text in folders:
        name, *files = text.split(b"--- ")
        parts = {it.partition(NEWLINE)[0].decode(): it.partition(NEWLINE)[2] for it in files}
        yield schema.partition(NEWLINE)[2].decode(), name.decode().strip(), parts.pop("writes").splitlines(keepends=True), {it: text.replace(b"|\n", b"") for it, text in parts.items()}


def lay_old(room, files):
    for name in os.listdir(f"{room.folder}/data"):
        os.remove(f"{room.folder}/data/{name}")
    lay_all(room, files)


def upgrade(room, but_states=False):
    """A start refuses such a folder, and changes nothing. Behind --upgrade it has every write, also where that was killed at any step, and done again."""
    for schema, name, writes, files in old_folders():
        if but_states and any(it.endswith(".state") for it in files):
            continue
        room.declare(schema)
        tables = Tables(schema)
        tables.answers(writes)
        lay_old(room, files)
        status, said = start_of(room)
        if status != STATE or not said.startswith(("old: @/data/", "state: @/data/")):
            raise Wrong(f"{name}: status {status}, and it says {said!r}")
        wants(f"{name}: the files", room.files() | declarations(room), files)
        for at in range(400):
            lay_old(room, files)
            status, _, said = room.does("--upgrade", environment=watched(room, KILL_AT=at) if at else None)
            wants(f"{name}: the end, killed at step {at}, where it says {said}", status in ((0, -9) if at else (0,)), True)
            if at:
                upgrades(room)
            starts_upgraded(room, f"{name}, killed at step {at}", tables, at == 0)
            if at and status == 0:
                break


def upgrades(room):
    """Takes a folder over. A log of an older keeper that is not whole gets another name, and that is told."""
    status, out, said = room.does("--upgrade")
    wants("the end of an upgrade", (status, out, [it for it in said if not it.startswith("left: ")]), (0, b"", []))


def starts_upgraded(room, name, tables, again):
    there = [it for it in room.files() if not it.endswith(".jsonl.old")]
    wants(f"{name}: what there is", sorted(there), sorted(f"{it}.{end}" for it, lines in tables.lines.items() for end in ("state", "mark", f"{len(lines)}.log")))
    with room.kept() as keeper:
        shows(keeper, tables)
        wants(f"{name}: what it says", keeper.stop(), "")
    if again:
        files = room.files()
        room.ends_so(0, "", "--upgrade")
        wants(f"{name}: behind one more", but_marks(room.files()), but_marks(files))


def upgrade_of_logs(room):
    upgrade(room, True)


LOG_CASES = [
    *(each_bit_of_a_log, each_bit_of_a_state, each_bit_of_a_mark, each_bit_of_a_declaration, lines_that_are_missing, state_of_another_log, journal_beside_its_state),
    *(blocks_that_are_left_out, power_cut_behind_a_failed_sync, calls_of_a_start, lines_that_tell_what_is_synced, journals_that_go, journals_that_come, import_that_is_killed, upgrade_of_logs, upgrade),
]

# By which of these cases planted keepers are found.
LOG_PLANTED = {
    each_bit_of_a_log: ("hurt lines are cut",),
    each_bit_of_a_state: ("a state's digest is not looked at",),
    each_bit_of_a_mark: ("a mark that is gone is not told",),
    lines_that_are_missing: ("hurt lines are cut", "the mark is not looked at", "marks are not written"),
    state_of_another_log: ("the mark is not looked at",),
    journal_beside_its_state: ("an old journal is passed over",),
    blocks_that_are_left_out: ("a torn line refuses", "zeros are a line"),
    power_cut_behind_a_failed_sync: ("the tail is not rewritten",),
    lines_that_tell_what_is_synced: ("lines tell too much", "lines tell nothing durable", "marks are not written"),
    calls_of_a_start: ("the tail is not rewritten", "its folder is never synced"),
    journals_that_come: ("a front of a journal is taken", "a journal comes to other writes"),
    upgrade_of_logs: ("an upgrade removes the journal first",),
}
