"""The cases of tools/gate/run_c_library about tables that a folder keeps: what a C program is told and leaves there, and what the keeper makes of that."""
import contextlib
import fcntl
import os
import random
import resource
import shutil
import subprocess
import sys
import tempfile
import time

from draw.drawing import Drawer
from gate.endings import ask, built_library, look
from gate.keeping import Room, Tables, shows
from gate.power_cuts import WatchedFolder
from reference.plain_machine import Fault, read
from reference.worked_examples import SCHEMA

SECONDS = 120
# A folder whose files take no time of a disk.
IN_MEMORY = "/dev/shm"
# The statuses of include/thwartcornel.h.
OK, DEVICE, TAKEN, OTHER, HURT, LOG = 0, 20, 21, 22, 23, 24
PIECES, TURNS, KILLS, CUTS, FLIPS, LIMITS, FAILS, REFUSED_LINES = 6, 12, 20, 20, 40, 6, 6, 12
# Tables whose names are those of other files of a folder, or nearly one another's.
NAMES = ("lock", "all", "t", "T", "tt", "t_7", "7", "_", "mark", "schema", "log", "x" * 32)
TABLE = '[[table]]\nname = "%s"\ncolumn = [{name = "k", cell = "int"}]\nindex = [{name = "s", kind = "sequenced"}]\n'
# Names that no log of the table t has, and how many more of their kind stand there.
STRANGE, MORE_STRANGE = ("t.07.log", "t.+7.log", "t..log", "t.7.log.new", "u.log", "t.18446744073709551616.log", "ttt.log", "t.log.7", "xt.log", "t.7.LOG"), 3000
# What stands in the place of a file of p (None: nothing), and what an open then tells.
PLACED = [("p.jsonl", b"", HURT), ("p.99.log", b"", HURT), ("p.state", b"{}\n", HURT), ("all.alter.schema", b"", HURT), ("p.schema", b"x", OTHER), ("p.schema", None, OK)]
PLACED += [("p.log", None, HURT), ("p.log", b"", HURT), ("p.mark", None, OK), ("p.mark", b"x", OK), ("p.state.new", b"{", OK), ("p.log.new", b"{", OK), ("p.schema.part", b"{", OK)]
# The same beside a state.
BESIDE_A_STATE = [("p.state", None, HURT), ("p.state.new", b"{", OK), ("p.0.log", b"", OK), ("p.jsonl.old", b"", OK), ("p.jsonl", b"", HURT), ("p.999.log", b"", HURT)]
# The files in whose place a folder may stand.
FOLDERS = ("p.state", "p.log", "p.mark", "p.schema", "lock")


def same(what, found, wanted):
    if found != wanted:
        sys.exit(f"{what}: {str(found)[-300:]}, and not {str(wanted)[-300:]}")


def drawn_by(seed):
    """Draws lines without an end."""
    drawer = Drawer(seed, SCHEMA, "ppnt")
    while True:
        yield drawer.line()


def table_of(line):
    """The table that a line names, or None."""
    try:
        return read(line)["t"]
    except Fault:
        return None


class Kept(Room):
    """A folder that programs in C and the keeper have by turns, and the tables that the plain machine has of it."""

    def __init__(self, folder, keeper, schema=SCHEMA):
        super().__init__(folder, (keeper,), schema)
        self.data, self.tables = f"{folder}/data", Tables(schema)

    def opened(self, caller, data=None):
        """What an open tells."""
        return subprocess.run([*caller, "open", f"{self.folder}/schema", self.data if data is None else data], stdin=subprocess.DEVNULL, timeout=SECONDS, check=False).returncode

    def calling(self, caller, lines, seed, synced=True, **how):
        """A program that hands in these lines. The last one has no newline."""
        with open(f"{self.folder}/lines", "wb") as it:
            it.write(b"\n".join(lines))
        words = [*caller, "lines", f"{self.folder}/schema", self.data, str(int(synced)), str(seed), f"{self.folder}/lines"]
        return subprocess.Popen(words, stdin=subprocess.DEVNULL, stdout=subprocess.PIPE, **how)

    def called(self, caller, lines, seed=0, status=OK, **how):
        """What it prints."""
        with self.calling(caller, lines, seed, **how) as process:
            told, _ = process.communicate(timeout=SECONDS)
        same(f"the status of lines, seed {seed}", process.returncode, status)
        return told

    def plays(self, caller, lines, **how):
        """Hands in these lines, and compares what is told."""
        same("the answers", self.called(caller, lines, **how), b"".join(self.tables.answers([it + b"\n" for it in lines])))

    def shows_all(self, caller):
        """Opens the folder, and compares every view."""
        lines, answers = self.tables.views()
        same("the views", self.called(caller, [it[:-1] for it in lines]), b"".join(answers))

    def follows(self, lines, told):
        """Carries out those of the lines that the logs have, table by table. As many have to be there as were answered."""
        answers = told.splitlines(keepends=True)
        if answers and not answers[-1].endswith(b"\n"):
            answers.pop()
        same("the answers", answers, self.tables.answers([it + b"\n" for it in lines[: len(answers)]]))
        logs = self.logs()
        for name, log in logs.items():
            for line in lines[len(answers) :]:
                if len(self.tables.lines[name]) < log.count(b"\n") and table_of(line) == name:
                    self.tables.take(line + b"\n")
        same("the logs", logs, self.tables.logs())
        return len(answers)


def drawn(count, seed):
    """So many drawn lines."""
    return [line for line, _ in zip(drawn_by(seed), range(count))]


def try_pieces(room, callers, keeper):
    """Lines in drawn pieces: the answers, the logs, and all views once the folder is opened again."""
    for seed in range(PIECES):
        kept = Kept(f"{room}/pieces{seed}", keeper)
        lines = drawn(200, seed)
        caller = callers[seed % len(callers)]
        kept.plays(caller, lines, seed=seed, synced=seed % 2 == 0)
        same("the logs", kept.logs(), kept.tables.logs())
        if seed % 2 == 0:
            same("the marks", [kept.marked(it) for it in "ptn"], [it.writes for it in kept.tables.machine.tables.values()])
        kept.shows_all(callers[0])


def try_turns(room, callers, keeper):
    """The keeper and the library by turns, each of which goes on from what the other left, and a compact between."""
    kept, lines = Kept(f"{room}/turns", keeper), drawn_by(7)
    for turn in range(TURNS):
        some = [next(lines) for _ in range(40)]
        if turn % 2:
            with kept.kept(workers=1) as served, served.connect() as connection:
                same("the keeper's answers", ask(connection, [it + b"\n" for it in some]), kept.tables.answers([it + b"\n" for it in some]))
                same("a folder that a keeper serves", kept.opened(callers[0]), TAKEN)
                served.stop()
        else:
            kept.plays(callers[turn // 2 % len(callers)], some, seed=turn, synced=turn % 4 == 0)
        if turn % 3 == 2:
            kept.compact()
            kept.shows_all(callers[0])
    with kept.kept(workers=1) as served:
        shows(served, kept.tables)
        served.stop()


def slow_pipe(process):
    """Lets little wait in the pipe that a program prints to."""
    fcntl.fcntl(process.stdout, fcntl.F_SETPIPE_SZ, 4096)
    return process


def try_kills(room, callers, keeper):
    """Kills amid lines, at drawn moments: each line that was answered is there, and no other than those that were handed in."""
    answered = 0
    for seed in range(KILLS):
        draw = random.Random(seed)
        if seed % 5 == 0:
            kept, lines = Kept(f"{room}/kills{seed}", keeper), drawn_by(100 + seed)
        some = [next(lines) for _ in range(150)]
        with slow_pipe(kept.calling(callers[0], some, seed, synced=seed % 3 > 0)) as process:
            if seed % 2:
                told = b"".join(process.stdout.readline() for _ in range(draw.randrange(60)))
            else:
                time.sleep(draw.random() * 0.02)
                told = b""
            process.kill()
            told += process.stdout.read()
        opened = kept.opened(callers[0])
        same("an open behind a kill", opened, OK)
        answered += kept.follows(some, told)
        kept.shows_all(callers[0])
    return answered


def try_power_cuts(room, callers, keeper):
    """The power goes amid lines or behind them: each line that was answered is there, whatever blocks and names that were not synced are lost."""
    library, answered = built_library(room, "watched_disk"), 0
    for seed in range(CUTS):
        kept, some, draw = Kept(f"{room}/cut{seed}", keeper), drawn(100, 500 + seed), random.Random(seed)
        names = {"LD_PRELOAD": library, "WATCHED_FILE": f"{kept.folder}/records"} | ({"KILL_AT": str(draw.randrange(20, 70))} if seed % 2 else {})
        folder = WatchedFolder(kept.data, names["WATCHED_FILE"], draw)
        with kept.calling(callers[0], some, seed, env=os.environ | names) as process:
            told = process.stdout.read()
        folder.power_cut()
        same("an open behind a power cut", kept.opened(callers[0]), OK)
        answered += kept.follows(some, told)
        kept.shows_all(callers[0])
    return answered


def try_interrupted(room, callers, keeper):
    """Each call of the system is interrupted once or more before it is made, and all is as without."""
    library = built_library(room, "interrupting_calls")
    for times in (1, 3):
        kept = Kept(f"{room}/interrupted{times}", keeper)
        for seed in range(2):
            kept.plays(callers[0], drawn(60, 600 + seed), env=os.environ | {"LD_PRELOAD": library, "INTERRUPTS": str(times), "OF_FILES": "1"})
        same("the logs behind interrupts", kept.logs(), kept.tables.logs())
        kept.shows_all(callers[0])


def try_taken(room, callers, keeper):
    """One program has a folder."""
    kept = Kept(f"{room}/taken", keeper)
    kept.plays(callers[0], drawn(5, 1))
    with open(f"{kept.data}/lock", "rb+") as it:
        fcntl.flock(it, fcntl.LOCK_EX)
        for caller in callers:
            same("a folder that another has", kept.opened(caller), TAKEN)
    with slow_pipe(kept.calling(callers[0], drawn(2000, 1), 1, synced=False)) as process:
        process.stdout.readline()
        same("a folder that a C program has", kept.opened(callers[0]), TAKEN)
        with kept.keeper() as served:
            same("a keeper beside a C program", served.ended(), (7, f"taken: {kept.data}\n"))
        process.kill()
    same("a folder that nobody has any more", kept.opened(callers[0]), OK)


def hurt(kept, caller, name, text, status):
    """What an open tells of a copy of the folder in which a file has this text, or is gone, or (where that is a dict) is a folder. A refused one changes nothing."""
    copy = f"{kept.folder}/copy"
    shutil.rmtree(copy, ignore_errors=True)
    shutil.copytree(kept.data, copy)
    with contextlib.suppress(FileNotFoundError):
        os.remove(f"{copy}/{name}")
    if isinstance(text, bytes):
        with open(f"{copy}/{name}", "wb") as it:
            it.write(text)
    elif text is not None:
        os.mkdir(f"{copy}/{name}")
    before = look(copy)
    same(f"{name} with {text!r}", kept.opened(caller, copy), status)
    if status:
        same(f"{name} with {text!r}: the files", look(copy), before)


def bits(text, count, seed):
    """The text with a drawn bit changed, so many times."""
    draw = random.Random(seed)
    for _ in range(count):
        at = draw.randrange(len(text))
        yield text[:at] + bytes([text[at] ^ 1 << draw.randrange(8)]) + text[at + 1 :]


def try_hurt(room, callers, keeper):
    """Another schema; bits that change of lines that were answered, and of a state; files that are gone, or are none of this table's."""
    kept, caller = Kept(f"{room}/hurt", keeper), callers[0]
    kept.plays(caller, drawn(60, 2))
    kept.declare(SCHEMA.replace('"q"', '"qq"'))
    hurt(kept, caller, "none", None, OTHER)
    kept.declare(SCHEMA)
    for text in bits(kept.raw(), FLIPS, 3):
        hurt(kept, caller, "p.log", text, HURT)
    for name, text, status in PLACED:
        hurt(kept, caller, name, text, status)
    for name in FOLDERS:
        hurt(kept, caller, name, {}, DEVICE)
    kept.compact()
    for text in bits(kept.files()["p.state"], FLIPS, 4):
        hurt(kept, caller, "p.state", text, HURT)
    for name, text, status in BESIDE_A_STATE:
        hurt(kept, caller, name, text, status)
    kept.shows_all(caller)


def try_places(room, callers, keeper):
    """Folders that are none, and one that is made. Modes of what is made."""
    kept, caller = Kept(f"{room}/places", keeper), callers[0]
    for data, status in ((f"{kept.folder}/schema", DEVICE), (f"{kept.folder}/none/data", DEVICE), ("/dev/null", DEVICE), ("", DEVICE), (f"{kept.folder}/made", OK), (f"{kept.folder}/made/", OK)):
        same(f"the folder {data!r}", kept.opened(caller, data), status)
    same("the mode of a folder", os.stat(f"{kept.folder}/made").st_mode & 0o777, 0o700)
    wanted = ["lock", *(f"{name}.{end}" for name in "ptn" for end in ("log", "mark", "schema"))]
    same("what is made", sorted(os.listdir(f"{kept.folder}/made")), sorted(wanted))
    same("the modes of files", {os.stat(f"{kept.folder}/made/{it}").st_mode & 0o777 for it in wanted}, {0o600})


def try_names(room, callers, keeper):
    """Tables of strange names, and files beside that are no logs, among which a log is found."""
    kept, caller = Kept(f"{room}/names", keeper, "".join(TABLE % it for it in NAMES)), callers[0]
    lines = [b'{"op":"insert","t":"%s","r":{"k":%d}}' % (name.encode(), k) for k, name in enumerate(NAMES)]
    kept.plays(caller, lines)
    same("the logs", kept.logs(), kept.tables.logs())
    for name in [*STRANGE, *(f"t.00{k}.log" for k in range(MORE_STRANGE))]:
        with open(f"{kept.data}/{name}", "wb"):
            pass
    kept.shows_all(caller)
    same("what stands there", len(os.listdir(kept.data)), 1 + 3 * len(NAMES) + len(STRANGE) + MORE_STRANGE)
    for number in (0, 7, 2**64 - 1):
        hurt(kept, caller, f"t.{number}.log", b"", HURT)


def growing(seed):
    """Drawn lines, and then such as make a log grow."""
    return drawn(200, seed) + [b'{"op":"insert","t":"n","r":{"id":%d,"m":%d}}' % (k, k) for k in range(1000, 1080)]


def limited(size):
    return lambda: resource.setrlimit(resource.RLIMIT_FSIZE, (size, size))


def try_over(room, callers, keeper):
    """Logs that may not grow, and syncs that fail: that is told, and the next open has each line that was answered."""
    library, told_of = built_library(room, "watched_disk"), [0, 0]
    for seed in range(LIMITS + FAILS):
        kept, some, draw = Kept(f"{room}/over{seed}", keeper), growing(seed), random.Random(seed)
        if seed < LIMITS:
            how = {"preexec_fn": limited(draw.randrange(1800, 5000))}
            same("an open where no file may grow", subprocess.run([*callers[0], "open", f"{kept.folder}/schema", f"{kept.folder}/small"], preexec_fn=limited(500), check=False).returncode, DEVICE)
        else:
            how = {"env": os.environ | {"LD_PRELOAD": library, "WATCHED_FILE": f"{kept.folder}/records", "FAIL_AT": str(draw.randrange(10, 30))}}
        synced = seed >= LIMITS or seed % 2 == 0
        told = kept.called(callers[0], some, seed, LOG, synced=synced, **how)
        same("an open behind a log that is over", kept.opened(callers[0]), OK)
        told_of[seed >= LIMITS] += kept.follows(some, told)
        kept.plays(callers[0], drawn(9, 300 + seed), synced=synced)
        kept.shows_all(callers[0])
    return told_of


def ran(what, words):
    """What a program prints that has to end well, and to say nothing else."""
    found = subprocess.run(words, stdin=subprocess.DEVNULL, capture_output=True, timeout=SECONDS, check=False)
    same(what, (found.returncode, found.stderr), (0, b""))
    return found.stdout


def try_statuses(room, callers, faults):
    """What each call tells where it refuses, and calls of some threads at once."""
    with open(f"{room}/one", "w", encoding="utf-8") as it:
        it.write(TABLE % "t")
    for k, caller in enumerate(callers):
        ran("statuses", [*caller, "statuses", f"{room}/one", f"{room}/statuses{k}", *faults])
        ran("threads", [*caller, "threads", f"{room}/one", f"{room}/threads{k}"])


def try_refused(room, callers, keeper):
    """Each allocation refused in turn, over a folder in memory where there is one. Returns how many were."""
    with tempfile.TemporaryDirectory(dir=IN_MEMORY if os.access(IN_MEMORY, os.W_OK) else room) as place:
        kept, lines = Kept(f"{place}/refused", keeper, TABLE % "t"), [it + b"\n" for it in refused_lines()]
        with open(f"{place}/lines", "wb") as it:
            it.write(b"".join(lines))
        told = ran("refused allocations", [*callers[0], "refused", f"{kept.folder}/schema", kept.data, f"{place}/lines"])
        with open(f"{place}/lines.answers", "rb") as it:
            same("the answers behind them", it.read(), b"".join(kept.tables.answers(lines)))
        same("the log behind them", kept.logs(), kept.tables.logs())
    return int(told)


def refused_lines():
    """Lines of one table, of which some are no writes."""
    for k in range(REFUSED_LINES):
        yield b'{"op":"insert","t":"t","r":{"k":%d}}' % k if k % 3 < 2 else b'{"op":"list","t":"t","i":"s"}'


def try_cpp(room, callers, keeper):
    """The same through the header for C++: lines that are asked, one half before the tables are closed and opened again."""
    for k, caller in enumerate(callers):
        kept, lines = Kept(f"{room}/cpp{k}", keeper), [it + b"\n" for it in drawn(60, 400 + k)]
        with open(f"{room}/asked", "wb") as it:
            it.write(b"".join(lines))
        ran("a folder in C++", [*caller, "folder", f"{kept.folder}/schema", kept.data, f"{room}/asked"])
        with open(f"{room}/asked.answers", "rb") as it:
            same("the answers in C++", it.read(), b"".join(kept.tables.answers(lines)))
        same("the logs of C++", kept.logs(), kept.tables.logs())


def try_folders(room, callers, in_cpp, keeper, faults):
    """All cases, by programs in C (the first alone, the others watched) and in C++. Returns what there was of each, as a line."""
    try_statuses(room, callers, faults)
    try_pieces(room, callers, keeper)
    try_turns(room, callers, keeper)
    killed, cut = try_kills(room, callers, keeper), try_power_cuts(room, callers, keeper)
    for part in (try_interrupted, try_taken, try_hurt, try_places, try_names):
        part(room, callers, keeper)
    limited_lines, failed_lines = try_over(room, callers, keeper)
    refused = try_refused(room, callers, keeper)
    try_cpp(room, in_cpp, keeper)
    hurt_files = 2 * FLIPS + len(PLACED) + len(BESIDE_A_STATE) + len(FOLDERS)
    answered = f"{killed} lines answered before {KILLS} kills, {cut} before {CUTS} power cuts, {limited_lines + failed_lines} before {LIMITS} full disks and {FAILS} failed syncs"
    return f"of folders {TURNS} turns of the library and the keeper, {answered}, {refused} allocations refused, {hurt_files} hurt files"
