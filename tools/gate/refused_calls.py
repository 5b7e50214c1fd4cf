"""What is refused memory: a line of an example, a part of a program's start, and what is called at an end. Each says how one run goes, and what is wrong with it."""
import collections
import contextlib

from gate.refused_lines import GATHER, GATHER_STRANGER, RUN, RUN_STORED, SERVE, Calls, Run, Serve, gathered
from reference.plain_machine import MEMORY

# A run in which a line is refused: what the lines before it are told, and it; the looks after it, and the same line again; the lines behind, and the end.
Told = collections.namedtuple("Told", "before first looks again rest last status said kept beside")

Started = collections.namedtuple("Started", "status out said is_whole beside again")
Ended = collections.namedtuple("Ended", "told looks status said journal beside")
Asked = collections.namedtuple("Asked", "first behind status said")

MEMORY_SAID = (1, b"memory\n")
FINE = (0, b"")


def first_difference(found, wanted):
    """The first name whose value is another than is wanted, or None."""
    for name, it in wanted.items():
        if getattr(found, name) != it:
            return f"{name}: {str(getattr(found, name))[:300]}, and not {str(it)[:300]}"
    return None


class Task:
    """What is refused memory, its first allocation and its last one, if this is known, and whether it takes memory at all."""

    first, last, takes_memory = 1, None, True

    def is_behind(self, _told, _at):
        """Whether what was refused is no longer of the task."""
        return False


class Line(Task):
    """A line of an example. Where tables behind locks are called, the program that reads the line and prints what it is told may have no memory for that."""

    first, last = 1, None

    def __init__(self, surface, script, place):
        self.surface, self.script, self.place = surface, script, place
        self.row, self.column = script.name, surface.name

    def run(self, refuser, at, on):
        script, place = self.script, self.place
        refuser.open(at, on)
        line, looks, again = script.lines[place], None, None
        before = refuser.ask(script.lines[:place])
        refuser.arm()
        first = refuser.ask([line])
        refuser.arm(b"\0")
        if first == [MEMORY]:
            looks, again = refuser.ask(script.looks[place][0]), refuser.ask([line])
        rest = refuser.ask(script.lines[place + 1 :])
        last = refuser.ask(script.looks[-1][0])
        return Told(before, first, looks, again, rest, last, *refuser.close(), refuser.beside())

    def judge(self, told, was_refused):
        script, place = self.script, self.place
        ended, goes_on = told.first == [], told.first != []
        if told.first != ([MEMORY] if was_refused else [script.told[place]]) and not (ended and was_refused and self.surface is Calls):
            return f"it is told {told.first}"
        wanted = {
            "before": script.told[:place],
            "looks": script.looks[place][1] if was_refused and goes_on else None,
            "again": script.told[place : place + 1] if was_refused and goes_on else None,
            "rest": script.told[place + 1 :] if goes_on else [],
            "last": script.looks[-1][1] if goes_on else [],
            "beside": [],
        }
        wanted["status"], wanted["said"] = self.surface.out_of_memory if ended else FINE
        kept = self.surface.is_kept(self.surface, script, told.kept, ended)
        return first_difference(told, wanted) or (None if kept else f"kept is {told.kept}")

    @staticmethod
    def is_told(told):
        return told.first == [MEMORY]

    def planted(self, told):
        """Wrong runs, each made from a right one in which the line, a write, was told the memory line."""
        script, place, swap = self.script, self.place, told._replace
        changed = lambda old, new: [it.replace(old, new) for it in told.looks]
        yield "the refused line was carried out", swap(looks=script.looks[place + 1][1][: len(told.looks)])
        yield "a handle is another", swap(looks=changed(b'"0:1"', b'"1:1"'))
        yield "the write number is raised", swap(looks=changed(b'"at":%d' % place, b'"at":%d' % (place + 1)))
        yield "a list has lost its records", swap(looks=[it.split(b'"rs":[')[0] + b'"rs":[]}' if b'"rs":[{' in it else it for it in told.looks])
        yield "a look is missing", swap(looks=told.looks[:-1])
        yield "another fault stands for the memory line", swap(first=[b'{"err":"full"}'])
        yield "it is answered, though refused", swap(first=script.told[place : place + 1])
        yield "it is refused again", swap(again=[MEMORY])
        yield "it is told another number again", swap(again=[it.replace(b'"at":', b'"at":1') for it in told.again])
        yield "it is not answered again", swap(again=[])
        yield "a line behind it is refused", swap(rest=[MEMORY, *told.rest[1:]])
        yield "the last look shows another state", swap(last=script.looks[place][1])
        yield "the program ends", swap(first=[], looks=None, again=None, rest=[], last=[])
        yield "a status of 1", swap(status=1)
        yield "a text", swap(said=b"memory\n")
        yield "a signal", swap(status=-11)
        yield "a file is left", swap(beside=["journal.part"])
        if self.surface is Serve:
            yield "no journal", swap(kept=None)
            yield "the write is not in the journal", swap(kept=told.kept.replace(script.lines[place] + b"\n", b""))
            yield "the refused write is in the journal", swap(kept=script.lines[place] + b"\n" + told.kept)
        if self.surface is Calls:
            calls, said = told.kept
            yield "nothing is gathered", swap(kept=(calls, [GATHER, b"  memory"]))
            yield "an entry is missing", swap(kept=(calls, said[:2] + said[3:]))
            yield "an entry of another session", swap(kept=(calls, [it.replace(b"session 1", b"session 0") for it in said]))


class Start(Task):
    """A part of a program's start: its allocations from one number to another. Where the words are read, one more block may be refused without harm: the
    one that the list of the process's words moves to once it is whole, since it can stay where it is."""

    def __init__(self, surface, row, words, first, last):
        self.passes_over = first == 1
        self.surface, self.row, self.words, self.first, self.last = surface, row, words, first, last
        self.column = surface.name

    def run(self, refuser, at, on):
        refuser.start(self.words, at, on, False)
        out, status, said, is_whole = refuser.carried_out(self.words)
        beside = refuser.left()
        refuser.start(self.words, 0, False, False)
        return Started(status, out, said, is_whole, beside, refuser.carried_out(self.words)[-1])

    def judge(self, told, _was_refused):
        if told.is_whole and self.passes_over:
            self.passes_over -= 1
            return None
        wanted = {"out": b"", "status": 1, "said": b"memory\n", "is_whole": False, "beside": [], "again": True}
        return first_difference(told, wanted)

    @staticmethod
    def is_told(told):
        return told.said == b"memory\n"

    def planted(self, told):
        """Wrong starts, each made from a right one."""
        yield "a text and no status", told._replace(status=0)
        yield "no text", told._replace(said=b"")
        yield "another text", told._replace(said=b"device: read\n")
        yield "a schema's fault", told._replace(status=3, said=b"schema: shape\n")
        yield "answers", told._replace(out=b'{"at":0,"n":0,"ok":true}\n')
        yield "it listens", told._replace(out=b"listening\n")
        yield "a journal is left", told._replace(beside=["journal"])
        yield "the same words fail", told._replace(again=False)
        yield "a signal", told._replace(status=-11)


class Begin(Task):
    """The begin of a worker's second connection. Where it is refused, this worker ends, and the other goes on."""

    column, row, surface = "serve", "a connection's begin", Serve

    def __init__(self, script):
        self.script = script

    def run(self, refuser, at, on):
        refuser.start([*SERVE, "--each", "2"], at, on)
        refuser.process.stdout.readline()
        refuser.meet()
        refuser.hang_up(refuser.connections[1])
        refuser.arm()
        refuser.connections.append(refuser.connect())
        said = refuser.hang_up(refuser.connections[2])
        refuser.arm(b"\0")
        looks, told = refuser.ask(self.script.looks[0][0]), refuser.ask(self.script.lines)
        refuser.hang_up(refuser.connections[0])
        refuser.connections.append(refuser.connect())
        return Ended([said, *told], looks, *refuser.close(), refuser.beside())

    def judge(self, told, was_refused):
        wanted = {"told": [b"", *self.script.told], "looks": self.script.looks[0][1], "journal": self.script.journal(), "beside": []}
        wanted["status"], wanted["said"] = MEMORY_SAID if was_refused else FINE
        return first_difference(told, wanted)

    @staticmethod
    def is_told(told):
        return told.said == b"memory\n"

    def planted(self, told):
        """Wrong runs, each made from a right one that was refused."""
        yield "the refused connection is answered", told._replace(told=[b"x", *told.told[1:]])
        yield "the other is not served", told._replace(told=[b""])
        yield "no journal", told._replace(journal=None)
        yield "it ends well", told._replace(status=0, said=b"")
        yield "a signal", told._replace(status=-11)


class End(Task):
    """What is called when a serving ends, which takes no memory. The second connection looks amid the lines, so that its look is not the journal's end."""

    column, row, surface, takes_memory = "serve", "`gather`, and `Journals::write`", Serve, False

    def __init__(self, script):
        self.script = script

    def run(self, refuser, at, on):
        script, half = self.script, (len(self.script.lines) + 1) // 2
        refuser.open(at, on)
        told = refuser.ask(script.lines[:half])
        refuser.now = refuser.connections[1]
        looks = refuser.ask(script.looks[half][0])
        refuser.now = refuser.connections[0]
        told += refuser.ask(script.lines[half:])
        return Ended(told, looks, *refuser.close(True), refuser.beside())

    def judge(self, told, was_refused):
        if was_refused:
            return "the end takes memory"
        half = (len(self.script.lines) + 1) // 2
        wanted = {"told": self.script.told, "looks": self.script.looks[half][1], "journal": self.script.journal(), "beside": []}
        wanted["status"], wanted["said"] = FINE
        return first_difference(told, wanted)

    @staticmethod
    def is_told(told):
        return told.said == b"memory\n"

    def planted(self, told):
        """Wrong ends, each made from a right one."""
        lines = told.journal.splitlines(True)
        yield "no journal", told._replace(journal=None)
        yield "the last write is not in the journal", told._replace(journal=b"".join(lines[:-1]))
        yield "the journal is turned", told._replace(journal=b"".join(lines[::-1]))
        yield "the journal is cut", told._replace(journal=told.journal[:-3])
        yield "a mismatch", told._replace(status=4, said=b"mismatch\n")
        yield "it wants memory", told._replace(status=1, said=b"memory\n")
        yield "a file is left", told._replace(beside=["journal.part"])
        yield "a signal", told._replace(status=-11, said=b"")


class Gathering(Task):
    """`gather` of three sessions, the last look of one at other tables, so that it has to be found again. Where it is refused, tables and passes are as before,
    and gather once more."""

    column, row, surface = "calls", "`gather`", Calls

    # The program takes the passes in at most so many allocations.
    before = 8

    def __init__(self, script):
        self.script = script

    def run(self, refuser, at, on):
        refuser.open(at, on)
        refuser.ask(self.script.lines)
        refuser.look_elsewhere(self.script.lines, self.script.looks[-1][0][0])
        refuser.arm()
        first, looks = refuser.tell([GATHER_STRANGER], 2), []
        refuser.arm(b"\0")
        if first == [GATHER_STRANGER, b"  memory"]:
            looks = refuser.ask(self.script.looks[-1][0])
            status, said, kept = refuser.close()
            return Asked(first, (looks, *kept), status, said)
        status, said, (calls, more) = refuser.close(gathers=False)
        return Asked(first[:1], (looks, calls, first + more), status, said)

    def judge(self, told, was_refused):
        looks, calls, said = told.behind
        if told.first == [] and was_refused:
            return first_difference(told, {"status": 1, "said": Calls.out_of_memory[1]}) or (f"{said}" if said else None)
        is_told = self.is_told(told)
        if was_refused != is_told:
            return f"it is told {told.first}"
        if said != [GATHER_STRANGER, *gathered(calls)[1:]] or [it.split(b" ", 2)[2] for it in calls] != self.script.changes():
            return f"gathered is {said}"
        return first_difference(told, {"status": 0, "said": b""}) or (None if looks == (self.script.looks[-1][1] if is_told else []) else f"looks: {looks}")

    @staticmethod
    def is_told(told):
        return told.first == [GATHER_STRANGER, b"  memory"]

    def is_behind(self, told, at):
        """Whether what was refused is no longer of the call: then the program has no memory to print the journals. (So it is where it takes the passes.)"""
        return at > self.before and told == Asked([], ([], told.behind[1], []), *Calls.out_of_memory)

    def planted(self, told):
        """Wrong gatherings, each made from a right one that was refused."""
        looks, calls, said = told.behind
        yield "the tables are gone", told._replace(behind=([b"no tables"] * len(looks), calls, said))
        yield "the passes are gone", told._replace(behind=([b"no pass"] * len(looks), calls, said))
        yield "memory is wanting again", told._replace(behind=(looks, calls, [GATHER_STRANGER, b"  memory"]))
        yield "a mismatch, refused", told._replace(first=[GATHER_STRANGER, b"  mismatch: table 0, session 0"])
        yield "a mismatch", told._replace(behind=(looks, calls, [GATHER_STRANGER, b"  mismatch: table 0, session 0"]))
        yield "an entry is missing", told._replace(behind=(looks, calls, said[:2] + said[3:]))
        yield "the program ends", told._replace(first=[])
        yield "a signal", told._replace(status=-11)


class Opening(Task):
    """The tables of a schema that is read, or of the built-in one. Where they are refused, nothing is opened, and the same is tried once more."""

    column, surface = "calls", Calls

    def __init__(self, row, line, look, answer):
        self.row, self.line, self.look, self.answer = row, line, look, answer

    def run(self, refuser, at, on):
        refuser.begin(at, on)
        refuser.arm()
        first = refuser.tell([self.line], 1)
        refuser.arm(b"\0")
        behind = refuser.tell([b"a0 a " + self.look], 2)
        if behind[:1] == [b"  memory"]:
            first += behind[:1]
            behind = behind[1:] + refuser.tell([self.line, b"a0 a " + self.look], 4)
        status, said, _ = refuser.close(gathers=False)
        return Asked(first, behind, status, said)

    def judge(self, told, was_refused):
        if told.first == [] and was_refused:
            return first_difference(told, {"behind": [], "status": 1, "said": Calls.out_of_memory[1]})
        call = b"a0 a " + self.look
        opened = [call, b"  " + self.answer]
        wanted = {"first": [self.line, b"  memory"], "behind": [call, b"  no pass", self.line, *opened]} if was_refused else {"first": [self.line], "behind": opened}
        return first_difference(told, wanted | {"status": 0, "said": b""})

    @staticmethod
    def is_told(told):
        return told.first[1:] == [b"  memory"]

    def planted(self, told):
        """Wrong openings, each made from a right one that was refused."""
        yield "the refused tables are there", told._replace(behind=[told.behind[0], b"  " + self.answer, *told.behind[2:]])
        yield "no tables are opened again", told._replace(behind=[*told.behind[:4], b"  no pass"])
        yield "memory is wanting again", told._replace(behind=[*told.behind[:3], b"  memory", *told.behind[3:]])
        yield "the refusal is not told", told._replace(first=told.first[:1])
        yield "the program ends", told._replace(first=[])
        yield "a signal", told._replace(status=-11)


class Writing(Task):
    """`Journals::write`. Where it is refused, a front of the text is written, and the whole of it once more."""

    column, row, surface = "calls", "`Journals::write`", Calls
    line = b"write a"

    def __init__(self, script):
        self.script = script

    def run(self, refuser, at, on):
        refuser.open(at, on)
        refuser.ask(self.script.lines)
        refuser.tell([GATHER], len(gathered(tuple(refuser.calls))))
        refuser.arm()
        first = refuser.tell([self.line], 1)
        refuser.arm(b"\0")
        with contextlib.suppress(BrokenPipeError):
            refuser.process.stdin.write(self.line + b"\n")
            refuser.process.stdin.flush()
        status, said, (_, behind) = refuser.close(gathers=False)
        return Asked(first, b"".join(it + b"\n" for it in behind), status, said)

    def judge(self, told, was_refused):
        if told.first == [] and was_refused:
            return first_difference(told, {"behind": b"", "status": 1, "said": Calls.out_of_memory[1]})
        text = self.script.journal()
        front, _, again = told.behind.rpartition(self.line + b"\n")
        written = front.removesuffix(b"  memory\n").removesuffix(b"  write\n")
        if again != text or not text.startswith(written) or (front == text) == was_refused:
            return f"it is written: {told.behind}"
        return first_difference(told, {"first": [self.line], "status": 0, "said": b""})

    @staticmethod
    def is_told(told):
        return any(it in told.behind for it in (b"  memory\n", b"  write\n"))

    def planted(self, told):
        """Wrong writings, each made from a right one that was refused."""
        text = self.script.journal()
        yield "nothing is written again", told._replace(behind=told.behind[: -len(text)])
        yield "it is refused again", told._replace(behind=told.behind[: -len(text)] + b"  memory\n")
        yield "the whole, though refused", told._replace(behind=text + self.line + b"\n" + text)
        yield "another text", told._replace(behind=b"{}" + told.behind)
        yield "a back of the text", told._replace(behind=text[5:] + b"  memory\n" + self.line + b"\n" + text)
        yield "the program ends", told._replace(first=[])
        yield "a signal", told._replace(status=-11)


def counts(refuser, words, wanted):
    """How many allocations a start has made at some of its steps, each the first of its kind behind the one before, or the last in a row of them."""
    steps, found, at = [tuple(it.split(" ")) for it in refuser.steps(words)], [], -1
    for kind, name, is_last in wanted:
        at = next(it for it in range(at + 1, len(steps)) if steps[it][:2] == (kind, name))
        while is_last and steps[at + 1][:2] == (kind, name):
            at += 1
        found.append(int(steps[at][2]))
    return found


def starts(run, serve):
    """The parts of the starts of `run` and of `serve`."""
    words, file, schema, engine = counts(run, RUN, [("open", "schema", False), ("read", "file", True), ("open", "lines", False), ("read", "file", False)])
    read_words, = counts(run, ["run", "--schema", "absent"], [("open", "absent", False)])
    built_in, first = counts(run, RUN_STORED, [("open", "stored", False), ("read", "file", False)])
    served = counts(serve, SERVE, [("open", "schema", False), ("read", "file", True), ("socket", "listener", False), ("write", "output", False)])
    tables = served[1] + schema - file
    parts = [
        (Run, "the words, and `read_words`", RUN, 1, words),
        (Run, "the schema's file", RUN, words + 1, file),
        (Run, "`read_schema`", RUN, file + 1, schema),
        (Run, "`Engine::new`, and a stream's begin", RUN, schema + 1, engine),
        (Run, "`builtin`", RUN_STORED, read_words + 1, built_in),
        (Run, "`Engine::new`, and a stream's begin", RUN_STORED, built_in + 1, first),
        (Serve, "the words, and `read_words`", SERVE, 1, served[0]),
        (Serve, "the schema's file", SERVE, served[0] + 1, served[1]),
        (Serve, "`read_schema`", SERVE, served[1] + 1, tables),
        (Serve, "`Shared::new`", SERVE, tables + 1, served[2]),
        (Serve, "the listener, and the journal's begin", SERVE, served[2] + 1, served[3]),
    ]
    return [Start(*it) for it in parts]
