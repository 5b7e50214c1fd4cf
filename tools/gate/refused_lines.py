"""The worked examples as scripts of lines, and the programs that carry them out while a line, a start or an end is refused memory."""
import contextlib
import functools
import json
import os
import socket
import subprocess
import threading

from parts.built_program import built_program
from reference.plain_machine import MEMORY, WRITES, Machine
from reference.plain_sessions import Hall
from reference.worked_examples import CASES, SCHEMA, SPEND, agrees

SECONDS = 20

# What a program is told when it has no memory for itself.
OWN_MEMORY = b"Error: Kind(OutOfMemory)\n"

# Keys that a command may as well leave out.
SAY_NOTHING = [("rollback", False), ("unique", False)]

SIZE = b'{"op":"size","t":"p"}'
GATHER = b"gather a a0 a1"

# The same with a pass that looked at other tables alone.
GATHER_STRANGER = GATHER + b" b2"


def spelled(command):
    """The text of a command, its keys in order."""
    return json.dumps(command, separators=(",", ":"), sort_keys=True, ensure_ascii=False).encode()


def line_of(op, said):
    return spelled({"op": op, "t": "p"} | said)


def canonical(command):
    """The text of a command in a journal."""
    return spelled({key: it for key, it in command.items() if (key, it) not in SAY_NOTHING})


def is_change(line):
    """Whether a line, or a call of it, is of an op that may change a table."""
    return json.loads(line[line.index(b"{") :])["op"] in WRITES


class Script:
    """The lines of an example, what each is told, and what looks show before each and at the end."""

    def __init__(self, name):
        self.name, self.lines, self.told, self.looks = name, [], [], []
        self.machine, self.writes = Machine(SCHEMA), []
        for op, said, wanted in CASES[name]:
            self.looks.append(self.look())
            self.take(line_of(op, said), wanted)
        self.looks.append(self.look())

    def take(self, line, wanted):
        answer, change = self.machine.answer(line)
        if not agrees(answer.decode(), wanted):
            raise SystemExit(f"{self.name}: {line} is answered {answer}, and not {wanted}")
        self.machine.keep(change)
        self.lines.append(line)
        self.told.append(answer)
        if change:
            command = json.loads(line)
            self.writes.append((command["t"], canonical(command)))

    def look(self):
        """Lines that show every list, every handle that was told, and how many records there are; and what they are told."""
        lists = [("list", {"t": name, "i": it.name}) for name, table in self.machine.tables.items() for it in table.indices]
        sizes = [("size", {"t": name}) for name in self.machine.tables]
        handles = {(json.loads(line)["t"], json.loads(answer).get("h")) for line, answer in zip(self.lines, self.told)}
        gets = [("get", {"t": table, "h": it}) for table, it in sorted(it for it in handles if it[1])]
        lines = [line_of(*it) for it in lists + sizes + gets]
        return lines, [self.machine.answer(it)[0] for it in lines]

    def changes(self):
        """The lines that may change a table."""
        return [it for it in self.lines if is_change(it)]

    def journal(self):
        """The text of the accepted writes, table after table."""
        return b"".join(line + b"\n" for name in self.machine.tables for table, line in self.writes if table == name)


# What is sent to the built-in tables, and what it is answered.
STORED = b'{"op":"insert","r":{"g":"b","id":2},"t":"f"}\n{"i":"u","op":"list","t":"f"}\n'
STORED_ANSWERS = b'{"at":1,"h":"0:1","ok":true}\n{"at":1,"ok":true,"rs":[{"h":"0:1","r":{"g":"b","id":2}}]}\n'

# (no run of a program takes all the writes that there are numbers for)
SCRIPTS = [Script(name) for name, lines in CASES.items() if all(op != SPEND for op, _, _ in lines)]

# The example that is run where a start is looked at.
STARTED = next(it for it in SCRIPTS if it.name == "two unique indices")

# What stands in a folder from the beginning.
KEPT = {"schema", "armed", "lines", "stored"}
RUN = ["run", "--schema", "schema", "--commands", "lines"]
RUN_STORED = ["run", "--commands", "stored"]
SERVE = ["serve", "--schema", "schema", "--listen", "unix:socket", "--journal", "journal", "--workers", "2"]


class Refuser:
    """A program in a folder of its own, whose allocations are refused while it is armed: one, or that and all later ones."""

    def __init__(self, room, library):
        self.room, self.library = room, library
        lines = b"".join(it + b"\n" for it in STARTED.lines)
        for name, content in (("schema", SCHEMA.encode()), ("lines", lines), ("stored", STORED)):
            with open(f"{room}/{name}", "wb") as file:
                file.write(content)
        self.armed = os.open(f"{room}/armed", os.O_CREAT | os.O_RDWR)
        self.names = {*os.listdir(room), "refused", "journal", "socket"}

    def __enter__(self):
        return self

    def __exit__(self, *_):
        os.close(self.armed)

    def arm(self, byte=b"\1"):
        os.pwrite(self.armed, byte, 0)

    def clear(self):
        """Leaves nothing of an earlier run."""
        self.arm(b"\0")
        for name in {*os.listdir(self.room)} - KEPT:
            os.remove(f"{self.room}/{name}")

    def start(self, words, at, on, is_armed=True, **more):
        """Starts the program; it is ended by force where it says nothing."""
        self.clear()
        names = {"LD_PRELOAD": self.library, "REFUSE_AT": str(at), "REFUSED_FILE": f"{self.room}/refused", **more}
        names |= {"REFUSE_ON": "1"} if on else {}
        names |= {"ARMED_FILE": f"{self.room}/armed"} if is_armed else {}
        pipes = {it: subprocess.PIPE for it in ("stdin", "stdout", "stderr")}
        self.process = subprocess.Popen([self.path, *words], cwd=self.room, env=os.environ | names, **pipes)
        self.timer = threading.Timer(SECONDS, self.process.kill)
        self.timer.start()

    def end(self):
        """Waits for the end: the status, and what stands on standard error."""
        with contextlib.suppress(BrokenPipeError):
            self.process.stdin.close()
        said = self.process.stderr.read()
        status = self.process.wait()
        self.timer.cancel()
        for it in (self.process.stdout, self.process.stderr):
            it.close()
        return status, said

    def was_refused(self):
        return os.path.exists(f"{self.room}/refused")

    def beside(self):
        """What stands in the folder and is not to be there."""
        return sorted({*os.listdir(self.room)} - self.names)

    def left(self):
        """What a start has left, but for its socket."""
        return sorted({*os.listdir(self.room)} - KEPT - {"refused", "socket"})

    def steps(self, words):
        """The steps of a whole run, each with the number of allocations so far."""
        self.start(words, 0, False, False, STEPS_FILE="steps")
        self.carried_out(words)
        with open(f"{self.room}/steps", encoding="utf-8") as file:
            return file.read().splitlines()


def exchange(output, answers, lines):
    """Writes lines, and reads an answer for each, up to the end of the answers."""
    with contextlib.suppress(BrokenPipeError, ConnectionError):
        output.write(b"".join(it + b"\n" for it in lines))
        output.flush()
    told = []
    while len(told) < len(lines):
        answer = b""
        with contextlib.suppress(ConnectionError):
            answer = answers.readline()
        if not answer:
            break
        told.append(answer.removesuffix(b"\n"))
    return told


class Run(Refuser):
    """`table_server run`, which is sent lines on its input."""

    name, path, out_of_memory = "run", built_program(), (1, b"memory\n")

    def open(self, at, on):
        self.start(["run", "--schema", "schema"], at, on)
        self.ask([SIZE])

    def ask(self, lines):
        return exchange(self.process.stdin, self.process.stdout, lines)

    def close(self):
        return *self.end(), None

    def carried_out(self, words):
        """What is answered by a started program, how it ends, and whether all is as if no memory were refused."""
        out, end = self.process.stdout.read(), self.end()
        wanted = {tuple(RUN): b"".join(it + b"\n" for it in STARTED.told), tuple(RUN_STORED): STORED_ANSWERS}.get(tuple(words))
        return out, *end, (out, *end) == (wanted, 0, b"")

    def is_kept(self, _script, kept, _ended):
        """Whether this is what is kept of an example at the end."""
        return kept is None


class Serve(Refuser):
    """`table_server serve` with a journal and two workers, each with a connection; the first one is sent the lines."""

    name, path, out_of_memory = "serve", built_program(), (1, b"memory\n")

    def open(self, at, on):
        self.start(SERVE, at, on)
        self.process.stdout.readline()
        self.meet()

    def meet(self):
        """Connects twice, and waits until both are served."""
        self.connections = [self.connect(), self.connect()]
        for self.now in reversed(self.connections):
            self.ask([SIZE])

    def connect(self):
        connection = socket.socket(socket.AF_UNIX)
        connection.settimeout(SECONDS)
        connection.connect(f"{self.room}/socket")
        return connection, connection.makefile("wb"), connection.makefile("rb")

    def ask(self, lines):
        return exchange(*self.now[1:], lines)

    @staticmethod
    def hang_up(connection):
        """Ends a connection, and gives what it was still told."""
        peer, output, answers = connection
        with contextlib.suppress(OSError):
            peer.shutdown(socket.SHUT_WR)
            return answers.read()
        return b""

    def carried_out(self, _words):
        """What a started server says and answers, how it ends, and whether all is as if no memory were refused."""
        listening = self.process.stdout.readline()
        if not listening:
            return b"", *self.end(), False
        self.meet()
        told, (status, said, journal) = self.ask(STARTED.lines), self.close()
        return listening, status, said, (told, status, said, journal) == (STARTED.told, 0, b"", STARTED.journal())

    def close(self, armed=False):
        """Ends both connections, the end armed where that is asked for, and gives the journal too."""
        if armed:
            self.arm()
        for connection in self.connections:
            self.hang_up(connection)
            for it in connection[::-1]:
                with contextlib.suppress(OSError):
                    it.close()
        status, said = self.end()
        self.arm(b"\0")
        return status, said, self.journal()

    def journal(self):
        if not os.path.exists(f"{self.room}/journal"):
            return None
        with open(f"{self.room}/journal", "rb") as file:
            return file.read()

    def is_kept(self, script, kept, _ended):
        return kept == script.journal()


class Calls(Refuser):
    """`shared_cases`, in which two sessions call the tables behind locks by turns, and their passes are gathered at the end."""

    name, path, out_of_memory = "calls", built_program("shared_cases"), (1, OWN_MEMORY)

    def begin(self, at, on):
        """Begins without tables. (What was printed has made room for the next.)"""
        self.start([], at, on)
        self.turn, self.calls, self.gathering = 0, [], GATHER
        self.tell([*SCHEMA.encode().splitlines(), b"---", b"a0 a " + SIZE], 2)

    def open(self, at, on):
        self.begin(at, on)
        self.tell([b"open a 3"], 1)
        self.ask([SIZE])

    def look_elsewhere(self, lines, look):
        """Calls these lines on other tables, where a third session then looks. From now on its pass is gathered too."""
        calls = [b"b0 b " + it for it in lines] + [b"b2 b " + look]
        self.tell([b"open b 3"], 1)
        self.tell(calls, 2 * len(calls))
        self.gathering = GATHER_STRANGER

    def tell(self, lines, count):
        """Writes lines, and reads so many lines."""
        with contextlib.suppress(BrokenPipeError):
            self.process.stdin.write(b"".join(it + b"\n" for it in lines))
            self.process.stdin.flush()
        told = (self.process.stdout.readline() for _ in range(count))
        return [it.removesuffix(b"\n") for it in told if it]

    def ask(self, lines):
        """Calls by turns, each by the next session; each line is printed before what it is told."""
        calls = []
        for line in lines:
            calls.append(b"a%d a %s" % (self.turn, line))
            self.turn = 1 - self.turn
        said = self.tell(calls, 2 * len(calls))
        told = [(call, it.removeprefix(b"  ")) for call, echo, it in zip(calls, said[::2], said[1::2]) if echo == call]
        self.calls += [call for call, it in told if it != MEMORY and is_change(call)]
        return [it for _, it in told]

    def close(self, gathers=True):
        """Gathers, if that is asked for, and gives the calls that may have written, and what is printed then."""
        said = self.tell([self.gathering], 1) if gathers else []
        with contextlib.suppress(BrokenPipeError):
            self.process.stdin.close()
        said += self.process.stdout.read().splitlines()
        return *self.end(), (tuple(self.calls), said)

    def is_kept(self, script, kept, ended):
        calls, said = kept
        return said == [] if ended else said == gathered(calls) and [it.split(b" ", 2)[2] for it in calls] == script.changes()


@functools.lru_cache(10000)
def gathered(calls):
    """What is printed of these calls, gathered."""
    hall = Hall(SCHEMA, lambda command: canonical(command).decode())
    for line in (b"open a 3", *calls):
        hall.told(line)
    return [it.encode() for it in hall.told(GATHER)]
