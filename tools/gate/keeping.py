"""The program table_keeper while it runs, and what stands in the folder of its logs."""
import contextlib
import os
import re
import selectors
import signal
import subprocess
import sys
import time

from gate.endings import SCHEMA, SECONDS, Ending, accepted, ask, look, wants
from parts.built_program import TOP, built_program
from reference.checked_log import MARK_BYTES, Link, bases_of, last_link, log_text, mark_text, read_marks, read_state, writes_of
from reference.command_texts import command_text
from reference.histories import Wrong, views
from reference.plain_keeper import FAULTS
from reference.plain_machine import Machine, read

# A tool's word that is no number names the program that it tries.
PROGRAM = (os.path.abspath(next((it for it in sys.argv[1:2] if not it.isdigit()), "") or f"{TOP}/crates/table_keeper/out/table_keeper"),)
# The seconds that an answer may take.
PATIENCE = 8
# What a shell starts in the background ignores an interrupt, and so would the program that a tool starts there.
signal.signal(signal.SIGINT, signal.default_int_handler)
# The status of its end: a file that can't be used, another schema, a log that can't be written, a bad line, a folder that is taken, a state
# that can't be read, one that can't be written.
FILE, DECLARED, FULL, LINE, TAKEN, STATE, UNWRITTEN = 1, 3, 5, 6, 7, 8, 9


def found_program():
    """Ends the tool where the program that it tries is not there."""
    if not os.path.exists(PROGRAM[0]):
        built_program("table_keeper")


def plain_keeper(fault="none"):
    """How the plain keeper is started, with a fault or none."""
    if fault not in FAULTS:
        sys.exit(f"the plain keeper has no such fault: {fault}")
    return sys.executable, "-B", f"{TOP}/tools/reference/plain_keeper.py", fault


def said_of(text):
    """What the program says, but for how far it reads, which comes where a second goes by."""
    return "".join(it for it in text.decode().splitlines(keepends=True) if not it.startswith("reads "))


class Keeper(Ending):
    """The running program. Its schema, its socket and the folder of its logs stand in one room."""

    def __init__(self, room, words=(), *, program=PROGRAM, listen=None, workers=16, environment=None, prefix=(), data=None, **how):
        self.start(room, listen, [*prefix, *program], ["--data", data or f"{room}/data", "--workers", str(workers), *words], environment, how)

    def stop(self, by=signal.SIGKILL):
        """Ends it by a signal, and gives what it said."""
        self.process.send_signal(by)
        return self.ended()[1]

    def ended(self):
        """How it ended: its status and what it said."""
        try:
            _, said = self.process.communicate(timeout=SECONDS)
        except subprocess.TimeoutExpired as why:
            raise Wrong("the program does not end") from why
        return self.process.returncode, said_of(said)


class Room:
    """A room for one program after another: a schema, a socket, a folder of logs."""

    def __init__(self, folder, program, schema=SCHEMA):
        self.folder, self.program = folder, program
        os.makedirs(f"{folder}/data")
        self.declare(schema)

    def declare(self, schema):
        self.schema = schema
        with open(f"{self.folder}/schema", "w", encoding="utf-8") as file:
            file.write(schema)

    def keeper(self, *words, **how):
        """The program that is just started."""
        return Keeper(self.folder, words, program=how.pop("program", self.program), **how)

    @contextlib.contextmanager
    def kept(self, *words, **how):
        """The program that listens."""
        with self.keeper(*words, **how) as keeper:
            keeper.listens()
            yield keeper

    def path(self, table="p", end="log"):
        return f"{self.folder}/data/{table}.{end}"

    def base(self, table="p"):
        """The link behind which the lines of a log begin: the log of a table, or, as p.4, that behind a state."""
        name, _, number = table.partition(".")
        if not number:
            return bases_of(self.schema)[name]
        with open(self.path(name, "state"), "rb") as file:
            found = read_state(file.read())
        if not found:
            raise Wrong(f"{name}: the state's digest does not fit")
        return Link(int(number), found[0])

    def raw(self, table="p"):
        with open(self.path(table), "rb") as file:
            return file.read()

    def log(self, table="p"):
        """The writes of a log, which has to be whole, with a line of a plain journal for each."""
        text = self.raw(table)
        writes = writes_of(text, self.base(table))
        if writes is None:
            raise Wrong(f"{table}: the log is not whole: {text[-200:]!r}")
        return writes

    def put(self, text, table="p", torn=b"", mark=None):
        """Puts a log there that has these lines of a plain journal, and such bytes behind them, with a mark of its first writes: of none if not said."""
        lines = log_text(text.splitlines(), self.base(table))
        self.put_raw(lines + torn, table)
        at_mark = last_link(b"".join(lines.splitlines(keepends=True)[: mark or 0]), self.base(table))
        self.put_mark(mark_text(at_mark), table.partition(".")[0])

    def put_raw(self, text, table="p"):
        with open(self.path(table), "wb") as file:
            file.write(text)

    def put_mark(self, text, table="p"):
        with open(self.path(table, "mark"), "wb") as file:
            file.write(text)

    def put_declaration(self, text, name):
        with open(f"{self.folder}/data/{name}", "wb") as file:
            file.write(text)

    def marked(self, table="p"):
        """The number that the mark tells, or None."""
        with open(self.path(table, "mark"), "rb") as file:
            text = file.read()
        wants("the bytes of the mark", len(text), MARK_BYTES)
        found, _ = read_marks(text)
        return found and found.number

    def emptied(self):
        """A first start and its end, where a log of an earlier one stood."""
        self.put(b"")
        with self.kept() as keeper:
            keeper.stop()

    def logs(self):
        """The writes of the logs that stand there, by the names of these."""
        return {name.removesuffix(".log"): self.log(name.removesuffix(".log")) for name in self.files() if name.endswith(".log")}

    def files(self):
        """The logs, states and marks that stand there, by their names."""
        files = {name: it[0] for name, it in look(f"{self.folder}/data").items() if isinstance(it, tuple)}
        return {name: text for name, text in files.items() if name != "lock" and not name.endswith(".schema")}

    def lay(self, files):
        """Puts these logs, states and marks there, and no others."""
        for name in self.files():
            os.remove(f"{self.folder}/data/{name}")
        for name, text in files.items():
            with open(f"{self.folder}/data/{name}", "wb") as file:
                file.write(text)

    def doing(self, *words, environment=None, stdin=subprocess.DEVNULL):
        """The program that does what these words ask for, and ends."""
        words = [*self.program, "--schema", f"{self.folder}/schema", "--data", f"{self.folder}/data", *words]
        how = {"stdin": stdin, "stdout": subprocess.PIPE, "stderr": subprocess.PIPE}
        return subprocess.Popen(words, env={**os.environ, **(environment or {})}, **how)

    def does(self, *words, environment=None, text=None):
        """Has that done, with this standard input, and gives its status, what it printed, and the lines that it said."""
        with self.doing(*words, environment=environment, stdin=subprocess.PIPE) as process:
            try:
                out, said = process.communicate(text or b"", timeout=SECONDS)
            except subprocess.TimeoutExpired as why:
                process.kill()
                raise Wrong(f"{words} does not end") from why
        return process.returncode, out, said_of(said).splitlines()

    def compact(self, status=0, said="", environment=None):
        """Has the states written, and compares the end of that, and what it says at last."""
        self.ends_so(status, said, "--compact", environment=environment)

    def ends_so(self, status, said, *words, environment=None, text=None):
        """Compares the end of what these words ask for, and what it says at last. It prints nothing."""
        found, out, told = self.does(*words, environment=environment, text=text)
        wants(f"the end of {words}", (found, out, told[-1:]), (status, b"", [said.replace("@", self.folder)] if said else []))

    def refused(self, status, said, words=(), **how):
        """Compares the end of a program that may not start, and what it says at last, where a # stands for any number. Every log and state has
        to be as it was."""
        before = self.files()
        with self.keeper(*words, **how) as keeper:
            out = keeper.process.stdout.readline()
            found, told = (None, "") if out else keeper.ended()
        wants("listening", out, b"")
        last = [re.sub(r"\d+$", "#", it) if said.endswith("#") else it for it in told.splitlines()[-1:]]
        wants("the status, and what it says", (found, last), (status, [said.replace("@", self.folder)]))
        wants("the logs and states", self.files(), before)


def wait_to_listen(keeper, seconds):
    """Waits until the program listens, and gives the seconds that it took, and what it said meanwhile."""
    start, told = time.monotonic(), []
    with contextlib.closing(selectors.DefaultSelector()) as selector:
        for it in (keeper.process.stdout, keeper.process.stderr):
            selector.register(it, selectors.EVENT_READ)
        while time.monotonic() - start < seconds:
            for key, _ in selector.select(1):
                line = key.fileobj.readline()
                if key.fileobj is keeper.process.stdout:
                    wants("the first line", line, b"listening\n")
                    return time.monotonic() - start, told
                told.append(line.decode())
    raise Wrong(f"it does not listen in {seconds} s")


class Tables:
    """The plain machine's tables, with the lines that their logs have."""

    def __init__(self, schema=SCHEMA):
        self.machine = Machine(schema)
        self.lines = {it: [] for it in self.machine.tables}

    def take(self, line):
        """The answer to a line, and whether it is an accepted write, which is then carried out."""
        answer, change = self.machine.answer(line.rstrip(b"\n"))
        self.machine.keep(change)
        if change:
            command = read(line)
            self.lines[command["t"]].append(command_text(command).encode() + b"\n")
        return answer + b"\n", change is not None

    def answers(self, lines):
        return [self.take(it)[0] for it in lines]

    def logs(self):
        return {name: b"".join(lines) for name, lines in self.lines.items()}

    def views(self):
        """Lines that show all, with their answers."""
        lines = [it + b"\n" for it in views(self.machine)]
        return lines, self.answers(lines)


def shows(keeper, tables):
    """Compares every view that the program shows."""
    lines, answers = tables.views()
    with keeper.connect() as connection:
        connection.settimeout(PATIENCE)
        wants("the views", ask(connection, lines), answers)


def built_program_of(room, name):
    """A program in C, of a source in tools/."""
    made = f"{room}/{name}"
    subprocess.run(["gcc", "-O2", "-Wall", "-o", made, f"{TOP}/tools/bench/{name}.c", "-lpthread"], check=True)
    return made


def but_marks(files):
    """The logs and states of these."""
    return {name: text for name, text in files.items() if not name.endswith(".mark")}


SIZE = b'{"op":"size","t":"p"}\n'


def size(keeper):
    """How many records there are."""
    with keeper.connect() as connection:
        connection.settimeout(PATIENCE)
        return int(ask(connection, [SIZE])[0].partition(b'"n":')[2].partition(b",")[0])


def filled(room, lines):
    """Has these lines of accepted writes written, and ends the program."""
    with room.kept() as keeper, keeper.connect() as connection:
        wants("the answers", ask(connection, lines), accepted(len(lines)))
        keeper.stop()
