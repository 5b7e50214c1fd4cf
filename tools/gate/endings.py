"""A serving that is watched to its end: what stands in its folder meanwhile and afterwards, and what a connection is told."""
import contextlib
import os
import select
import shutil
import socket
import stat
import subprocess
import sys
import threading
import time

from parts.built_program import TOP, built_program
from reference.histories import Wrong

# A tool's word that is no number names the program that it tries.
SERVER = os.path.abspath(next((it for it in sys.argv[1:2] if not it.isdigit()), "") or built_program())
SECONDS = 30

TABLE = """[[table]]
name = "%s"
column = [{name = "id", cell = "int"}, {name = "n", cell = "int"}]
index = [{name = "q", kind = "sequenced"}, {name = "u", kind = "ordered", unique = true, key = ["id"]}]
"""
SCHEMA = TABLE % "p"


def inserts(count, first=0, table=b"p"):
    """Lines of accepted writes, each its own canonical text."""
    return [b'{"op":"insert","r":{"id":%d,"n":%d},"t":"%s"}\n' % (it, it * 7919 % 1009, table) for it in range(first, first + count)]


def accepted(count, first=0):
    """What they are answered on the empty table."""
    return [b'{"at":%d,"h":"%d:%d","ok":true}\n' % (it + 1, it, it + 1) for it in range(first, first + count)]


def writes_of(lines, answers, tables=(b"p",)):
    """The insertions that were accepted, table after table, in the order of their numbers."""
    kept = [it for it in zip(answers, lines) if b'"op":"insert"' in it[1] and b'"ok":true' in it[0]]
    numbered = [(tables.index(line[line.rindex(b":") + 2 : -3]), int(answer[6 : answer.index(b",")]), line) for answer, line in kept]
    return [line for *_, line in sorted(numbered)]


def wants(name, found, wanted):
    if found != wanted:
        found, wanted = (it if len(repr(it)) < 300 else f"{repr(it)[:120]} .. {repr(it)[-120:]}" for it in (found, wanted))
        raise Wrong(f"{name}: {found}, and not {wanted}")


def built_library(room, name):
    """A library to be preloaded, of a source in tools/."""
    made = f"{room}/{name}.so"
    if not os.path.exists(made):
        part = f"{made}.{threading.get_ident()}"
        subprocess.run(["gcc", "-shared", "-fPIC", "-O1", "-Wall", "-o", part, f"{TOP}/tools/gate/{name}.c", "-ldl"], check=True)
        os.replace(part, made)
    return made


def output_link(room, number=1):
    """A link as /dev/stdout is, or /dev/stderr, but of the test's own: what replaces it harms nobody."""
    path = f"{room}/{('stdout', 'stderr')[number - 1]}"
    if not os.path.lexists(path):
        os.symlink(f"/proc/self/fd/{number}", path)
    return path


def look(folder):
    """What stands in a folder: each name with its content and its mode, or with what kind of thing it is."""
    seen = {}
    for name in sorted(os.listdir(folder)):
        path = os.path.join(folder, name)
        mode = os.lstat(path).st_mode
        if stat.S_ISREG(mode):
            with open(path, "rb") as file:
                seen[name] = file.read(), oct(stat.S_IMODE(mode))
        else:
            seen[name] = os.readlink(path) if stat.S_ISLNK(mode) else stat.filemode(mode)[0]
    return seen


def stands(room, *but):
    """What stands in the folder but the schema, the socket and these."""
    return {name: it for name, it in look(room).items() if name not in ("schema", "socket", *but)}


class Ending:
    """The running server, with one connection, or so many for each of its workers."""

    def __init__(self, room, words=(), *, listen=None, workers=1, each=1, program=(SERVER,), environment=None, **how):
        if os.path.exists(listen or f"{room}/socket") and stat.S_ISSOCK(os.stat(listen or f"{room}/socket").st_mode):
            os.remove(listen or f"{room}/socket")
        self.start(room, listen, [*program, "serve"], ["--workers", str(workers), "--each", str(each), *words], environment, how)

    def start(self, room, listen, program, words, environment, how):
        """Starts the program with a schema, an address and these words."""
        self.room, self.address = room, listen or f"{room}/socket"
        if not os.path.exists(f"{room}/schema"):
            with open(f"{room}/schema", "w", encoding="utf-8") as file:
                file.write(SCHEMA)
        how = {"stdout": subprocess.PIPE, "stderr": subprocess.PIPE, "stdin": subprocess.DEVNULL, **how}
        place = ["--schema", f"{room}/schema", "--listen", f"unix:{self.address}" if self.address.startswith("/") else self.address]
        self.process = subprocess.Popen([*program, *place, *words], env={**os.environ, **(environment or {})}, **how)

    def __enter__(self):
        return self

    def __exit__(self, *_):
        self.process.kill()
        self.process.wait()
        for it in (self.process.stdout, self.process.stderr):
            if it:
                it.close()

    def listens(self, output=None):
        """Waits until the server says that it listens, in its output, or at the end of this file."""
        if not output:
            if not select.select([self.process.stdout], [], [], SECONDS)[0]:
                raise Wrong("it says nothing")
            wants("the first line", self.process.stdout.readline(), b"listening\n")
        ends = time.monotonic() + SECONDS
        while output:
            with open(output, "rb") as file:
                if file.read().endswith(b"listening\n"):
                    break
            if time.monotonic() > ends or self.process.poll() is not None:
                raise Wrong(f"it does not listen: status {self.process.poll()}")
            time.sleep(0.01)

    def connect(self):
        if self.address.startswith("tcp:"):
            connection = socket.create_connection(("127.0.0.1", int(self.address.rpartition(":")[2])))
        else:
            connection = socket.socket(socket.AF_UNIX)
            connection.connect(self.address)
        connection.settimeout(SECONDS)
        return connection

    def end(self, status=0, said=b"", out=b""):
        """Waits for the end, and compares how it ended. A pipe's output is all that followed `listening`."""
        try:
            printed, complained = self.process.communicate(timeout=SECONDS)
        except subprocess.TimeoutExpired as why:
            raise Wrong("the server does not end") from why
        wants("status, text and output", (self.process.returncode, complained, printed), (status, said, out))


class Mounted:
    """A folder that is mounted for the programs that this starts, and for no others."""

    def __init__(self, folder, command):
        self.is_there, self.holder = False, None
        if not all(map(shutil.which, ("unshare", "nsenter"))):
            return
        words = ["unshare", "-rm", "sh", "-c", f"{command} && echo mounted && exec cat", folder]
        self.holder = subprocess.Popen(words, stdin=subprocess.PIPE, stdout=subprocess.PIPE, stderr=subprocess.PIPE)
        self.is_there = self.holder.stdout.readline() == b"mounted\n"
        self.folder = f"/proc/{self.holder.pid}/root{folder}"
        self.entered = ["nsenter", "-U", "--preserve-credentials", "-m", "-t", str(self.holder.pid)]

    def __enter__(self):
        return self

    def __exit__(self, *_):
        if self.holder:
            self.holder.communicate()


def ask(connection, lines, pieces=200):
    """What these lines are answered."""
    answers = connection.makefile("rb")
    told = []
    for at in range(0, len(lines), pieces):
        piece = lines[at : at + pieces]
        connection.sendall(b"".join(piece))
        told += [answers.readline() for _ in piece]
    return told


def try_to_be_served(address, told, ended):
    """Tries to be served from the beginning, and keeps what it is told."""
    while not ended.is_set():
        try:
            with socket.socket(socket.AF_UNIX) as connection:
                connection.settimeout(SECONDS)
                connection.connect(address)
                connection.sendall(inserts(1)[0])
                connection.shutdown(socket.SHUT_WR)
                told.append(connection.recv(1000))
        except OSError:
            time.sleep(0.001)


def refused(ending, status, said):
    """Compares how a server ended that said nothing and served nobody."""
    told, ended = [], threading.Event()
    asking = threading.Thread(target=try_to_be_served, args=(ending.address, told, ended), daemon=True)
    asking.start()
    try:
        ending.end(status, said)
    finally:
        ended.set()
        ending.process.kill()
        asking.join(SECONDS)
    wants("a connection is told", b"".join(told), b"")


# What an end costs.

WRITES = 10_000
SORTS = [b'{"by":["%s"],"i":"q","op":"sort","t":"p"}\n' % by for by in (b"n", b"-id")] * 100
SIZE = b'{"op":"size","t":"p"}\n'
REFUSAL = b'{"op":"insert","r":{"id":0,"n":0},"t":"p"}\n'


def reads_at_the_end(workers):
    """Each worker's last look is a read behind all writes."""
    return [(0, inserts(WRITES)), (0, SORTS), *((it, [SIZE]) for it in range(workers))]


def reads_amid_the_writes(workers):
    """Each worker reads once, between the sorts."""
    share = len(SORTS) // (workers + 1)
    amid = [it for worker in range(workers) for it in ((0, SORTS[share * worker : share * (worker + 1)]), (worker, [SIZE]))]
    return [(0, inserts(WRITES)), *amid, (0, SORTS[share * workers :])]


def refusals_at_the_end(workers):
    """Each worker's last look is a write that is refused, behind all others."""
    return [(0, inserts(WRITES)), (0, SORTS), *((it, [REFUSAL]) for it in range(workers))]


# With each, how much of the serving's processor time the end is to take at most.
LOOKS = {
    "reads at the end": (reads_at_the_end, 0.1),
    "reads amid the writes": (reads_amid_the_writes, 0.1),
    "refusals at the end": (refusals_at_the_end, 0.1),
}


def end_costs(room, script, workers):
    """The seconds of processor time of a serving, up to its last answer, and of its end. A connection waits for each answer."""
    with Ending(room, ["--journal", f"{room}/journal"], workers=workers) as server, contextlib.ExitStack() as stack:
        server.listens()
        connections = [stack.enter_context(server.connect()) for _ in range(workers)]
        for worker, lines in script(workers):
            told = ask(connections[worker], lines, 1)
            wants("the answers", len([it for it in told if it.startswith(b'{"at"')]), len(lines))
        serving = time.clock_gettime(~server.process.pid << 3 | 2)
        timer = threading.Timer(SECONDS * 4, server.process.kill)
        timer.start()
        stack.close()
        _, status, used = os.wait4(server.process.pid, 0)
        timer.cancel()
        server.process.returncode = os.waitstatus_to_exitcode(status)
        wants("the status", server.process.returncode, 0)
    return serving, used.ru_utime + used.ru_stime - serving
