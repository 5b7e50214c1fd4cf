"""The built server behind a socket."""
import atexit
import os
import subprocess
import sys

from parts.built_program import TOP, built_program
from reference.histories import Wrong

sys.path.insert(0, os.path.join(TOP, "examples"))
from client import Client  # noqa: E402, the examples are no package

SECONDS = 60


class Served:
    """The running server: `serve` with a schema, a number of threads, so many connections for each, and a journal."""

    def __init__(self, room, schema, workers=1, each=1, address=None, journal=True, program=None):
        self.address = address or f"unix:{room}/socket"
        self.journal = f"{room}/journal" if journal else None
        with open(f"{room}/schema", "w", encoding="utf-8") as file:
            file.write(schema)
        if os.path.exists(f"{room}/socket"):
            os.remove(f"{room}/socket")
        words = ["serve", "--schema", f"{room}/schema", "--listen", self.address, "--workers", str(workers), "--each", str(each)]
        words += ["--journal", self.journal] if journal else []
        self.process = subprocess.Popen([program or built_program(), *words], stdin=subprocess.DEVNULL, stdout=subprocess.PIPE, stderr=subprocess.PIPE)
        atexit.register(self.process.kill)
        if self.process.stdout.readline() != b"listening\n":
            raise Wrong(f"the server does not listen: {self.process.stderr.read()!r}")

    def client(self):
        return Client(self.address, SECONDS)

    def end(self, status=0, text=b""):
        """Waits for the end, and gives the journal's text."""
        try:
            out, said = self.process.communicate(timeout=SECONDS)
        except subprocess.TimeoutExpired as why:
            self.process.kill()
            raise Wrong("the server does not end") from why
        if (self.process.returncode, said, out) != (status, text, b""):
            raise Wrong(f"the server ended with status {self.process.returncode}, {said!r} and {out[:200]!r}")
        if not self.journal or status:
            return b""
        with open(self.journal, "rb") as file:
            return file.read()


def take_port():
    """A port of this machine that nobody listens at."""
    import socket

    with socket.socket() as taken:
        taken.bind(("127.0.0.1", 0))
        return taken.getsockname()[1]
