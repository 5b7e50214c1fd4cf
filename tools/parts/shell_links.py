"""Where tools/shell sends its lines: to the program by a pipe, or to a serving one by a socket. Each line that is sent has one answer line."""
import os
import select
import socket
import subprocess
import sys

from parts.built_program import TOP

sys.path.insert(0, os.path.join(TOP, "examples"))
from client import Client  # noqa: E402, the examples are no package

SECONDS_OF_SILENCE = 2


class Ended(Exception):
    """The other side has ended: why, and the status that the shell ends with."""

    def __init__(self, why, status=1):
        super().__init__(why)
        self.status = status


class Link:
    """Lines out and answers in, over two descriptors."""

    def __init__(self, to, source):
        self.to, self.source, self.read = to, source, b""

    def ask(self, line, tell_silence):
        """Sends a line, and gives its answer, without the newline. Where none comes for a while, it tells so, once."""
        try:
            self.write(line.encode("utf-8", "surrogateescape") + b"\n")
            return self.take_line(tell_silence).decode("utf-8", "replace")
        except OSError:
            raise self.ended() from None

    def write(self, text):
        while text:
            text = text[os.write(self.to, text) :]

    def take_line(self, tell_silence):
        pieces, is_told = [self.read], False
        while b"\n" not in pieces[-1]:
            if not is_told and not select.select([self.source], [], [], SECONDS_OF_SILENCE)[0]:
                is_told = True
                tell_silence()
            pieces.append(os.read(self.source, 65536))
            if not pieces[-1]:
                raise self.ended()
        line, _, self.read = b"".join(pieces).partition(b"\n")
        return line

    def is_ended(self):
        """Whether the other side has ended, while nothing was asked."""
        return bool(select.select([self.source], [], [], 0)[0]) and not self.read


class Program(Link):
    """The program that runs for this shell alone."""

    is_shared = False

    def __init__(self, program, schema):
        words = [program, "run", *(["--schema", schema] if schema else [])]
        # (Ctrl-C in the terminal is for the shell)
        pipes = {"stdin": subprocess.PIPE, "stdout": subprocess.PIPE, "stderr": subprocess.PIPE}
        self.process = subprocess.Popen(words, start_new_session=True, **pipes)
        super().__init__(self.process.stdin.fileno(), self.process.stdout.fileno())

    def ended(self):
        said = self.process.communicate()[1].decode("utf-8", "replace").strip()
        status = self.process.returncode
        how = f"by signal {-status}" if status < 0 else f"with status {status}"
        return Ended(f"the program has ended {how}{': ' + said if said else ''}", status if status > 0 else 1)

    def close(self):
        """Ends the program."""
        self.process.communicate()


class Connection(Link):
    """A connection to a serving program, whose tables others may change."""

    is_shared = True

    def __init__(self, address):
        self.client = Client(address)
        self.address = address
        super().__init__(self.client.socket.fileno(), self.client.socket.fileno())

    def ended(self):
        return Ended(f"{self.address}: the server has ended the connection")

    def close(self):
        """Ends the connection: the server's thread is free for the next."""
        self.client.__exit__()
