"""Lines to a server and its answers, over a socket or the pipes of a child process."""
from __future__ import annotations

import os
import select
import socket
import subprocess
from collections.abc import Callable, Sequence

from .faults import Closed
from .tables import Database

MOST_AT_ONCE = 1 << 18
SECONDS_TO_END = 10


class Stream:
    """A stream of lines to a server and one of its answers, by their file descriptors. What is sent and what comes never wait for each other."""

    def __init__(self, reads: int, writes: int, timeout: float | None) -> None:
        self._reads, self._writes, self._timeout = reads, writes, timeout
        self._begun: list[bytes] = []
        for it in {reads, writes}:
            os.set_blocking(it, False)
        self._while_it_sends, self._while_it_reads = select.poll(), select.poll()
        self._while_it_reads.register(reads, select.POLLIN)
        self._while_it_sends.register(writes, select.POLLOUT)
        self._while_it_sends.register(reads, select.POLLIN | (select.POLLOUT if reads == writes else 0))

    def exchange(self, lines: bytes, count: int) -> list[bytes]:
        """Sends lines, and returns their answers. Raises TimeoutError and ConnectionError, and then the stream is of no more use."""
        left = memoryview(lines)
        answers: list[bytes] = []
        while left or len(answers) < count:
            if left:
                left = left[self._sent(left) :]
            self._wait(bool(left))
            answers += self._received()
        if len(answers) > count or self._begun:
            raise ConnectionError("the server sent more than the answers")
        return answers

    def _wait(self, sends: bool) -> None:
        poll = self._while_it_sends if sends else self._while_it_reads
        if not poll.poll(None if self._timeout is None else max(1, round(self._timeout * 1000))):
            raise TimeoutError(f"no answer in {self._timeout} seconds")

    def _sent(self, lines: memoryview) -> int:
        try:
            return os.write(self._writes, lines[:MOST_AT_ONCE])
        except BlockingIOError:
            return 0

    def _received(self) -> list[bytes]:
        """The answers that have come wholly."""
        try:
            came = os.read(self._reads, MOST_AT_ONCE)
        except BlockingIOError:
            return []
        if not came:
            raise ConnectionError("the server ended the connection")
        if b"\n" not in came:
            self._begun.append(came)
            return []
        *answers, begun = b"".join([*self._begun, came]).split(b"\n")
        self._begun = [begun] if begun else []
        return answers


class Connection(Database):
    """The tables of a server, which `connect` makes. Where an exchange fails, it is closed: what was asked then may be done or not."""

    def __init__(self, stream: Stream, end: Callable[[], str]) -> None:
        super().__init__()
        self._stream, self._end, self._is_open = stream, end, True

    def _exchange(self, lines: bytes, count: int) -> list[bytes]:
        with self._lock:
            if not self._is_open:
                raise Closed("this connection is closed")
            try:
                return self._stream.exchange(lines, count)
            except BaseException as why:
                # (an answer that comes later would be taken for another line's)
                said = self._ended()
                if isinstance(why, ConnectionError) and said:
                    raise ConnectionError(f"{why}: {said}") from why
                raise

    def _ended(self) -> str:
        self._is_open = False
        return self._end()

    def close(self) -> None:
        with self._lock:
            if self._is_open:
                self._ended()

    def __repr__(self) -> str:
        return f"<tables of a server, {'open' if self._is_open else 'closed'}>"


def connected(address: str, timeout: float | None) -> socket.socket:
    """A socket at unix:PATH or tcp:HOST:PORT."""
    kind, _, place = address.partition(":")
    host, _, port = place.rpartition(":")
    is_tcp = kind == "tcp" and host and port.isascii() and port.isdigit() and int(port) < 65536
    if not is_tcp and (kind != "unix" or not place):
        raise ValueError(f"{address!r} is neither unix:PATH nor tcp:HOST:PORT")
    try:
        return over_tcp(host.removeprefix("[").removesuffix("]"), int(port), timeout) if is_tcp else over_unix(place, timeout)
    except OSError as why:
        why.filename = address
        raise


def over_tcp(host: str, port: int, timeout: float | None) -> socket.socket:
    made = socket.create_connection((host, port), timeout)
    made.setsockopt(socket.IPPROTO_TCP, socket.TCP_NODELAY, True)
    return made


def over_unix(path: str, timeout: float | None) -> socket.socket:
    made = socket.socket(socket.AF_UNIX)
    try:
        made.settimeout(timeout)
        made.connect(path)
    except BaseException:
        made.close()
        raise
    return made


def closer(made: socket.socket) -> Callable[[], str]:
    def end() -> str:
        made.close()
        return ""

    return end


def ender(child: subprocess.Popen[bytes]) -> Callable[[], str]:
    """Ends a child by the end of its lines."""

    def end() -> str:
        for it in (child.stdin, child.stdout):
            if it:
                it.close()
        try:
            status = child.wait(SECONDS_TO_END)
        except subprocess.TimeoutExpired:
            child.kill()
            status = child.wait()
        return f"the process has the status {status}" if status else ""

    return end


def connect(address: str | None = None, *, process: Sequence[str | os.PathLike[str]] | None = None, timeout: float | None = None) -> Connection:
    """The tables of a server.

        connect("unix:/run/tables")               # a Unix socket of `table_server serve` or `table_keeper`
        connect("tcp:127.0.0.1:7000")             # a TCP socket
        connect(process=["table_server", "run", "--schema", "tables.toml"])    # a child process, which ends with the connection

    Each wait for an answer fails after `timeout` seconds, by TimeoutError. Raises OSError where nobody serves.
    """
    if (address is None) == (process is None):
        raise TypeError("connect takes an address, or process=[..], the words of a program")
    if process is not None:
        child = subprocess.Popen(process, stdin=subprocess.PIPE, stdout=subprocess.PIPE, bufsize=0)
        assert child.stdin and child.stdout
        return Connection(Stream(child.stdout.fileno(), child.stdin.fileno(), timeout), ender(child))
    assert address is not None
    made = connected(address, timeout)
    return Connection(Stream(made.fileno(), made.fileno(), timeout), closer(made))
