"""A client of `table_server serve`, over a Unix or a TCP socket. It needs Python alone.

    from client import Client

    with Client("unix:/tmp/tables") as tables:
        print(tables.call({"op": "insert", "t": "p", "r": {"id": 1, "g": "a", "n": 5}}))
        for number in range(100):
            tables.send({"op": "find", "t": "p", "i": "u", "k": [number]})
        tables.end()
        for answer in tables:
            print(answer)

As a program it sends the lines of its input and prints their answers, each as it comes: client.py unix:/tmp/tables < lines
"""
import json
import os
import signal
import socket
import sys
import threading

HELP = "client.py unix:PATH | tcp:HOST:PORT: sends the lines of its input to a serving table_server, and prints their answers"


class Client:
    """A connection. Each command has one answer, and the answers come in the order of the commands."""

    def __init__(self, address, seconds=None):
        """Connects to `unix:PATH` or `tcp:HOST:PORT`; each later wait fails after so many seconds."""
        kind, _, place = address.partition(":")
        host, _, port = place.rpartition(":")
        if kind == "unix" and place:
            self.socket = socket.socket(socket.AF_UNIX)
            try:
                self.socket.connect(place)
            except OSError:
                self.socket.close()
                raise
        elif kind == "tcp" and host and port.isascii() and port.isdigit() and int(port) < 65536:
            self.socket = socket.create_connection((host.strip("[]"), int(port)))
            self.socket.setsockopt(socket.IPPROTO_TCP, socket.TCP_NODELAY, True)
        else:
            raise ValueError(f"no address: {address}")
        self.socket.settimeout(seconds)
        self.answers = self.socket.makefile("rb")

    def send(self, command):
        """Sends a command, and waits for nothing. Who sends much reads meanwhile, as a program here does with a thread."""
        self.socket.sendall(json.dumps(command).encode() + b"\n")

    def receive(self):
        """The next answer."""
        line = self.answers.readline()
        if not line.endswith(b"\n"):
            raise ConnectionError("the server ended the connection")
        return json.loads(line)

    def call(self, command):
        """Sends a command, and gives its answer."""
        self.send(command)
        return self.receive()

    def end(self):
        """Says that no more commands come. The answers that are still due can be read."""
        self.socket.shutdown(socket.SHUT_WR)

    def __iter__(self):
        """The answers up to the end of the connection."""
        return map(json.loads, self.answers)

    def __enter__(self):
        return self

    def __exit__(self, *_):
        self.answers.close()
        self.socket.close()


def pass_on(client, all_sent):
    """Sends the input as it comes, and then the end. A connection that fails is told where the answers are read."""
    try:
        while piece := os.read(0, 65536):
            client.socket.sendall(piece)
        all_sent.set()
        client.end()
    except OSError:
        pass


def write_out(piece):
    """Writes all of it to the output. Returns what went wrong, or None."""
    try:
        while piece:
            piece = piece[os.write(1, piece) :]
    except OSError as why:
        return f"the output: {why.strerror}"
    return None


def print_answers(client):
    """Prints the answers as they come, up to the end of the connection. Returns what went wrong, or None."""
    try:
        while piece := client.socket.recv(65536):
            if why := write_out(piece):
                return why
    except OSError as why:
        return f"the connection: {why.strerror}"
    return None


def talk(address):
    """Sends the input and prints the answers. Returns the status, and what went wrong."""
    try:
        client = Client(address)
    except ValueError as why:
        return 2, f"{why} (unix:PATH or tcp:HOST:PORT)"
    except OSError as why:
        return 1, f"{address}: {why.strerror or why}"
    all_sent = threading.Event()
    with client:
        threading.Thread(target=pass_on, args=(client, all_sent), daemon=True).start()
        why = print_answers(client)
    if not why and not all_sent.is_set():
        why = "the server ended the connection"
    return 1 if why else 0, why


def main():
    signal.signal(signal.SIGINT, signal.SIG_DFL)
    words = sys.argv[1:]
    if words in (["-h"], ["--help"]):
        print(HELP)
        return 0
    status, why = talk(*words) if len(words) == 1 else (2, HELP)
    if why:
        print(why if why == HELP else f"client.py: {why}", file=sys.stderr)
    return status


if __name__ == "__main__":
    sys.exit(main())
