"""Histories of lines that several sessions share on the tables of one schema, and journals that are run again on the built server."""
import collections
import json
import subprocess
import sys
import tempfile

from draw.every_kind import seven_indices
from parts.built_program import built_program
from reference.plain_machine import WRITES, Machine

SCHEMA = seven_indices("p") + seven_indices("o") + """
[[table]]
name = "t"
max = 5
column = [{name = "k", cell = "int"}, {name = "b", cell = "bool"}]
index = [{name = "s", kind = "sequenced"}, {name = "b", kind = "ranked", key = ["-b", "k"]}]
[[table]]
name = "w"
column = [{name = "k", cell = "text"}, {name = "b", cell = "bool"}]
index = [{name = "k", kind = "hashed", unique = true, key = ["k"]}, {name = "v", kind = "random"}]
"""

Told = collections.namedtuple("Told", "line command answer at")


class Wrong(Exception):
    """Something that is not as it has to be."""


def tell(line, answer):
    said = json.loads(answer)
    return Told(line, json.loads(line), answer, said.get("at"))


def is_write(told):
    """Whether it is an accepted write."""
    said = json.loads(told.answer)
    return told.command["op"] in WRITES and (said.get("ok", False) or said.get("err") == "erased")


def met(machine, queue):
    """Takes out of the queue what is answered so now, up to a write or to what is not."""
    while queue and not is_write(queue[0]) and machine.answer(queue[0].line)[0] == queue[0].answer:
        queue.popleft()


def replay(machine, table, told):
    """Carries the writes of one table out in the order of their numbers; fails where an answer fits nowhere."""
    queues = [collections.deque(it for it in lines if it.command["t"] == table) for lines in told]
    order = sorted((it.at, session, it) for session, lines in enumerate(queues) for it in lines if is_write(it))
    for at, session, write in order:
        for queue in queues:
            met(machine, queue)
        answer, change = machine.answer(write.line)
        if not queues[session] or queues[session].popleft() is not write or answer != write.answer or at != machine.tables[table].writes + 1:
            raise Wrong(f"{write.line[:200]!r} was answered {write.answer!r}, and not {answer!r}, or is not next")
        machine.keep(change)
    for queue in queues:
        met(machine, queue)
        if queue:
            raise Wrong(f"{queue[0].line[:200]!r} was answered {queue[0].answer[:200]!r}, which fits nowhere")
    return [(session, write) for _, session, write in order]


def views(machine):
    """A line for each view, and one for each size."""
    for table in machine.tables.values():
        yield b'{"op":"size","t":"%s"}' % table.name.encode()
        for index in table.indices:
            yield b'{"op":"list","t":"%s","i":"%s"}' % (table.name.encode(), index.name.encode())


def run_again(schema, text, lines, program=None):
    """What the server, or this program, answers to the text and to these lines after it."""
    with tempfile.TemporaryDirectory() as room:
        for name, content in (("schema", schema.encode()), ("journals", text + b"".join(it + b"\n" for it in lines))):
            with open(f"{room}/{name}", "wb") as file:
                file.write(content)
        ran = subprocess.run([program or built_program(), "run", "--schema", f"{room}/schema", "--commands", f"{room}/journals"], capture_output=True, timeout=120)
    if ran.returncode or ran.stderr:
        raise Wrong(f"the server ended with status {ran.returncode} and {ran.stderr!r}")
    return ran.stdout.split(b"\n")[:-1]


def self_test():
    """Fails where a planted wrong history is judged right."""
    line = lambda text: text.encode()
    addition, view = line('{"op":"add_index","t":"w","i":"s","kind":"sequenced"}'), line('{"op":"list","t":"w","i":"s"}')
    insert, size = line('{"op":"insert","t":"w","r":{"k":"a","b":true}}'), line('{"op":"size","t":"w"}')
    right = [[tell(insert, b'{"at":1,"h":"0:1","ok":true}'), tell(size, b'{"at":1,"n":1,"ok":true}')], [tell(size, b'{"at":0,"n":0,"ok":true}')]]
    added = [tell(addition, b'{"at":1,"ok":true}')]
    replay(Machine(SCHEMA), "w", right)
    replay(Machine(SCHEMA), "w", [added, [tell(view, b'{"err":"index"}'), tell(view, b'{"at":1,"ok":true,"rs":[]}')]])
    wrong = {
        "a read of the session's own past": [[right[0][0], right[1][0]], []],
        "another handle": [[tell(insert, b'{"at":1,"h":"0:2","ok":true}')], []],
        "a number that is left out": [[tell(insert, b'{"at":2,"h":"0:1","ok":true}')], []],
        "a number that stands twice": [[right[0][0]], [right[0][0]]],
        "a read of what nobody wrote": [[right[0][0]], [tell(size, b'{"at":1,"n":2,"ok":true}')]],
        "a refusal that nothing explains": [[tell(insert, b'{"err":"full"}')], []],
        "an index before it is added": [added, [tell(view, b'{"at":0,"ok":true,"rs":[]}')]],
        "an index that is gone before it is dropped": [added, [tell(view, b'{"at":1,"ok":true,"rs":[]}'), tell(view, b'{"err":"index"}')]],
    }
    for name, told in wrong.items():
        try:
            replay(Machine(SCHEMA), "w", told)
        except Wrong:
            continue
        sys.exit(f"self-test: {name}: this planted history is judged right")
    print(f"self-test: {len(wrong)} planted histories, each judged wrong")
