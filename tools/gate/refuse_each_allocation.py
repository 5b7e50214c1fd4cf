"""Runs the built program with its Nth allocation refused, for every N, and judges each outcome.

python3 refuse_each_allocation.py PROGRAM REFUSING_MALLOC STORED_INPUT STORED_OUTPUT ROOM

The stored run and some more lines go to the built-in table, the other ops to a table with eight indices, and lines that add and drop indices to one
with two: indices of every kind, unique and not, with and without records, up to eight and down to one, and such as clash. Each of these lines stands
twice, and where one allocation is refused at most one line has the memory line: so the same line is seen to succeed.
A run of lines ends in one of two ways: status 1 with the text `memory` and no answer, or status 0 with one answer to each
line: the memory line, and then the line changed nothing, or what the plain machine answers. A run with wrong words or
files ends with its own status and text, or with status 1 and `memory`.
"""
import collections
import os
import subprocess
import sys

from reference.plain_machine import BUILT_IN, MEMORY, Machine, judge

MORE = b"""
{"op":"insert","t":"f","r":{"id":7,"g":"\\u00e9\\n"}}
{"op":"find","t":"f","i":"u","k":[7]}
{"op":"find","t":"f","i":"u","k":[8]}
[1
{"op":"insert","t":"f"}
{"op":"list","t":"p","i":"q"}
{"op":"list","t":"f","i":"r"}
{"op":"find","t":"f","i":"q","k":[1]}
{"op":"insert","t":"f","r":{"id":1.5,"g":"a"}}
{"op":"find","t":"f","i":"u","k":["x"]}
"""

EIGHT = """
[[table]]
name = "p"
column = [{name = "id", cell = "int"}, {name = "g", cell = "text"}, {name = "n", cell = "int"}]
index = [
  {name = "q", kind = "sequenced"},
  {name = "v", kind = "random"},
  {name = "u", kind = "ordered", unique = true, key = ["id"]},
  {name = "r", kind = "ranked", key = ["n"]},
  {name = "c", kind = "ordered", key = ["g", "-n"]},
  {name = "h", kind = "hashed", key = ["g"]},
  {name = "x", kind = "hashed", unique = true, key = ["g", "n"]},
  {name = "w", kind = "sequenced"},
]
"""

# Each record goes in a second time, so that one whose first insertion was refused is seen to succeed.
INTO_EIGHT = b"".join(
    b'{"op":"insert","t":"p","r":{"id":%d,"g":"%s","n":%d}%s}\n' % (it // 2, b"ab"[it % 4 // 2 :][:1], it // 4, b',"i":"v","p":0' if it % 3 else b"")
    for it in range(10)
) + b"".join(b'{"op":"list","t":"p","i":"%c"}\n' % it for it in b"qvurchxw") + b"""\
{"op":"find","t":"p","i":"h","k":["b"]}
{"op":"find","t":"p","i":"x","k":["a",1]}
{"op":"count","t":"p","i":"c","k":["a"]}
{"op":"size","t":"p"}
"""

# Each stands twice for the same reason; the second of an accepted erasure finds no record.
CHANGES = b"".join(it + b"\n" + it + b"\n" for it in b"""\
{"op":"replace","t":"p","h":"2:3","r":{"id":2,"g":"b","n":7}}
{"op":"replace","t":"p","h":"2:3","r":{"id":1,"g":"b","n":7}}
{"op":"replace","t":"p","h":"2:9","r":{"id":2,"g":"b","n":7}}
{"op":"replace","t":"p","h":"2:3","r":{"id":2,"g":"b"}}
{"op":"modify","t":"p","h":"2:3","set":{"g":"z"},"add":{"n":-1}}
{"op":"modify","t":"p","h":"2:3","set":{"id":1,"g":"y"},"rollback":true}
{"op":"modify","t":"p","h":"2:3","add":{"n":9223372036854775807}}
{"op":"modify_key","t":"p","i":"c","h":"2:3","k":["b",7]}
{"op":"move","t":"p","i":"v","h":"0:1","p":4}
{"op":"move","t":"p","i":"w","h":"1:2","p":9}
{"op":"move","t":"p","i":"w","h":"1","p":0}
{"op":"reverse","t":"p","i":"q"}
{"op":"reverse","t":"p","i":"u"}
{"op":"rearrange","t":"p","i":"w","hs":["4:5","0:1","3:4","1:2","2:3"]}
{"op":"rearrange","t":"p","i":"v","hs":["4:5","0:1","3:4","1:2","1:2"]}
{"op":"sort","t":"p","i":"v","by":["-n","id"]}
{"op":"sort","t":"p","i":"q","by":["zz"]}
{"op":"erase","t":"p","h":"1:2"}
{"op":"erase","t":"p","h":"0:1","i":"w"}
{"op":"erase","t":"p","h":"3:4","i":"h"}
{"op":"insert","t":"p","r":{"id":7,"g":"c","n":7}}
{"op":"modify_key","t":"p","i":"u","h":"0:22","k":[4]}
{"op":"erase_key","t":"p","i":"c","k":["b",7]}
{"op":"erase_key","t":"p","i":"x","k":["b"]}
{"op":"erase_key","t":"p","i":"h","k":["b"]}""".split(b"\n"))

READS = b"""\
{"op":"get","t":"p","h":"4:5"}
{"op":"get","t":"p","h":"1:2"}
{"op":"lower","t":"p","i":"c","k":["a",1]}
{"op":"upper","t":"p","i":"u","k":[9]}
{"op":"range","t":"p","i":"c","ge":["a"],"lt":["b",1]}
{"op":"range","t":"p","i":"u"}
{"op":"nth","t":"p","i":"r","n":0}
{"op":"nth","t":"p","i":"v","n":9}
{"op":"rank","t":"p","i":"r","h":"4:5"}
{"op":"rank","t":"p","i":"r","h":null}
{"op":"place","t":"p","i":"v","h":"4:5"}
{"op":"find_rank","t":"p","i":"r","k":[2]}
{"op":"lower_rank","t":"p","i":"r","k":[2]}
{"op":"upper_rank","t":"p","i":"r","k":[2]}
{"op":"next","t":"p","i":"w","h":"4:5"}
{"op":"prev","t":"p","i":"c","h":null}
{"op":"next","t":"p","i":"x","h":null}
{"op":"lower","t":"p","i":"h","k":["a"]}
"""

CHANGE_EIGHT = INTO_EIGHT + READS + CHANGES + READS + b"".join(
    b'{"op":"list","t":"p","i":"%c"}\n' % it for it in b"qvurchxw"
) + b"""\
{"op":"clear","t":"p"}
{"op":"clear","t":"p"}
{"op":"insert","t":"p","r":{"id":1,"g":"a","n":1}}
{"op":"insert","t":"p","r":{"id":1,"g":"a","n":1}}
{"op":"list","t":"p","i":"x"}
"""

TWO = """
[[table]]
name = "p"
column = [{name = "id", cell = "int"}, {name = "g", cell = "text"}, {name = "n", cell = "int"}]
index = [{name = "q", kind = "sequenced"}, {name = "u", kind = "ordered", unique = true, key = ["id"]}]
"""


def inserted(id, g, n):
    return b'{"op":"insert","t":"p","r":{"id":%d,"g":"%s","n":%d}}\n' % (id, g, n) * 2


def added(name, definition):
    return b'{"op":"add_index","t":"p","i":"%s",%s}\n' % (name, definition) * 2


def dropped(name):
    return b'{"op":"drop_index","t":"p","i":"%s"}\n' % name * 2


def listed(names):
    return b"".join(b'{"op":"list","t":"p","i":"%s"}\n' % it for it in names)


# What an index is that is added: of each kind that has no key, and of each that has one, unique and not.
DEFINITIONS = [b'"kind":"sequenced"', b'"kind":"random"'] + [
    b'"kind":"%s","key":["g","n"]%s' % (kind, unique) for kind in (b"ordered", b"ranked", b"hashed") for unique in (b"", b',"unique":true')
]
CLASHING = [b'"kind":"%s","key":["g"],"unique":true' % it for it in (b"ordered", b"ranked", b"hashed")]
NAMES = [b"k%d" % it for it in range(6)]
THREE = inserted(1, b"a", 5) + inserted(2, b"b", 3) + inserted(3, b"b", 9)
COME_AND_GO = b"".join(added(b"k", it) + listed([b"k"]) + dropped(b"k") for it in DEFINITIONS)
UP_TO_EIGHT = b"".join(map(added, NAMES, DEFINITIONS[2:])) + added(b"more", DEFINITIONS[0])

CHANGE_INDICES = (
    b"".join(added(b"k", it) + dropped(b"k") for it in DEFINITIONS[-2:])
    + THREE
    + COME_AND_GO
    + b"".join(added(b"k", it) for it in CLASHING)
    + UP_TO_EIGHT
    + inserted(4, b"c", 1)
    + listed([b"q", b"u", *NAMES])
    + b"".join(map(dropped, [b"q", *NAMES, b"u"]))
    + inserted(5, b"c", 2)
    + b'{"op":"clear","t":"p"}\n' * 2
    + b"".join(map(added, NAMES, DEFINITIONS))
    + inserted(6, b"c", 3)
    + listed([b"u", *NAMES])
)

Outcome = collections.namedtuple("Outcome", "status said complained")


class Program:
    """The built program, on words and an input, with one allocation refused."""

    def __init__(self, path, library, room, words=(), given=b""):
        self.path, self.library, self.room, self.words, self.given = path, library, room, words, given
        self.mark = f"{room}/refused"

    def refusing(self, refuse_at, on):
        """The environment of a run."""
        if os.path.exists(self.mark):
            os.remove(self.mark)
        names = {"LD_PRELOAD": self.library, "REFUSE_AT": str(refuse_at), "REFUSED_FILE": self.mark}
        return names | {"REFUSE_ON": "1"} if on else names

    def run(self, refuse_at, on=False):
        """Returns the outcome, and whether that many allocations were asked for."""
        how = {"env": self.refusing(refuse_at, on), "cwd": self.room, "timeout": 60}
        ran = subprocess.run([self.path, *self.words], input=self.given, capture_output=True, **how)
        return Outcome(ran.returncode, ran.stdout, ran.stderr), os.path.exists(self.mark)

    def outcomes(self, on=False):
        """Yields each outcome with an allocation refused, and then the one where none was."""
        at, was_refused = 0, True
        while was_refused:
            at += 1
            outcome, was_refused = self.run(at, on)
            yield at, was_refused, outcome


OUT_OF_MEMORY = Outcome(1, b"", b"memory\n")


def judge_lines(text, outcome, was_refused, schema=BUILT_IN):
    """Returns what is wrong with the outcome of a run over the lines of the text, or None."""
    if was_refused and outcome == OUT_OF_MEMORY:
        return None
    if outcome.status != 0 or outcome.complained:
        return f"status {outcome.status} with {outcome.complained[:200]!r} and {len(outcome.said)} bytes of answers"
    if not was_refused and MEMORY in outcome.said.split(b"\n"):
        return "a memory line where no allocation was refused"
    return judge(text, outcome.said, schema)


def judge_indices(outcome, was_refused, on):
    """The same of the lines that add and drop indices, of which one allocation refuses at most one."""
    lines = outcome.said.split(b"\n")
    if was_refused and not on and lines.count(MEMORY) > 1:
        return f"line {len(lines) - 1 - lines[::-1].index(MEMORY)} is refused memory once more"
    return judge_lines(CHANGE_INDICES, outcome, was_refused, TWO)


def planted(text, outcome):
    """Wrong outcomes, each made from a right one in which a line was refused."""
    lines = outcome.said.split(b"\n")[:-1]
    at = lines.index(MEMORY)
    joined = lambda them: outcome._replace(said=b"".join(it + b"\n" for it in them))
    machine = Machine()
    for line in text.split(b"\n")[:at]:
        machine.keep(machine.answer(line)[1])
    yield "an answer is missing", joined(lines[:-1])
    yield "an answer stands twice", joined([*lines, lines[-1]])
    yield "another fault stands for the memory line", joined([*lines[:at], b'{"err":"json"}', *lines[at + 1 :]])
    yield "the refused write was carried out", joined([*lines[:at], MEMORY, *unrefused(text)[at + 1 :]])
    yield "another number of the write", joined([it.replace(b'"at":2', b'"at":3') for it in lines])
    yield "the last newline is missing", outcome._replace(said=outcome.said[:-1])
    yield "a status of 1 behind answers", outcome._replace(status=1, complained=b"memory\n")
    yield "another status", Outcome(2, b"", b"memory\n")
    yield "a fault with status 0", outcome._replace(complained=b"memory\n")
    yield "a signal", Outcome(-11, b"", b"")


def planted_indices():
    """Outcomes of the lines that add and drop indices, with answers put in: the first right, the others wrong."""
    lines, right = CHANGE_INDICES.split(b"\n"), unrefused(CHANGE_INDICES, TWO)
    first = lambda op: next(at for at, it in enumerate(lines) if op in it)
    refused = lambda *places: Outcome(0, b"".join((MEMORY if at in places else it) + b"\n" for at, it in enumerate(right)), b"")
    at = first(b'"list"')
    yield "a list is refused", refused(at)
    yield "a refused index is there", refused(first(b'"add_index"'))
    yield "a refused index is gone", refused(first(b'"drop_index"'))
    yield "two lines are refused", refused(at, at + 5)
    yield "another pair clashes", refused(at)._replace(said=refused(at).said.replace(b'"h2":"2:', b'"h2":"0:', 1))
    yield "the clash raises the write number", refused(at)._replace(said=refused(at).said.replace(b',"by":"k","err":"clash"', b'9,"by":"k","err":"clash"', 1))


def unrefused(text, schema=BUILT_IN):
    """The plain machine's answers, none refused."""
    machine, answers = Machine(schema), []
    for line in text.split(b"\n")[:-1]:
        answer, record = machine.answer(line)
        machine.keep(record)
        answers.append(answer)
    return answers


def self_test(text, program):
    """Fails where a planted wrong outcome is judged right."""
    begins = lambda it: it.said.startswith(MEMORY + b"\n")
    refused = next((it for _, was, it in program.outcomes() if was and begins(it)), None)
    if refused is None:
        sys.exit("self-test: no run has the memory line first")
    found = 0
    for name, wrong in planted(text, refused):
        if wrong == refused or judge_lines(text, wrong, True) is None:
            sys.exit(f"self-test: {name}: this planted outcome is judged right")
        found += 1
    (_, right), *wrongs = planted_indices()
    for name, wrong in wrongs:
        if wrong == right or judge_indices(right, True, False) or judge_indices(wrong, True, False) is None:
            sys.exit(f"self-test: {name}: this planted outcome is judged right")
        found += 1
    print(f"self-test: {found} planted outcomes, each judged wrong")


def cases_of(path, library, room, text, on):
    """Yields the words and input of each sweep, with what judges an outcome."""
    files = {"lines": CHANGE_EIGHT, "schema": EIGHT.encode(), "indices": CHANGE_INDICES, "two": TWO.encode(), "broken": b"a = "}
    for name, content in files.items():
        with open(f"{room}/{name}", "wb") as file:
            file.write(content)
    program = lambda words, given=b"": Program(path, library, room, words, given)
    yield program([], text), lambda outcome, was_refused: judge_lines(text, outcome, was_refused)
    change_eight = lambda outcome, was_refused: judge_lines(CHANGE_EIGHT, outcome, was_refused, EIGHT)
    yield program(["run", "--schema", "schema", "--commands", "lines"]), change_eight
    yield program(["run", "--schema", "two", "--commands", "indices"]), lambda outcome, was_refused: judge_indices(outcome, was_refused, on)
    for words in (["run", "--schema", "broken"], ["run", "--commands", "absent"], ["fly"], ["run", "--help"]):
        refuser = program(words)
        yield refuser, judge_fault(refuser.run(0)[0])


def judge_fault(plain):
    """Returns what judges an outcome of a run that ends with this one where no allocation is refused."""
    if plain.status == 0 or plain.said or not plain.complained:
        sys.exit(f"a fault is told as {plain}")
    return lambda outcome, was_refused: None if outcome == plain or was_refused and outcome == OUT_OF_MEMORY else f"{outcome}"


def sweep(program, judged, on):
    """Returns how many allocations were refused and how many outcomes were wrong."""
    refused = wrong = 0
    for at, was_refused, outcome in program.outcomes(on):
        why = judged(outcome, was_refused)
        refused, wrong = refused + was_refused, wrong + (why is not None)
        if why and wrong <= 5:
            print(f"{' '.join(program.words)}: allocation {at} {'and all later ones ' * on}refused: {why}")
    words = " ".join(map(os.path.basename, program.words)) or "no words"
    print(f"{words}: {refused} allocations refused{', each with all later ones' * on}", flush=True)
    return refused, wrong


def main():
    path, library, stored_input, stored_output, room = sys.argv[1:]
    stored, wanted = (open(it, "rb").read() for it in (stored_input, stored_output))
    text = stored + MORE.lstrip(b"\n")
    if Program(path, library, room, given=stored).run(0)[0] != Outcome(0, wanted, b""):
        sys.exit("the stored run gives another output")
    self_test(text, Program(path, library, room, given=text))
    swept = [sweep(*case, on) for on in (False, True) for case in cases_of(path, library, room, text, on)]
    refused, wrong = (sum(it) for it in zip(*swept))
    print(f"{refused} allocations refused: {refused + len(swept)} runs, {wrong} wrong")
    sys.exit(1 if wrong else 0)


if __name__ == "__main__":
    main()
