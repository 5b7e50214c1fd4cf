"""What the files of a kept table say: digests, the lines of a log, what a start makes of a log, marks, and the ends of a state.

It is said by the rules of the files alone, beside the crate `checked_log` and the program `table_keeper`, and the tools that try them compare with it.
"""
import collections
import re
import struct
import tomllib

TEXTS_OF = "crates/checked_log/src/tests.rt"
MARK_BYTES, SLOT_BYTES = 1024, 512
MASK = 2**64 - 1
NUMBER = rb"(0|[1-9]\d{0,19})"
LINE = re.compile(rb'\{"c":"([0-9a-f]{16})",("d":%s,"n":%s,"p":"([0-9a-f]{16})","w":([^\x00-\x1f]*)\})' % (NUMBER, NUMBER))
SLOT = re.compile(rb'\{"c":"([0-9a-f]{16})",("e":"([0-9a-f]{16})","n":%s\})\n' % NUMBER)
STATE_END = re.compile(rb'\{"c":"([0-9a-f]{16})"\}\n')
STATE_START = re.compile(rb'(\{"cells":\[[^\n]*\],"e":"([0-9a-f]{16})"\}\n)')

# A write's number with the digest of its line.
Link = collections.namedtuple("Link", "number digest")
Line = collections.namedtuple("Line", "digest durable number before write")
# What a start makes of a log: its lines, the last of them, where they end, what is durable, and what stands behind: so many bytes, and the
# numbers of the well-formed lines among them.
Recovered = collections.namedtuple("Recovered", "lines last end durable torn behind")


class Hurt(Exception):
    """Durable writes are not there: from this number to that."""


class Strange(Exception):
    """The mark is of another log."""


def digest(text):
    """The digest of a text: 16 hexadecimal digits."""
    found = 0x9E3779B97F4A7C15 ^ len(text)
    for word in struct.unpack(f"<{len(text) // 8 + 1}Q", text + bytes(8 - len(text) % 8)):
        found = (found ^ word) * 0xD6E8FEB86659FD93 & MASK
        found ^= found >> 32
    return b"%016x" % found


def signed(rest):
    """A line whose digest is of all behind it."""
    found = digest(rest)
    return b'{"c":"%s",%s' % (found, rest), found


def line_text(write, link, durable):
    """The line of a write behind this link, with its newline, and the link of it."""
    text, found = signed(b'"d":%d,"n":%d,"p":"%s","w":%s}' % (durable, link.number + 1, link.digest, write))
    return text + b"\n", Link(link.number + 1, found)


def read_line(text):
    """What a line without its newline says, or None where it is not well formed."""
    found = LINE.fullmatch(text)
    if not found or digest(found[2]) != found[1]:
        return None
    line = Line(found[1], int(found[3]), int(found[4]), found[5], found[6])
    return line if line.durable < line.number <= MASK else None


def log_pieces(pieces, base, durable=None):
    """The log of writes that come in pieces, behind a link: each write was known to be durable before the next was made, or so many were."""
    for writes in pieces:
        texts = []
        for write in writes:
            text, base = line_text(write.rstrip(b"\n"), base, base.number if durable is None else min(durable, base.number))
            texts.append(text)
        yield b"".join(texts)


def log_text(writes, base, durable=None):
    return b"".join(log_pieces([writes], base, durable))


def last_link(text, base):
    """The link of the last line of a whole log."""
    return recovered(text, base).last


def recovered(text, base, mark=None):
    """What a start makes of a log behind a link, with this mark or none."""
    lines, last, end, is_whole, behind, durable = [], base, 0, True, [], max(base.number, mark.number if mark else 0)
    at = 0
    while (newline := text.find(b"\n", at)) >= 0:
        line, at = read_line(text[at:newline]), newline + 1
        durable = max(durable, line.durable) if line else durable
        is_whole = is_whole and line is not None and (line.number, line.before) == (last.number + 1, last.digest)
        if is_whole:
            lines.append(line)
            last, end = Link(line.number, line.digest), at
        elif line:
            behind.append(line.number)
    if last.number < durable:
        raise Hurt(last.number + 1, durable)
    if mark and base.number <= mark.number and mark != ([base] + [Link(it.number, it.digest) for it in lines])[mark.number - base.number]:
        raise Strange(mark.number)
    return Recovered(lines, last, end, durable, len(text) - end, behind)


def writes_of(text, base):
    """The plain journal of a log that is whole to its last byte, or None."""
    try:
        found = recovered(text, base)
    except Hurt:
        return None
    return None if found.torn else b"".join(it.write + b"\n" for it in found.lines)


def torn_text(path, found):
    """What a start says of the bytes that it cuts off."""
    lines = f", with {len(found.behind)} lines from write {found.behind[0]} on" if found.behind else ""
    return f"torn: {path}: {found.torn} bytes were cut off{lines}\n"


# Marks.


def slot_text(link):
    """What a slot of a mark begins with."""
    return signed(b'"e":"%s","n":%d}' % (link.digest, link.number))[0] + b"\n"


def mark_text(*links):
    """A mark whose slots say these links, or nothing."""
    slots = [slot_text(it) if it else b"" for it in links]
    return b"".join(it.ljust(SLOT_BYTES, b"\0") for it in [*slots, b"", b""][:2])


def read_slot(slot):
    found = SLOT.match(slot)
    return Link(int(found[4]), found[3]) if found and digest(found[2]) == found[1] and int(found[4]) <= MASK else None


def read_marks(text):
    """The later of the marks that the two slots say, or None, and where the slot begins that is written next."""
    first, second = (read_slot(text[at : at + SLOT_BYTES]) for at in (0, SLOT_BYTES))
    if first and second and first.number < second.number or second and not first:
        return second, 0
    return first, SLOT_BYTES if first else 0


# States.


def state_text(cells, last, body):
    """A state of columns of these types (as JSON) behind a write's digest, whose lines between the first and the last are the body."""
    text = b'{"cells":%s,"e":"%s"}\n%s' % (cells, last, body)
    return text + b'{"c":"%s"}\n' % digest(text)


def read_state(text):
    """The digest of a state's last write, and the lines between its first and its last, or None where its own digest does not fit."""
    front, end = text[:-25], text[-25:]
    found, start = STATE_END.fullmatch(end), STATE_START.match(front)
    if not found or not start or digest(front) != found[1]:
        return None
    return start[2], front[len(start[1]) :]


# Declarations.


def shown(value):
    """A value as a declaration prints it."""
    if isinstance(value, list):
        return f"[{', '.join(map(shown, value))}]"
    return str(value).lower() if isinstance(value, bool) else str(value) if isinstance(value, int) else f'"{value}"'


def rows(it):
    return "".join(f"{name} = {shown(value)}\n" for name, value in sorted(it.items()))


def declaration_text(table):
    """A table of a schema file, with what it leaves out, as the keeper prints it."""
    head = {"max": 2**32 - 1, **{name: value for name, value in table.items() if name not in ("column", "index")}}
    parts = ["[[table]]\n" + rows(head)]
    parts += ["[[table.column]]\n" + rows({"null": False, **it}) for it in table["column"]]
    parts += ["[[table.index]]\n" + rows({"unique": False, **it}) for it in table["index"]]
    return "\n".join(parts)


def bases_of(schema):
    """By the name of each table of a schema's text, the link behind which its first log begins."""
    return {it["name"]: Link(0, digest(declaration_text(it).encode())) for it in tomllib.loads(schema)["table"]}


# The texts of the crate's tests.


def check_texts(top):
    """Compares this module with each line, mark and digest that stands in the tests of the crate."""
    with open(f"{top}/{TEXTS_OF}", encoding="utf-8") as file:
        tests = file.read()
    spelled = lambda it: it.encode().decode("unicode_escape").encode("latin-1")
    texts = [it for it in map(spelled, re.findall(r'b"((?:[^"\\]|\\.)*)"', tests)) if it.startswith(b'{"c":')]
    digests = [(spelled(text), value.replace("_", "").encode()) for text, value in re.findall(r'\("([^"]*)", 0x([0-9a-f_]+)\)', tests)]
    read = [read_line(it[:-1]) or read_slot(it) for it in texts]
    again = [line_text(it.write, Link(it.number - 1, it.before), it.durable)[0] if isinstance(it, Line) else slot_text(it) for it in read]
    return again == texts and all(digest(text) == value for text, value in digests) and len(texts) >= 3 and len(digests) >= 6
