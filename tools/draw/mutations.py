"""Changes lines of commands into such as a careless or hostile client may send."""
import json
import re

from reference.plain_machine import KINDS, MAX_LINE, OPS

NUMBERS = [
    b"-0", b"0.0", b"-0.0", b"1.0", b"1e0", b"1e5", b"5e-324", b"1e-999", b"1e308", b"1e309", b"-1e309", b"1e999", b"-1e999", b"1E400",
    b"1.7976931348623157e308", b"1.7976931348623159e308", b"100000000000000000000e-20", b"0e99999999999999999999",
    b"0e-99999999999999999999", b"1e99999999999999999999", b"1e-99999999999999999999", b"9223372036854775807", b"9223372036854775808",
    b"-9223372036854775808", b"-9223372036854775809", b"18446744073709551615", b"18446744073709551616", b"-18446744073709551616",
    b"1" * 400, b"-" + b"9" * 5000, b"0." + b"3" * 400, b"4294967295", b"4294967296", b"0", b"7", b"01", b"-01", b"00", b"-", b"+1", b".5",
    b"1.", b"-.5", b"1e", b"1e+", b"1.e5", b"1e1.5", b"0x10", b"1_000", b"1,000", b"Infinity", b"-Infinity", b"NaN", b"nan", b"1f", b"--1",
    b"\xd9\xa3",
]  # fmt: skip

TEXTS = [
    b'"\\ud800"', b'"\\udfff"', b'"\\ud83d\\ude00"', b'"\\uD83D\\uDE00"', b'"\\ude00\\ud83d"', b'"\\ud83d\\u0041"',
    b'"\\ud83d\\ud83d\\ude00"', b'"\\ud83dx"', b'"\\ud83d\\n"', b'"\\ud83d\\\\"', b'"\\ud83d\\u"', b'"\\ud83d\\ude0"', b'"\\u12"',
    b'"\\uzzzz"', b'"\\u+041"', b'"\\u 041"', b'"\\u00_1"', b'"\\U0041"', b'"\\x41"', b'"\\"', b'"\\a"', b"\"\\'\"", b'"\\0"', b'"\\u0000"',
    b'"\\u001f"', b'"\\u007f"', b'"\\ufffe\\uffff"', b'"\\u2028"', b'"\\b\\f\\n\\r\\t\\"\\\\\\/"', b'"/"', b'"\x00"', b'"\x01"', b'"\t"',
    b'"\r"', b'"\x1f"', b'"\x7f"', b'"\xc2\x80"', b'"\xef\xbb\xbf"', b'"\xef\xbf\xbf"', b'"\xe2\x80\xa8"', b'"\xf0\x9f\x98\x80"',
    b'"\xf4\x8f\xbf\xbf"', b'"\xf4\x90\x80\x80"', b'"\xed\x9f\xbf"', b'"\xed\xa0\x80"', b'"\xed\xb0\x80"', b'"\xee\x80\x80"', b'"\xc0\x80"',
    b'"\xc1\xbf"', b'"\xe0\x80\x80"', b'"\xe0\x9f\xbf"', b'"\xf0\x8f\xbf\xbf"', b'"\xf8\x88\x80\x80\x80"', b'"\xff"', b'"\xfe"', b'"\x80"',
    b'"\xc3"', b'"\xe2\x82"', b'"\xf0\x9f\x98"', b'"\xc3("', b'"\xe2\x82("', b'"\xc3\xa9\xa9"', b"'a'", b'"abc', b'abc"', b'""', b'"a" "b"',
    b'"' + b"a" * 4096 + b'"', b'"' + b"a" * 4097 + b'"', b'"' + b"\xc3\xa9" * 2048 + b'"', b'"' + b"\xc3\xa9" * 2049 + b'"',
    b'"a' + b"\xc3\xa9" * 2048 + b'"', b'"' + b"\\u00e9" * 2048 + b'"', b'"' + b"\\u00e9" * 2049 + b'"', b'"0:1"', b'"1:2"', b'"00:1"',
    b'"0:01"', b'"+0:1"', b'"-0:1"', b'"0:"', b'":1"', b'"0:1:2"', b'" 0:1"', b'"0:1 "', b'"4294967296:1"', b'"0:18446744073709551616"',
    b'"0:1\\u0000"', b'"\xd9\xa3:1"',
]  # fmt: skip

OTHERS = [
    b"null", b"true", b"false", b"[]", b"{}", b"[null]", b"[[]]", b'{"a":1}', b"[1,2,3,4,5]", b'{"":null}', b'["a","a"]', b'["-id"]',
    b'["--id"]', b'["-"]', b"nul", b"nulll", b"Null", b"None", b"True", b"tru e", b"undefined", b"", b"[1,]", b"[,1]", b"[1 2]", b"{,}",
    b'{"a":1,}', b'{"a"}', b'{"a":}', b'{a:1}', b'{1:2}', b"{null:1}", b"[", b"]", b"{", b"}", b"/**/1", b"1//",
]  # fmt: skip

# How texts begin, and numbers.
QUOTE, DIGITS = [b'"'], [b"-", *(b"%d" % it for it in range(10))]

# How values stand in one another: how many levels an opening makes, it, its closing, and what is inmost.
NESTS = [
    (1, b"[", b"]", b""),
    (1, b"[", b"]", b"1"),
    (1, b'{"a":', b"}", b"1"),
    (2, b'[{"":', b"}]", b"null"),
    (1, b"[", b"", b""),
    (1, b'[1,"]",', b"]", b"2"),
]

# What stands before a line, or behind it.
ENDS = [b" ", b"\t", b"\r", b" \t\r ", b"\x0b", b"\x0c", b"\xc2\xa0", b"\xe2\x80\xa8", b"\xef\xbb\xbf", b"\x00", b"\xff"]
ENDS += [b"]", b"}", b",", b";", b"x", b"1", b" {}", b"{}", b"[]", b'"', b"//", b"#", b" null", b"\\n"]

GAPS = [b" ", b"\t", b"\r", b"  \t\t", b"\x0b", b"\x0c", b"\x00", b"\xc2\xa0", b"\xe3\x80\x80", b"\x1c", b"\x85"]

# What members may be called, and ops.
MEMBERS = "op t i r set add h hs p n k by ge gt le lt rollback unique kind key id g m zz u q Op".split()
WORDS = [*OPS, *KINDS, *MEMBERS, "op ", "", "\u00e9"]

# A tree of a line: an object is a tuple of pairs of a name and a tree, an array a list, and all else bytes.


def tree_of(value):
    if isinstance(value, dict):
        return tuple((json.dumps(name).encode(), tree_of(it)) for name, it in value.items())
    return [tree_of(it) for it in value] if isinstance(value, list) else json.dumps(value, ensure_ascii=False).encode()


def text_of(tree):
    if isinstance(tree, tuple):
        return b"{" + b",".join(name + b":" + text_of(it) for name, it in tree) + b"}"
    return b"[" + b",".join(map(text_of, tree)) + b"]" if isinstance(tree, list) else tree


def changed(tree, path, change):
    """The tree with a change of what stands at a path of places."""
    if not path:
        return change(tree)
    at, *rest = path
    if isinstance(tree, tuple):
        name, value = tree[at]
        return (*tree[:at], (name, changed(value, rest, change)), *tree[at + 1 :])
    return [*tree[:at], changed(tree[at], rest, change), *tree[at + 1 :]]


def paths(tree):
    """The places of all values below this one."""
    for at, it in enumerate(tree if isinstance(tree, (tuple, list)) else []):
        yield [at]
        yield from ([at, *rest] for rest in paths(it[1] if isinstance(tree, tuple) else it))


# Other types for a value.
WRAPS = [
    lambda it: [it],
    lambda it: ((b'"a"', it),),
    lambda it: json.dumps(text_of(it).decode()).encode(),
    lambda it: text_of(it).strip(b'"'),
]


class Mutator:
    """Draws changes of lines."""

    def __init__(self, draw):
        self.draw = draw

    def mutated(self, line):
        """The name of a change, and the line after it; some have another change behind that."""
        change = self.draw.choice(CHANGES)
        line = change(self, line)
        if self.draw.randrange(8) == 0:
            line = self.draw.choice(BYTE_CHANGES)(self, line)
        return change.__name__.replace("_", " "), line.replace(b"\n", b"\r")

    def deep(self, above):
        """Arrays or objects so deep that the whole is about as deep as may be, or much deeper."""
        depth = self.draw.choice((126, 127, 127, 128, 128, 129, 200, 20_000)) - above
        each, opens, closes, inner = self.draw.choice(NESTS)
        count = min(depth // each, 60_000 // len(opens + closes))
        return opens * count + inner + closes * count

    def value(self):
        """A value to put somewhere."""
        return self.draw.choice((self.draw.choice(NUMBERS), self.draw.choice(TEXTS), self.draw.choice(OTHERS), b"null"))

    def at_some_value(self, line, change):
        """Changes a value of a line."""
        tree = tree_of(json.loads(line))
        every = list(paths(tree))
        inner = [it for it in every if len(it) > 1]
        path = self.draw.choice(inner if inner and self.draw.randrange(3) else every)
        return text_of(changed(tree, path, lambda it: change(it, path)))

    def at_some_object(self, line, change):
        """Changes the members of an object of a line: mostly of the whole."""
        tree = tree_of(json.loads(line))
        objects = [it for it in paths(tree) if isinstance(found(tree, it), tuple) and found(tree, it)]
        path = self.draw.choice([[], *objects])
        return text_of(changed(tree, path, lambda it: change(list(it))))

    def at_some_cell(self, line, firsts, values):
        """Puts one of the values where one stands that begins so, in a row, in cells that are set, or in a key."""
        tree = tree_of(json.loads(line))
        cells = [it for it in paths(tree) if found(tree, it)[:1] in firsts and (len(it) > 1 or firsts != QUOTE)]
        if not cells:
            return self.at_some_value(line, lambda *_: self.draw.choice(values))
        return text_of(changed(tree, self.draw.choice(cells), lambda _: self.draw.choice(values)))

    # Changes of values.

    def a_number(self, line):
        return self.at_some_value(line, lambda *_: self.draw.choice(NUMBERS))

    def another_number(self, line):
        return self.at_some_cell(line, DIGITS, NUMBERS)

    def a_text(self, line):
        return self.at_some_value(line, lambda *_: self.draw.choice(TEXTS))

    def another_text(self, line):
        return self.at_some_cell(line, QUOTE, TEXTS)

    def null_somewhere(self, line):
        return self.at_some_value(line, lambda *_: b"null")

    def another_value(self, line):
        return self.at_some_value(line, lambda *_: self.draw.choice(OTHERS))

    def deep_nesting(self, line):
        if self.draw.randrange(4) == 0:
            return self.deep(0)
        return self.at_some_value(line, lambda _, path: self.deep(len(path)))

    def another_type(self, line):
        return self.at_some_value(line, lambda it, _: self.draw.choice(WRAPS)(it))

    def a_respelled_handle(self, line):
        """A handle of the line as it must not be spelled."""
        spellings = (b'"0%s:%s"', b'"%s:0%s"', b'"+%s:%s"', b'"%s:+%s"', b'" %s:%s"', b'"%s:%s "', b'"%s: %s"', b'"%s;%s"', b'"%s:%s:"', b'"%s.0:%s"')
        return re.sub(rb'"(\d+):(\d+)"', lambda it: self.draw.choice(spellings) % (it[1], it[2]), line)

    # Changes of members.

    def a_dropped_member(self, line):
        return self.at_some_object(line, lambda members: tuple(without(members, self.draw.randrange(len(members)))))

    def another_member(self, line):
        name = json.dumps(self.draw.choice(WORDS), ensure_ascii=self.draw.randrange(2) == 0).encode()
        return self.at_some_object(line, lambda members: tuple(inserted(members, self.draw.randint(0, len(members)), (name, self.value()))))

    def a_renamed_member(self, line):
        def change(members):
            at = self.draw.randrange(len(members))
            name = json.dumps(self.draw.choice(WORDS)).encode() if self.draw.randrange(4) else self.draw.choice(TEXTS + NUMBERS)
            return (*members[:at], (name, members[at][1]), *members[at + 1 :])

        return self.at_some_object(line, change)

    def a_repeated_member(self, line):
        """One more of some name, with another value or the same: before the member, which then overrides it, or behind it."""

        def change(members):
            at = self.draw.randrange(len(members))
            name, value = members[at]
            other = self.draw.choice((value, self.value(), self.draw.choice(TEXTS[:11]), self.draw.choice(TEXTS[:11]), self.deep(1)))
            spelling = self.draw.choice((name, escaped(name)))
            return tuple(inserted(members, self.draw.choice((0, at, at + 1, len(members))), (spelling, other)))

        return self.at_some_object(line, change)

    def members_in_another_order(self, line):
        return self.at_some_object(line, lambda members: tuple(self.draw.sample(members, len(members))))

    def swapped_values(self, line):
        def change(members):
            values = self.draw.sample([it for _, it in members], len(members))
            return tuple((name, value) for (name, _), value in zip(members, values))

        return self.at_some_object(line, change)

    def another_op(self, line):
        return text_of(tree_of(json.loads(line) | {"op": self.draw.choice(WORDS)}))

    def another_table(self, line):
        return text_of(tree_of(json.loads(line) | {"t": self.draw.choice(["p", "t", "n", "P", "", "f", "p\u0000"])}))

    # Changes of the bytes.

    def cut(self, line):
        """A front of the line: mostly such as ends in the middle of a character, where there is one."""
        places = [it.start() for it in re.finditer(rb"[\x80-\xbf]", line)]
        return line[: self.draw.choice(places)] if places and self.draw.randrange(2) else line[: self.draw.randrange(len(line) or 1)]

    def escapes(self, line):
        """The same line with characters of its texts as escapes."""
        return re.sub(rb"[a-z:0-9](?=[^\"]*\"[:,}\]])", lambda it: b"\\u%04x" % it[0][0] if self.draw.randrange(3) == 0 else it[0], line)

    def a_byte_more(self, line):
        at = self.draw.randint(0, len(line))
        return line[:at] + bytes([self.draw.randrange(256)]) + line[at:]

    def a_byte_less(self, line):
        at = self.draw.randrange(len(line) or 1)
        return line[:at] + line[at + 1 :]

    def another_byte(self, line):
        at = self.draw.randrange(len(line) or 1)
        return line[:at] + bytes([self.draw.randrange(256)]) + line[at + 1 :]

    def a_piece_twice(self, line):
        low, high = sorted((self.draw.randint(0, len(line)), self.draw.randint(0, len(line))))
        return line[:high] + line[low:]

    def a_byte_in_a_text(self, line):
        """A byte behind some quotation mark: a control character, or a part of a longer character."""
        places = [it.end() for it in re.finditer(b'"', line)] or [0]
        at = self.draw.choice(places)
        return line[:at] + bytes([self.draw.choice([*range(32), 127, *range(128, 256)])]) + line[at:]

    def gaps(self, line):
        """White space between the parts of a line, some of which JSON has not."""
        gap = self.draw.choice(GAPS[:4] * 2 + GAPS)
        return re.sub(rb"[{}\[\]:,]", lambda it: it[0] + gap if self.draw.randrange(3) == 0 else it[0], line)

    def more_at_an_end(self, line):
        more = self.draw.choice(ENDS)
        return line + more if self.draw.randrange(3) else more + line

    def two_commands(self, line):
        return line + self.draw.choice((b"", b" ", b",", b"\r")) + line

    def a_long_line(self, line):
        """A line of about as many bytes as it may have."""
        if self.draw.randrange(8):
            return self.more_at_an_end(line)
        missing = self.draw.choice((MAX_LINE - 1, MAX_LINE, MAX_LINE + 1)) - len(line)
        fill = self.draw.choice((b" ", b" ", b"\t", b"x"))
        return self.draw.choice((line + fill * missing, fill * missing + line, line.replace(b'"t":', b'"t":' + fill * missing), fill * (missing + len(line))))

    def a_blank_line(self, _line):
        """White space, which may have one byte behind it that is none."""
        spaces = bytes(self.draw.choice(b" \t\r") for _ in range(self.draw.randrange(5)))
        return spaces + self.draw.choice((b"", b"", b"\x0b", b"\x00", b"\xc2\xa0", b"\x1a", b"\\"))


BYTE_CHANGES = [
    Mutator.cut,
    Mutator.a_byte_more,
    Mutator.a_byte_less,
    Mutator.another_byte,
    Mutator.a_piece_twice,
    Mutator.a_byte_in_a_text,
    Mutator.gaps,
    Mutator.more_at_an_end,
]
CHANGES = BYTE_CHANGES + [
    Mutator.a_number,
    Mutator.another_number,
    Mutator.a_text,
    Mutator.another_text,
    Mutator.a_respelled_handle,
    Mutator.null_somewhere,
    Mutator.another_value,
    Mutator.deep_nesting,
    Mutator.another_type,
    Mutator.a_dropped_member,
    Mutator.another_member,
    Mutator.a_renamed_member,
    Mutator.a_repeated_member,
    Mutator.members_in_another_order,
    Mutator.swapped_values,
    Mutator.another_op,
    Mutator.another_table,
    Mutator.escapes,
    Mutator.two_commands,
    Mutator.a_long_line,
    Mutator.a_blank_line,
]


def found(tree, path):
    """What stands at a path."""
    for at in path:
        tree = tree[at][1] if isinstance(tree, tuple) else tree[at]
    return tree


def without(members, at):
    return members[:at] + members[at + 1 :]


def inserted(members, at, new):
    return members[:at] + [new] + members[at:]


def escaped(name):
    """The name with its first letter as an escape."""
    return name[:1] + b"\\u%04x" % name[1] + name[2:] if name[1:2].isalpha() else name
