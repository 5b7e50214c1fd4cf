"""Reads TOML 1.1, and keeps where each key and each value stands.

It takes and refuses what the kit's `toml` does: also inline tables over several lines or with a comma at their end, \\e and \\xHH, times without
seconds, and a byte order mark. What it refuses has a place, and a sentence that says what was expected there.
"""
import calendar
import dataclasses
import re

# The most parts of a key, and the most levels of arrays and inline tables.
LIMIT = 80
# The most characters of the file that a sentence repeats, and those of a line that are shown.
SHOWN = 40
WIDTH = 110

BLANK = re.compile(r"(?:[ \t]|\r?\n|#[\t\x20-\x7e\x80-\U0010ffff]*(?=\r?\n|\Z))*")
LINE_END = re.compile(r"\r?\n|\Z")
SPACE = re.compile(r"[ \t]*")
BARE = re.compile(r"[A-Za-z0-9_-]*")
WORD = re.compile(r"[A-Za-z0-9_+.:-]*")
# What looks like the next pair or the next header of the document, and is no value.
NEXT = re.compile(r"[A-Za-z_][A-Za-z0-9_]*[ \t]*=|\[\[?[ \t]*(?!(?:true|false|inf|nan)\b)[A-Za-z_][A-Za-z0-9_.]*[ \t]*\]")
FOUND = re.compile(r"[^\s,=\[\]{}#\"']+|.", re.S)
# What stands for itself in a text, by its quote, on one line and on several.
PLAIN = {
    ('"', False): re.compile(r'[\t\x20-\x21\x23-\x5b\x5d-\x7e\x80-\U0010ffff]*'),
    ('"', True): re.compile(r'[\t\n\x20-\x21\x23-\x5b\x5d-\x7e\x80-\U0010ffff]*'),
    ("'", False): re.compile(r"[\t\x20-\x26\x28-\x7e\x80-\U0010ffff]*"),
    ("'", True): re.compile(r"[\t\n\x20-\x26\x28-\x7e\x80-\U0010ffff]*"),
}
ESCAPES = {"b": "\b", "e": "\x1b", "f": "\f", "n": "\n", "r": "\r", "t": "\t", '"': '"', "\\": "\\"}
HEX_ESCAPES = {"x": 2, "u": 4, "U": 8}
RADIX = {"0x": 16, "0o": 8, "0b": 2}
DATE = r"(?P<year>\d{4})-(?P<month>\d\d)-(?P<day>\d\d)"
TIME = r"(?P<hour>\d\d):(?P<minute>\d\d)(?::(?P<second>\d\d)(?:\.\d+)?)?"
OFFSET = r"(?:[Zz]|[+-](?P<hours>\d\d):(?P<minutes>\d\d))"
DATETIME = re.compile(rf"{DATE}(?:[Tt ]{TIME}{OFFSET}?)?", re.A)
ONLY_TIME = re.compile(TIME, re.A)
DECIMAL = re.compile(r"[+-]?(?:0|[1-9][0-9]*)(\.[0-9]+)?([eE][+-]?[0-9]+)?")
NO_FLOAT = float("inf")
# Quotes that text programs write in place of " and '.
CURLY = "\u201c\u201d\u201e\u2018\u2019\u00ab\u00bb"


class Refused(Exception):
    """The text is no TOML: what was expected, and from where to where it was not found."""

    def __init__(self, sentence, begin, end):
        super().__init__(sentence)
        self.sentence, self.begin, self.end = sentence, begin, end


@dataclasses.dataclass
class Value:
    """A value: its kind, what it holds (members of a table, values of an array), and where its text begins and ends."""

    kind: str
    held: object
    begin: int = 0
    end: int = 0
    # What may still add to it: a table that a header passed through (implicit), that a dotted key or its header made, or an array of tables (header).
    origin: str | None = None


@dataclasses.dataclass
class Member:
    """A key of a table, with where it stands, and its value."""

    value: Value
    begin: int = 0
    end: int = 0


def plain(value):
    """The value as Python has it; a date or a time is its text."""
    if value.kind == "table":
        return {key: plain(it.value) for key, it in value.held.items()}
    return [plain(it) for it in value.held] if value.kind == "array" else value.held


def placeless(held):
    """A value without a place, of one that Python has."""
    if isinstance(held, dict):
        return Value("table", {key: Member(placeless(it)) for key, it in held.items()})
    if isinstance(held, list):
        return Value("array", [placeless(it) for it in held])
    kinds = {bool: "bool", int: "int", str: "text", float: "float"}
    return Value(kinds.get(type(held), "null"), held)


def line_column(text, at):
    """The line and the column of a place, both from 1."""
    return text.count("\n", 0, at) + 1, at - text.rfind("\n", 0, at)


def excerpt(text, begin, end):
    """The line of a place, or what is about it in a long one, and below that a mark."""
    number, column = line_column(text, begin)
    line = text.split("\n")[number - 1].rstrip("\r")
    first = max(0, min(column - 1 - WIDTH // 3, len(line) - WIDTH))
    part = "".join(it if it.isprintable() else " " for it in line[first : first + WIDTH]).rstrip()
    indent = len(part) - len(part.lstrip())
    place = column - 1 - first
    marked = max(1, min(end - begin, len(part) - place))
    return f"    {part[indent:]}\n    {' ' * (place - indent)}{'^' * marked}"


def shown(word):
    """A word of the file as a sentence has it: short, and without what a terminal would obey."""
    word = "".join(it if it.isprintable() else f"\\u{ord(it):04x}" for it in word)
    return word if len(word) <= SHOWN else word[:SHOWN] + ".."


def decoded(data):
    """The text of a file without its byte order mark."""
    try:
        return data.decode("utf-8").removeprefix("\ufeff")
    except UnicodeDecodeError as why:
        before = data[: why.start].decode("utf-8").removeprefix("\ufeff")
        hint = ": it looks like UTF-16, save it as UTF-8" if data[:2] in (b"\xff\xfe", b"\xfe\xff") else ""
        raise Refused(f"the byte 0x{data[why.start]:02x} is no UTF-8{hint}", len(before), len(before) + 1)


def read(text):
    """The table that a text means."""
    reader = Reader(text)
    return reader.document()


class Reader:
    """Reads a text from its beginning to its end; `at` is the place of the next character."""

    def __init__(self, text):
        self.text, self.at = text, 0
        self.root = Value("table", {}, 0, 0, "header")
        self.section = []

    # What every part of the grammar uses.

    def refuse(self, sentence, begin=None, end=None):
        begin = self.at if begin is None else begin
        raise Refused(sentence, begin, max(begin, len(self.found(begin)) + begin if end is None else end))

    def line(self, at):
        return line_column(self.text, at)[0]

    def next_is(self, word):
        return self.text.startswith(word, self.at)

    def take(self, pattern):
        """Goes over what the pattern matches here, and returns it."""
        match = pattern.match(self.text, self.at)
        self.at = match.end()
        return match[0]

    def found(self, at):
        """The word or the character at a place, or nothing at the end of its line."""
        return "" if LINE_END.match(self.text, at) else FOUND.match(self.text, at)[0]

    def named(self, at):
        """What stands at a place, in words."""
        found = self.found(at)
        if not found:
            return "the end of the file" if at == len(self.text) else "the end of the line"
        other = ", a carriage return without a newline" if found == "\r" else ", blank space of another kind" if found.isspace() else ""
        return f"`{shown(found)}`{other}"

    def blank(self):
        """Goes over spaces, ends of lines and comments."""
        self.take(BLANK)
        if self.next_is("#"):
            self.take(re.compile(r"[\t\x20-\x7e\x80-\U0010ffff]*"))
            self.refuse("a comment holds a control character", self.at, self.at + 1)

    # A document, and what its lines define.

    def document(self):
        self.blank()
        while self.at < len(self.text):
            what, path, spans, value = self.expression()
            self.end_of_line(what)
            self.define(what, path, spans, value)
            self.blank()
        return self.root

    def expression(self):
        if self.next_is("["):
            return self.header()
        path, spans = self.key_equals()
        return "pair", path, spans, self.value(LIMIT)

    def header(self):
        begin, double = self.at, self.next_is("[[")
        closing = "]]" if double else "]"
        self.at += len(closing)
        self.take(SPACE)
        path, spans = self.dotted_key()
        if not self.next_is(closing):
            written = self.text[begin : self.at].strip()
            self.refuse(f"expected `{closing}` at the end of the header `{shown(written)}`, and found {self.named(self.at)}")
        self.at += len(closing)
        return "tables" if double else "table", path, spans, Value("table", {}, begin, self.at, "header")

    def end_of_line(self, what):
        self.take(SPACE)
        if self.at == len(self.text) or self.text[self.at] in "#\r\n":
            return
        word = self.text[self.at]
        if word == ",":
            self.refuse("expected the end of the line, and found `,`: a comma stands only between members within [ ] or { }")
        if word in "]}":
            self.refuse(f"`{word}` closes nothing that is open here")
        behind = "value" if what == "pair" else "header"
        self.refuse(f"expected the end of the line after the {behind}, and found {self.named(self.at)}")

    def define(self, what, path, spans, value):
        """Puts into the document what a line says."""
        if what == "pair":
            table = self.along_header(self.root, self.section, spans)
            self.put(table, path, spans, value)
            return
        table = self.along_header(self.root, path[:-1], spans)
        old = table.held.get(path[-1])
        if what == "tables":
            self.add_table(table, old, path, spans, value)
        elif old is None:
            table.held[path[-1]] = Member(value, *spans[-1])
        elif old.value.kind == "table" and old.value.origin == "implicit":
            old.value.origin, old.value.begin, old.value.end = "header", value.begin, value.end
        else:
            self.refuse_header(old, path, value)
        self.section = path

    def add_table(self, table, old, path, spans, value):
        if old is None:
            table.held[path[-1]] = Member(Value("array", [value], value.begin, value.end, "header"), *spans[-1])
        elif old.value.kind == "array" and old.value.origin == "header":
            old.value.held.append(value)
        else:
            name, line = shown(".".join(path)), self.line(old.begin)
            what = f"it is a table by [{name}], which has to be [[{name}]]" if old.value.kind == "table" and old.value.origin else "it has a value"
            self.refuse(f"[[{name}]] adds a table to an array, but from line {line} on {what}", value.begin, value.end)

    def refuse_header(self, old, path, value):
        name, line = shown(".".join(path)), self.line(old.begin)
        if old.value.kind == "array":
            hint = f"it is an array of tables, each of which begins with [[{name}]]"
        elif old.value.origin == "header":
            hint = f"where several are meant, each begins with [[{name}]]"
        else:
            hint = "a table is defined once"
        self.refuse(f"[{name}] stands there already from line {line} on: {hint}", value.begin, value.end)

    def along_header(self, table, path, spans):
        """The table to which a header leads: into the last table of each array of tables, and into tables that are new where none is."""
        for at, key in enumerate(path):
            span = spans[min(at, len(spans) - 1)]
            old = table.held.setdefault(key, Member(Value("table", {}, *span, "implicit"), *span)).value
            if old.origin is None:
                self.refuse(f'"{shown(key)}" has a value since line {self.line(old.begin)}, and no further keys', *span)
            table = old.held[-1] if old.kind == "array" else old
        return table

    def put(self, table, path, spans, value):
        """Puts a pair into a table; a dotted key leads to tables within it."""
        for key, span in zip(path[:-1], spans):
            old = table.held.setdefault(key, Member(Value("table", {}, *span, "dotted"), *span)).value
            if old.origin is None:
                self.refuse(f'"{shown(key)}" has a value since line {self.line(old.begin)}, and no further keys', *span)
            if old.kind == "array" or old.origin == "header":
                self.refuse(f'"{shown(key)}" has a header in line {self.line(old.begin)}, and a dotted key adds nothing to it', *span)
            old.origin = "dotted"
            table = old
        if path[-1] in table.held:
            line = self.line(table.held[path[-1]].begin)
            self.refuse(f'the key "{shown(path[-1])}" stands twice in one table: first in line {line}', *spans[-1])
        table.held[path[-1]] = Member(value, *spans[-1])

    # Keys.

    def key_equals(self):
        path, spans = self.dotted_key()
        if not self.next_is("="):
            self.refuse_equals(path)
        self.at += 1
        self.take(SPACE)
        return path, spans

    def refuse_equals(self, path):
        name = shown(".".join(path))
        if self.next_is(":"):
            self.refuse(f'after the key "{name}" stands `:`, and TOML writes `=` there')
        self.refuse(f'expected `=` and a value after the key "{name}", and found {self.named(self.at)}')

    def dotted_key(self):
        """The parts of a key, and where each stands."""
        path, spans, first = [], [], self.at
        while len(path) < LIMIT:
            begin = self.at
            path.append(self.simple_key())
            spans.append((begin, self.at))
            self.take(SPACE)
            if not self.next_is("."):
                return path, spans
            self.at += 1
            self.take(SPACE)
        self.refuse(f"a key has more than {LIMIT} parts", first, self.at)

    def simple_key(self):
        if self.next_is('"') or self.next_is("'"):
            return self.string(False)
        key = self.take(BARE)
        if not key:
            self.refuse_key()
        return key

    def refuse_key(self):
        found = self.found(self.at)
        hint = ""
        if self.next_is("{") and not self.root.held:
            hint = ": is the file JSON? A schema is TOML"
        elif self.next_is("//") or self.next_is("/*") or self.next_is(";"):
            hint = ": a comment begins with #"
        elif found and found[0] in CURLY:
            hint = ": a quote is \" or '"
        elif found and found[0] in "]}":
            hint = ": nothing is open that it could close"
        elif found and found[0].isalpha():
            hint = ": a key of other letters than A to Z stands in quotes"
        self.refuse(f"expected a key, and found {self.named(self.at)}{hint}")

    # Values.

    def value(self, depth):
        """The value that begins here, with at most so many levels of arrays and inline tables."""
        begin = self.at
        if self.next_is("[") or self.next_is("{"):
            if depth == 0:
                self.refuse(f"arrays and inline tables stand more than {LIMIT} levels deep")
            self.at += 1
            kind, held = ("array", self.array(begin, depth - 1)) if self.text[begin] == "[" else ("table", self.inline_table(begin, depth - 1))
        elif self.next_is('"') or self.next_is("'"):
            quote = self.text[begin]
            kind, held = "text", self.string(self.next_is(quote * 3))
        else:
            kind, held = self.scalar()
        return Value(kind, held, begin, self.at)

    def array(self, begin, depth):
        found = []
        while True:
            self.blank()
            if self.next_is("]"):
                self.at += 1
                return found
            self.refuse_unclosed("array", "]", begin)
            found.append(self.value(depth))
            self.after_member("array", "]", begin, found[-1])

    def inline_table(self, begin, depth):
        found = Value("table", {}, begin)
        while True:
            self.blank()
            if self.next_is("}"):
                self.at += 1
                return found.held
            self.refuse_unclosed("inline table", "}", begin)
            path, spans = self.key_equals()
            value = self.value(depth)
            self.put(found, path, spans, value)
            self.after_member("inline table", "}", begin, value)

    def refuse_unclosed(self, what, closing, begin):
        """Refuses what is still open at the end of the file, or where the next pair or header of the document seems to begin."""
        if self.at == len(self.text):
            self.refuse(f"the {what} that begins here has no `{closing}` up to the end of the file", begin, begin + 1)
        if closing == "]" and NEXT.match(self.text, self.at):
            line, column = line_column(self.text, begin)
            self.refuse(f"expected a value or `]`, and found {self.named(self.at)}: the array of line {line}, column {column} has no `]` before it")

    def after_member(self, what, closing, begin, member):
        """Goes over the comma after a member; the closing bracket stays."""
        self.blank()
        if self.next_is(","):
            self.at += 1
            return
        if self.next_is(closing):
            return
        if self.at == len(self.text):
            self.refuse(f"the {what} that begins here has no `{closing}` up to the end of the file", begin, begin + 1)
        line, hint = self.line(begin), self.hint_behind(closing, member)
        self.refuse(f"expected `,` or `{closing}` in the {what} that begins in line {line}, and found {self.named(self.at)}: {hint}")

    def hint_behind(self, closing, member):
        """Why something else than a comma or the closing bracket may stand here."""
        if member.kind == "text" and re.search(r"[,=]", member.held):
            return f'has the text "{shown(member.held)}" before it a quote too few?'
        if self.text[self.at] in "]}" or closing == "]" and NEXT.match(self.text, self.at):
            return f"`{closing}` is missing before it"
        if self.line(member.end) < self.line(self.at):
            return "a comma is missing at the end of the line before it"
        return "a comma is missing before it"

    # Texts.

    def string(self, several):
        """The text whose quote stands here, on one line or on several."""
        begin, quote = self.at, self.text[self.at]
        self.at += 3 if several else 1
        if several:
            self.take(re.compile(r"(?:\r?\n)?"))
        pieces = []
        while True:
            pieces.append(self.take(PLAIN[quote, several]))
            if self.next_is(quote):
                if not several:
                    self.at += 1
                    return "".join(pieces)
                count = len(self.take(re.compile(f"{quote}*")))
                if count >= 6:
                    self.refuse("more than five quotes end a text of several lines", self.at - count, self.at)
                if count >= 3:
                    return "".join(pieces) + quote * (count - 3)
                pieces.append(quote * count)
            elif self.next_is("\\"):
                pieces.append(self.escape(several))
            elif several and self.next_is("\r\n"):
                pieces.append("\r")
                self.at += 1
            else:
                self.refuse_string(begin, quote, several)

    def refuse_string(self, begin, quote, several):
        if self.at == len(self.text) and several:
            self.refuse(f"the text that begins here has no {quote * 3} up to the end of the file", begin, begin + 3)
        if self.at == len(self.text) or LINE_END.match(self.text, self.at):
            self.refuse(f"the text that begins here has no closing {quote} in its line", begin, self.at)
        self.refuse("a text holds a control character", self.at, self.at + 1)

    def escape(self, several):
        """What a backslash and what follows it stand for."""
        begin = self.at
        folded = re.compile(r"\\[ \t]*\r?\n(?:[ \t]|\r?\n)*").match(self.text, begin) if several else None
        if folded:
            self.at = folded.end()
            return ""
        kind = self.text[begin + 1 : begin + 2]
        self.at = begin + 2
        if kind in ESCAPES:
            return ESCAPES[kind]
        digits = self.text[self.at : self.at + HEX_ESCAPES.get(kind, 0)]
        if kind in HEX_ESCAPES and re.fullmatch(r"[0-9A-Fa-f]{2,8}", digits) and len(digits) == HEX_ESCAPES[kind]:
            code = int(digits, 16)
            if code <= 0x10FFFF and not 0xD800 <= code <= 0xDFFF:
                self.at += len(digits)
                return chr(code)
        self.at = begin
        if kind in HEX_ESCAPES:
            self.refuse(f"after \\{kind} stand {HEX_ESCAPES[kind]} hexadecimal digits of a character", begin, begin + 2 + len(digits))
        self.refuse(f"`\\{shown(kind)}` stands for nothing: a backslash is written \\\\, or the text stands between '", begin, begin + 2)

    # Truth values, numbers, dates and times.

    def scalar(self):
        begin = self.at
        word = self.take(WORD)
        if re.match(r"[0-9]+[-:]", word):
            if re.compile(r" [0-9]").match(self.text, self.at):
                self.at += 1
                word += " " + self.take(WORD)
            if not is_datetime(word):
                self.refuse(f"`{shown(word)}` is no date or time, as 2024-05-27 or 07:32:00", begin, self.at)
            return "date", word
        end, self.at = self.at, begin
        if word in ("true", "false"):
            self.at = end
            return "bool", word == "true"
        if not word:
            self.refuse_value()
        return self.number(word, end)

    def number(self, word, end):
        radix = RADIX.get(word[:2], 10)
        digit = "[0-9A-Fa-f]" if radix == 16 else "[0-9]"
        bare = re.sub(f"(?<={digit})_(?={digit})", "", word)
        if not re.match(r"[+-]?(?:[0-9]|inf\b|nan\b|\.[0-9])", word):
            self.refuse_value()
        if "_" in bare:
            self.refuse("an underscore stands only between two digits of a number", self.at, end)
        if radix != 10:
            kind, held = "int", prefixed(bare[2:], radix)
        elif bare.lstrip("+-") in ("inf", "nan") and len(bare) <= 4:
            kind, held = "float", float(bare)
        else:
            kind, held = decimal(bare)
        if held is None:
            hint = ": a number has no 0 before its first digit" if re.match(r"[+-]?0[0-9]", bare) else ""
            self.refuse(f"`{shown(word)}` is no number{hint}", self.at, end)
        if kind == "int" and not -(2**63) <= held < 2**63 or kind == "float" and abs(held) == NO_FLOAT and "inf" not in bare:
            self.refuse(f"the number {shown(word)} is too large: a whole number has 64 bits", self.at, end)
        self.at = end
        return kind, held

    def refuse_value(self):
        """Refuses what is no value at all."""
        found = self.found(self.at)
        low = found.lower()
        if not found or found[0] in "#,]}=":
            self.refuse(f"expected a value, and found {self.named(self.at)}")
        if found[0] in CURLY:
            self.refuse(f"expected a value, and found {self.named(self.at)}: a quote is \" or '")
        if low in ("true", "false", "yes", "no", "on", "off"):
            right = "true" if low in ("true", "yes", "on") else "false"
            self.refuse(f"`{found}` is no value: a truth value is true or false, in small letters; did you mean `{right}`?")
        if low in ("null", "none", "nil"):
            self.refuse(f"`{found}` is no value: TOML has no null; leave the key out")
        right = found.rstrip("\"'")
        self.refuse(f'`{shown(found)}` is no value: a text stands in quotes; did you mean "{shown(right)}"?')


def prefixed(digits, radix):
    """A whole number of the radix, or None."""
    allowed = {16: "[0-9A-Fa-f]+", 8: "[0-7]+", 2: "[01]+"}[radix]
    return int(digits, radix) if re.fullmatch(allowed, digits) else None


def decimal(word):
    """A number and its kind; None where it is none."""
    match = DECIMAL.fullmatch(word)
    if not match:
        return "int", None
    return ("float", float(word)) if match[1] or match[2] else ("int", int(word) if len(word) < 100 else 2**64)


def is_datetime(word):
    """Whether a word is a date, a time, or both, with each part in its range."""
    match = (ONLY_TIME if word[2:3] == ":" else DATETIME).fullmatch(word)
    if not match:
        return False
    parts = {key: int(it) for key, it in match.groupdict().items() if it is not None}
    if "year" in parts and not (1 <= parts["month"] <= 12 and 1 <= parts["day"] <= days_in(parts["year"], parts["month"])):
        return False
    most = {"hour": 23, "minute": 59, "second": 60, "hours": 23, "minutes": 59}
    return all(parts.get(key, 0) <= it for key, it in most.items())


def days_in(year, month):
    """How many days a month has; the year 0 is a leap year."""
    return 28 + calendar.isleap(year) if month == 2 else 30 if month in (4, 6, 9, 11) else 31
