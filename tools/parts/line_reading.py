"""Reads a line that is no JSON as its writer may have meant it: the slips in it, each with its place, and the value that it has without them.

`meant(line)` gives both, the slips in the order of their places. A line that is JSON has no slip, and its own value.
"""
import dataclasses
import difflib
import math
import re

from parts.line_words import OTHER_OPS, shown
from reference.plain_machine import MAX_LEVELS, read_float, read_int

# Opening quotes, each with those that close it.
QUOTES = {'"': '"', "'": "'", "`": "`'"} | dict.fromkeys("\u201c\u201d\u201e\u00ab\u00bb", "\u201c\u201d\u201e\u00ab\u00bb\"")
QUOTES |= dict.fromkeys("\u2018\u2019\u201a", "\u2018\u2019\u201a'")
ESCAPES = {'"': '"', "\\": "\\", "/": "/", "b": "\b", "f": "\f", "n": "\n", "r": "\r", "t": "\t"}
# Slips behind which the reading is a guess.
UNSURE = {"comma", "colon", "value", "met", "unclosed", "end", "closing", "second", "behind", "call"}
WORDS = {"true": True, "false": False, "null": None}
OTHER_WORDS = {"none": "null", "nil": "null", "undefined": "null", "null": "null", "true": "true", "false": "false", "nan": "", "infinity": "", "inf": ""}
OPENS = {"{": "}", "[": "]", "(": ")"}
NUMBER = re.compile(r"-?(0|[1-9]\d*)(\.\d+)?([eE][-+]?\d+)?", re.ASCII)
TOKEN = re.compile(r"[-+.\w]+")
HALF = re.compile("[\ud800-\udfff]")
THOUSANDS = re.compile(r"-?\d{1,3}(,\d{3})+(?=\s*[}\"\']|\s*,\s*[\"\'])", re.ASCII)
INNER_QUOTES = re.compile(r'\s*\w[^"{}\[\]:,]*"[^"{}\[\]:,]*"(?=\s*[,}\]])')
WHITE = re.compile("[ \t\r\n]*")
COMMENT = re.compile(r"//[^\n]*|/\*.*?(\*/|$)|#[^\n]*|--\s[^\n]*", re.S)
BLANKS = {"\ufeff": "a byte order mark", "\u00a0": "a no-break space", "\u3000": "an ideographic space", "\u2028": "a line separator"}
BLANKS |= {"\x0b": "a vertical tab", "\x0c": "a form feed"}
NUMBER_SLIPS = [
    (r"[-+]?\d+(_\d+)+", "has no _ between its digits"),
    (r"-?0+\d+(\.\d+)?", "has no 0 before its first digit"),
    (r"\+\d.*", "has no + before it"),
    (r"[-+]?0[xXoObB]\w+", "is written in decimal digits"),
    (r"[-+]?(\.\d+|\d+\.)([eE].*)?", "has digits on both sides of its point"),
    (r"[-+]?[\d.]+[eE][-+]?", "has digits behind its e"),
]


@dataclasses.dataclass
class Slip:
    """What is wrong at a place of the text, and the kind of it."""

    at: int
    kind: str
    sentence: str


class Lost(Exception):
    """The rest of a line can't be read in any way."""


class Reader:
    """Reads one text, and keeps the slips."""

    def __init__(self, text):
        self.text, self.at, self.slips = text, 0, []

    def slip(self, kind, sentence, at=None):
        self.slips.append(Slip(self.at if at is None else at, kind, sentence))

    def peek(self, count=1):
        return self.text[self.at : self.at + count]

    def is_ended(self):
        return self.at >= len(self.text)

    def met(self):
        """What stands at this place, for a sentence."""
        token = TOKEN.match(self.text, self.at)
        if self.is_ended():
            return "the line ends"
        one = self.peek()
        return f"{shown(token[0], 24) if token else f'a {one}' if one.isprintable() else f'the character U+{ord(one):04X}'} stands"

    # White space and comments.

    def blanks(self):
        while True:
            self.at = WHITE.match(self.text, self.at).end()
            one = self.peek()
            if one in BLANKS or one.isspace():
                self.slip("blank", f"{BLANKS.get(one, f'the character U+{ord(one):04X}')} is no white space to JSON")
                self.at += 1
            elif not (one in "/#-" and self.comment()):
                return

    def comment(self):
        found = COMMENT.match(self.text, self.at)
        if found:
            self.slip("comment", f"a line has no comments, and {shown(found[0][:2])} begins one")
            self.at = found.end()
        return found

    # The whole line.

    def whole(self):
        self.lead()
        begin = self.at
        if re.match(r"[{\[]\s*\\+[\"']", self.text[begin:]):
            self.slip("escape", "the quotes have a \\ before them: the line was put into quotes once more", begin + 1)
            self.text = self.text[:begin] + re.sub(r"\\+([\"'])", r"\1", self.text[begin:])
        value = self.value(1)
        self.blanks()
        if self.peek() in (":", "=") and isinstance(value, str) and not self.is_ended():
            self.slips = [it for it in self.slips if it.at < begin]
            self.slip("brace", "the { at the beginning is missing", begin)
            self.at = begin
            value = self.object(1, begin, opened=False)
            self.blanks()
        self.rest()
        return value

    def lead(self):
        """What stands before the value by a slip: a mark of the file, or a prompt."""
        self.blanks()
        prompt = re.compile(r"(>>>|>|\$|%|<)\s*(?=[{\[])").match(self.text, self.at)
        if prompt:
            self.slip("prompt", f"{shown(prompt[0].strip())} before the line is none of it")
            self.at = prompt.end()

    def rest(self):
        """What stands behind the value by a slip."""
        if self.is_ended():
            return
        one, behind = self.peek(), self.text[self.at + 1 :].strip()
        if one in "}])":
            self.slip("closing", f"a {one} too many: nothing is open here")
        elif one in ",;" and not behind:
            self.slip("behind", f"a {one} stands behind the value, where the line has to end")
        elif one in "{[" or one in ",;" and behind[:1] in "{[":
            self.slip("second", "a second value begins here, and a line has one: write each command on a line of its own")
        else:
            self.slip("behind", f"{self.met()} behind the value, where the line has to end")

    # Values.

    def value(self, level):
        self.blanks()
        one = self.peek()
        if self.is_ended():
            self.slip("end", "the line ends where a value has to stand")
            raise Lost
        if one in QUOTES:
            return self.quoted()
        if one == "{":
            return self.object(level, self.at)
        if one in "[(":
            return self.array(level, self.at)
        if one.isdecimal() or one in "+-.":
            return self.number()
        if one.isalpha() or one in "_$":
            return self.word(level)
        self.slip("met", f"{self.met()} where a value has to stand")
        raise Lost

    def test_level(self, level, begin):
        if level > MAX_LEVELS:
            self.slip("levels", f"arrays and objects stand in one another more than {MAX_LEVELS} deep", begin)
            raise Lost

    def object(self, level, begin, opened=True):
        self.test_level(level, begin)
        self.at += opened
        members, comma = {}, None
        while not self.is_closed("{", begin, comma):
            if self.peek() == ",":
                self.slip("comma", "a comma stands here with no member before it")
                self.at += 1
                continue
            self.member(members, level)
            comma = self.separator("}")
        return members

    def array(self, level, begin):
        self.test_level(level, begin)
        if self.peek() == "(":
            self.slip("tuple", "an array stands in [ and ], and not in ( and )")
        opening = self.peek()
        self.at += 1
        values, comma = [], None
        while not self.is_closed(opening, begin, comma):
            if self.peek() == ",":
                self.slip("comma", "a comma stands here with no value before it")
                self.at += 1
                continue
            values.append(self.value(level + 1))
            comma = self.separator(OPENS[opening])
        return values

    def is_closed(self, opening, begin, comma):
        """Whether the array or object ends here; says so where it ends by a slip."""
        self.blanks()
        one, wanted = self.peek(), OPENS[opening]
        if self.is_ended():
            self.slip("open", f"the {opening} of column {begin + 1} is never closed: a {wanted} is missing (a command stands on one line)")
            return True
        if one not in "}])":
            return False
        if comma is not None:
            self.slip("trailing", f"a comma stands before {one} with nothing behind it", comma)
        if one != wanted:
            self.slip("closing", f"a {one} stands where the {opening} of column {begin + 1} needs a {wanted}")
            # (what was opened further out may be closed by it)
            if one == "}" and opening != "{":
                return True
        self.at += 1
        return True

    def separator(self, closing):
        """Reads a comma, and gives its place; says so where one is missing."""
        self.blanks()
        if self.peek() in (",", ";") and not self.is_ended():
            if self.peek() == ";":
                self.slip("comma", "a ; stands in place of a comma")
            self.at += 1
            return self.at - 1
        if not self.is_ended() and self.peek() not in "}])":
            self.slip("comma", f"{self.met()} where a comma or {closing} has to stand")
            if not (self.peek() in QUOTES or self.peek() in OPENS or self.peek().isalnum() or self.peek() in "-_$"):
                raise Lost
        return None

    def member(self, members, level):
        name = self.name()
        self.blanks()
        sign = re.compile(r":=|=>|->|==|=|:").match(self.text, self.at)
        if sign:
            if sign[0] != ":":
                self.slip("colon", f"{shown(sign[0])} stands where a colon has to stand", self.at)
            self.at = sign.end()
        else:
            self.slip("colon", f"{self.met()} where a colon has to stand, behind the name {shown(name, 24)}")
            if self.peek() == ",":
                return
        self.blanks()
        if self.is_ended() or self.peek() in ",}])":
            if sign:
                self.slip("value", f"the name {shown(name, 24)} has no value behind it")
            return
        thousands = THOUSANDS.match(self.text, self.at)
        if thousands:
            self.slip("number", f"{thousands[0]} is no number: its digits have no comma between them")
            self.at = thousands.end()
        members[name] = int(thousands[0].replace(",", "")) if thousands else self.value(level + 1)

    def name(self):
        if self.peek() == "{":
            self.slip("braces", "a second { stands where a name has to stand")
            self.at += 1
            self.blanks()
        if self.peek() in QUOTES and not self.is_ended():
            return self.quoted()
        token = re.compile(r"[-\w$.]+").match(self.text, self.at)
        if not token:
            self.slip("met", f"{self.met()} where a name in double quotes has to stand")
            raise Lost
        self.slip("name", f"a name stands in double quotes: {shown(token[0], 24)}")
        self.at = token.end()
        return token[0]

    # Texts.

    def quoted(self):
        begin, closers = self.at, QUOTES[self.peek()]
        if self.peek() != '"':
            self.slip("quotes", f"texts and names stand in double quotes, and not in {self.peek()}")
        self.at += 1
        parts = []
        while not self.is_ended() and self.peek() not in closers:
            self.letter(parts, closers)
        if self.is_ended():
            self.slip("unclosed", "the text that begins here has no quote at its end", begin)
            return re.sub(r"[\]}\s,]+$", "", self.joined(parts, begin))
        self.at += 1
        inner = INNER_QUOTES.match(self.text, self.at) if self.peek() != "" and closers == "\"" else None
        if inner:
            self.slip("inner", 'the text ends here by a ", and goes on: a " within a text is written \\"', self.at - 1)
            self.at = inner.end()
            parts.append('"' + inner[0][:-1])
        return self.joined(parts, begin)

    def letter(self, parts, closers):
        one = self.peek()
        if one == "\\":
            self.escape(parts, closers)
            return
        if one < " ":
            spelling = {"\t": "\\t", "\r": "\\r"}.get(one, f"\\u{ord(one):04x}")
            self.slip("control", f"a text has the control character U+{ord(one):04X}, which is written {spelling}")
        parts.append(one)
        self.at += 1

    def escape(self, parts, closers):
        one, digits = self.text[self.at + 1 : self.at + 2], self.text[self.at + 2 : self.at + 6]
        if one in ESCAPES and one:
            parts.append(ESCAPES[one])
            self.at += 2
        elif one == "u" and re.fullmatch("[0-9a-fA-F]{4}", digits, re.ASCII):
            parts.append(chr(int(digits, 16)))
            self.at += 6
        else:
            if one == "u":
                self.slip("escape", f"four hex digits have to stand behind \\u, and {shown(digits)} does")
            elif not (one in closers and closers != '"'):
                self.slip("escape", f"\\{shown(one)[1:-1]} is no escape of JSON (a \\ itself is written \\\\)")
            parts.append(one if one in "'u" else "\\" + one)
            self.at += 2

    def joined(self, parts, begin):
        """The text of its letters, in which two halves of a pair are one character."""
        text = "".join(parts).encode("utf-16-le", "surrogatepass").decode("utf-16-le", "surrogatepass")
        if HALF.search(text):
            self.slip("half", "a text has one half of a surrogate pair, as \\ud83d, without the other", begin)
        return HALF.sub("?", text)

    # Numbers and words.

    def number(self):
        begin, token = self.at, TOKEN.match(self.text, self.at)[0]
        handle = re.compile(r"\d+:\d+\b", re.ASCII).match(self.text, self.at)
        if handle:
            self.at = handle.end()
            self.slip("handle", f"a handle is a text, in quotes: {shown(handle[0], 24)}", begin)
            return handle[0]
        self.at += len(token)
        if NUMBER.fullmatch(token):
            return self.finite(token, begin)
        if re.match(r"\d{4}-\d", token):
            self.slip("number", f"{shown(token, 24)[1:-1]} is no number: a date is a text, in quotes, and in a column of ints a whole number, as its days since 1970", begin)
            return token
        if re.fullmatch(r"[-+]?(inf|infinity|nan)", token, re.I):
            self.slip("number", f"JSON has no {token}", begin)
            return None
        why = next((why for pattern, why in NUMBER_SLIPS if re.fullmatch(pattern, token, re.ASCII)), None)
        self.slip("number", f"{shown(token, 24)[1:-1]} is no number{f': a number {why}' if why else ''}", begin)
        return number_in(token)

    def finite(self, token, begin):
        try:
            return read_float(token) if re.search("[.eE]", token) else read_int(token)
        except ValueError:
            self.slip("great", "the number is greater than every float", begin)
            return 0

    def word(self, level):
        begin, word = self.at, re.compile(r"[\w$]+(\.\w+)*(?=\()|[\w$]+").match(self.text, self.at)[0]
        self.at += len(word)
        if word in WORDS:
            return WORDS[word]
        if self.peek() in QUOTES and not self.is_ended() and len(word) <= 2:
            self.slip("prefix", f"{word} stands before a quote, which JSON does not have", begin)
            return self.quoted()
        if self.peek() == "(":
            self.slip("call", f"{shown(word, 24)[1:-1]}(..) is no JSON: write the value itself", begin)
            values = self.array(level, self.at)
            return values[0] if values else None
        meant_word = OTHER_WORDS.get(word.casefold())
        if meant_word is not None:
            self.slip("word", f"{word} is no JSON: write {meant_word}" if meant_word else f"JSON has no {word}", begin)
            return WORDS.get(meant_word)
        near = difflib.get_close_matches(word, WORDS, 1, 0.75) if level > 1 else []
        if near:
            self.slip("word", f"{word} is no JSON: perhaps {near[0]}", begin)
            return WORDS[near[0]]
        if level == 1 and not re.match(r"\s*[:=]", self.text[self.at :]):
            more = f": {OTHER_OPS[word.casefold()]}" if word.casefold() in OTHER_OPS else ""
            self.slip("words", f"a command is a JSON object, in {{ and }}, and the line begins with {shown(word, 24)}{more}", begin)
            raise Lost
        more = "" if level == 1 else re.compile(r"[^,:;{}\[\]\"']*").match(self.text, self.at)[0]
        self.at += len(more.rstrip())
        text = (word + more).rstrip()
        self.slip("word", f"a text stands in double quotes: {shown(text, 40)}", begin)
        return text


def number_in(token):
    """The number that a token may mean, or the token."""
    plain = token.replace("_", "").lstrip("+")
    for read in (lambda: int(plain), lambda: int(plain, 0), lambda: float(plain), lambda: int(re.match(r"-?\d+", plain)[0])):
        try:
            number = read()
        except (ValueError, TypeError, OverflowError):
            continue
        return number if isinstance(number, int) and -(2**63) <= number < 2**64 else float(number) if math.isfinite(number) and abs(number) < 1e300 else 0
    return token


def decoded(line):
    """The text of a line, and the slip where its bytes are no UTF-8."""
    if len(line) > 3 and line.count(b"\0") * 3 > len(line):
        text = line.replace(b"\xff\xfe", b"").replace(b"\xfe\xff", b"").replace(b"\0", b"").decode("latin-1")
        return text, Slip(0, "utf", "every other byte is 0: the line is UTF-16, and has to be UTF-8")
    try:
        return line.decode(), None
    except UnicodeDecodeError as why:
        at = len(line[: why.start].decode())
        byte = line[why.start]
        old = bytes([byte]).decode("cp1252", "replace")
        meant_letter = f': in Latin-1 it is {old}, in UTF-8 that is {" ".join(f"{it:02X}" for it in old.encode())}' if old.isalpha() else ""
        sentence = f"the byte 0x{byte:02X} (byte {why.start + 1} of the line) is no UTF-8{meant_letter}"
        letters = (bytes([it]).decode("cp1252", "replace") for it in line)
        return "".join(it for it in letters if it < "\x80" or it.isalpha()), Slip(at, "utf", sentence)


def told_of(slips):
    """The slips to be told: the first of each kind, and none that comes of the one before it."""
    kinds = {}
    for it in sorted(slips, key=lambda it: it.at):
        kinds.setdefault(it.kind, it)
        if it.kind in UNSURE:
            break
    return [*kinds.values()][:3]


@dataclasses.dataclass
class Meant:
    """The value that a line may mean, in a list, or an empty list; its text, its slips, and whether something is open at its end."""

    values: list
    text: str
    slips: list
    is_open: bool


def meant(line):
    text, slip = decoded(line)
    reader = Reader(text)
    if text.startswith("\ufeff"):
        reader.slip("mark", "the line begins with a byte order mark: save the file as UTF-8 without one")
        reader.at = 1
    try:
        values = [reader.whole()]
    except Lost:
        values = []
    slips = [slip, *reader.slips] if slip else reader.slips
    return Meant(values, text, told_of(slips), any(it.kind == "open" for it in slips))
