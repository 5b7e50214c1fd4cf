"""What the text of a Rattle source says: its functions, and where their bodies stand."""
import re


class Unreadable(Exception):
    """Why a text cannot be read."""


def bare(text):
    """The text without its comments and with one space for each run of white space."""
    return re.sub(r"\s+", " ", re.sub(r"(?m)^\s*//.*$", "", text))


def blanked(text):
    """The text with its comments, strings and characters blank, each place as before."""
    comment = r"//[^\n]*|/\*.*?\*/"
    string = r'(?<!\w)b?r(#*)".*?"\1|"(?:\\.|[^"\\])*"'
    char = r"(?<![\w'])b?'(?:\\(?:x[0-9a-fA-F]{2}|u\{[^}]*\}|.)|[^'\\\n])'"
    return re.sub(f"(?s){comment}|{string}|{char}", lambda it: re.sub(r"[^\n]", " ", it[0]), text)


def after(text, at):
    """The place after the partner of the bracket at this one."""
    partners, awaited = {"(": ")", "[": "]", "{": "}"}, []
    for place in range(at, len(text)):
        if text[place] in partners:
            awaited.append(partners[text[place]])
        elif awaited and text[place] == awaited[-1]:
            awaited.pop()
            if not awaited:
                return place + 1
    raise Unreadable("a bracket has no partner")


class Function:
    """A function with a body: its name, the type and the trait of its impl, what that trait is of, its modules, and the places of its body."""

    def __init__(self, file, name, owner, modules, start, body):
        self.name, self.owner, self.of, self.modules, self.body = name, owner[:2], owner[2], modules, body
        self.key = (file, start)

    def symbols(self, crate, names):
        """Those of a check's names that are the function's own, and those of its closures."""
        own, inner = [], []
        for name in names:
            first, *path = name.split("::")
            found = self.module_of(path) if first == crate else None
            if found:
                (inner if "fn" in path[:-1] else own).append((*found, name))
        # Of several types of one name, that of this module. (A method has the module of its type, which may stand in another file.)
        here = [it for it in own if it[0] == self.modules]
        own = here if len(own) > 1 and len(here) == 1 else own
        # Of several impls of one trait for this type, that of the trait of the same.
        same = [it for it in own if it[1].split("::")[-2].endswith(f"{self.owner[1]}{self.of}")] if self.of else []
        own = same if len(own) > 1 and len(same) == 1 else own
        return [name for _, name in own], [name for modules, name in inner if not own or modules == own[0][0]]

    def module_of(self, path):
        """The modules in a name's path, where the path names this function or a closure of it."""
        kind, trait = self.owner
        is_inner = "fn" in path[:-1]
        at = path.index("fn") if is_inner else len(path) - (2 if kind else 1)
        modules, rest = path[:at], path[at + is_inner :]
        is_fit = modules == self.modules
        if kind:
            owner, *rest = rest
            is_fit = owner.startswith(kind) and trait in owner[len(kind) :] if trait and trait != "Drop" else owner.split("+")[0] == kind
        return (modules,) if is_fit and rest[:1] == [self.name] and (is_inner or len(rest) == 1) else None


def last_name(path):
    """The last name of a path type, with no arguments. (A check writes the name of a built-in type as that of any other.)"""
    path = re.sub(r"<.*", "", path.strip(), flags=re.S).strip().lstrip("&")
    name = path.split("::")[-1].strip()
    return name[:1].upper() + name[1:]


def owner_of(head):
    """The type and the trait of an impl's head, and the last name of the type that the trait is of."""
    text = head.removeprefix("impl").rstrip("{").strip()
    if text.startswith("<"):
        depth = 0
        for at, c in enumerate(text):
            depth += (c == "<") - (c == ">" and text[at - 1] != "-")
            if not depth:
                text = text[at + 1 :].strip()
                break
    trait, word, kind = re.split(r"\bwhere\b", text)[0].rpartition(" for ")
    of = re.search(r"<(.*)>", trait, re.S) if word else None
    return last_name(kind), last_name(trait) if word else "", last_name(of[1]) if of else ""


# What stands before the brace of a clause, and not before a body's.
CLAUSE = re.compile(r"\b(requires|ensures|ghost|decreases)\*?(\s+[^\s{}():]+)?\s*(:\s*)?\Z")
HEAD = re.compile(r"\b(fn)\s+(\w+)|\b(impl|trait|mod)\b[^;{]*\{")
# No type has this name: a trait's own body is checked at each impl that takes it.
OF_TRAIT = ("\0", "", "")


def body_after(blank, start, at):
    """The places of the body of the function whose `fn` starts here and whose parameters end there, if it has one, and where to read on."""
    while at < len(blank) and blank[at] != ";":
        if blank[at] not in "([{":
            at += 1
            continue
        end = after(blank, at)
        if blank[at] == "{" and not CLAUSE.search(blank[start:at]):
            return (at + 1, end - 1), end
        at = end
    return None, at


def functions_of(file, text):
    """The outermost functions of a source, in their order."""
    blank, found, blocks, at = blanked(text), [], [], 0
    file_modules = [it for it in file.removesuffix(".rt").split("/")[1:] if it not in ("lib", "main", "mod")]
    while head := HEAD.search(blank, at):
        blocks = [it for it in blocks if it[0] > head.start()]
        if not head[1]:
            at = head.end()
            blocks.append((after(blank, at - 1), head[3], head[0]))
            continue
        body, at = body_after(blank, head.start(), after(blank, blank.index("(", head.end())))
        if body:
            owners = [it for it in blocks if it[1] != "mod"]
            owner = ("", "", "") if not owners else owner_of(owners[-1][2]) if owners[-1][1] == "impl" else OF_TRAIT
            modules = file_modules + [re.match(r"mod\s+(\w+)", it[2])[1] for it in blocks if it[1] == "mod"]
            found.append(Function(file, head[2], owner, modules, head.start(), body))
    return found


def outside(text, functions):
    """The text between the bodies."""
    cuts = [0, *[at for it in functions for at in it.body], len(text)]
    return [text[a:b] for a, b in zip(cuts[::2], cuts[1::2])]


def changed_bodies(file, before, text):
    """The functions of the text before whose bodies differ, each with its new body; nothing where anything else differs."""
    try:
        was, now = functions_of(file, before), functions_of(file, text)
    except Unreadable:
        # (the check says what is wrong)
        return {}
    if len(was) != len(now) or outside(before, was) != outside(text, now):
        return {}
    pairs = [(a, text[b.body[0] : b.body[1]]) for a, b in zip(was, now)]
    return {a: made for a, made in pairs if made != before[a.body[0] : a.body[1]]}
