"""Makes manual pages, as `man` shows them, of pages in docs/. Pure functions."""
import re

FENCE = re.compile(r"^ *```")
ITEM = re.compile(r"^ *(?:([-*])|(\d+\.)) +")
SPAN = re.compile(r"`([^`]+)`|\[([^\[\]]*)\]\([^()]*\)|(?<![\w*])\*([^*\s](?:[^*]*[^*\s])?)\*(?!\w)|<a [^>]*></a>")


def plain(text):
    """A text that `man` shows as it stands."""
    return text.replace("\\", "\\e").replace("-", "\\-")


def inline(text):
    """A text with its code, its links and its stressed words."""
    found, at = [], 0
    for it in SPAN.finditer(text):
        found.append(plain(text[at : it.start()]))
        if it[1] is not None:
            found.append(f"\\fB{plain(it[1])}\\fR")
        elif it[2] is not None:
            found.append(inline(it[2]))
        elif it[3] is not None:
            found.append(f"\\fI{inline(it[3])}\\fR")
        at = it.end()
    return "".join(found) + plain(text[at:])


def line(text):
    """A line of a page that is no request of its own."""
    return f"\\&{text}" if text[:1] in (".", "'") else text


def cells_of(row):
    return [it.strip().replace("\\|", "|") for it in re.split(r"(?<!\\)\|", row.strip().strip("|"))]


def table(rows):
    """A table: the first cell of each row above the others, which have their column's name where there are several."""
    head, lines = cells_of(rows[0]), []
    for row in rows[2:]:
        first, *others = cells_of(row)
        lines += [".TP", line(f"\\fB{inline(first)}\\fR" if first and "`" not in first else inline(first) or "\\-")]
        told = [f"{inline(name)}: {inline(it)}" if len(head) > 2 and name else inline(it) for name, it in zip(head[1:], others) if it]
        lines += [it for text in told for it in (line(text), ".br")][:-1] or ["\\&"]
    return lines


def blocks_of(text):
    """The blocks of a page: what each is, and its lines."""
    lines, at = text.splitlines(), 0
    while at < len(lines):
        begins = at
        if FENCE.match(lines[at]):
            at = next(it for it in range(at + 1, len(lines)) if FENCE.match(lines[it])) + 1
            yield "code", lines[begins + 1 : at - 1]
        elif lines[at].startswith("|"):
            while at < len(lines) and lines[at].startswith("|"):
                at += 1
            yield "table", lines[begins:at]
        elif lines[at].startswith("#"):
            at += 1
            yield "heading", lines[begins:at]
        elif not lines[at].strip() or lines[at].startswith("!["):
            at += 1
        else:
            at += 1
            while at < len(lines) and lines[at].strip() and not (ITEM.match(lines[at]) or FENCE.match(lines[at]) or lines[at][0] in "#|"):
                at += 1
            yield "text", lines[begins:at]


def paragraph(lines):
    """A paragraph, or an item of a list."""
    text = " ".join(it.strip() for it in lines)
    item = ITEM.match(text)
    if not item:
        return [".PP", line(inline(text))]
    return [f".IP {item[2]} 4" if item[2] else ".IP \\(bu 3", line(inline(text[item.end() :]))]


def man_page(name, section, does, text):
    """The manual page of a name: what it does in a few words, and the text of its page in docs/."""
    lines = [f'.TH {name} {section} "" Thwartcornel', ".SH NAME", f"{name} \\- {inline(does)}"]
    is_begun = False
    for kind, block in blocks_of(text):
        if kind == "heading":
            depth, _, title = block[0].partition(" ")
            # (the page's own title is the name)
            if len(depth) > 1:
                lines.append(f'.{"SH" if len(depth) == 2 else "SS"} "{inline(title)}"')
            continue
        if not is_begun and not any(it.startswith(".SH") for it in lines[2:]):
            lines.append(".SH DESCRIPTION")
        is_begun = True
        if kind == "code":
            lines += [".PP", ".RS 4", ".EX", *(line(plain(it)) for it in block), ".EE", ".RE"]
        else:
            lines += table(block) if kind == "table" else paragraph(block)
    return "\n".join(lines) + "\n"
