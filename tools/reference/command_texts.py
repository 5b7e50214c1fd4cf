"""The canonical texts of commands: what a journal has of them."""
import json
import re

from reference.plain_machine import Column, is_cell

# Keys that a command may as well leave out.
SAY_NOTHING = [("rollback", False), ("unique", False)]


def value_text(value):
    """A cell, or an empty array for what is none."""
    return value if isinstance(value, (bool, str)) or is_cell(value, Column("int", null=True)) else []


def handle_text(text):
    """A handle, or an empty text for what spells none; null is the end."""
    if text is None:
        return None
    parts = re.fullmatch("(0|[1-9][0-9]*):(0|[1-9][0-9]*)", text, re.ASCII)
    return text if parts and int(parts[1]) < 2**32 and int(parts[2]) < 2**64 else ""


def part_text(key, part):
    if key in ("r", "set", "add"):
        return {name: value_text(value) for name, value in part.items()}
    if key in ("k", "ge", "gt", "le", "lt"):
        return [value_text(value) for value in part]
    if key == "hs":
        return [handle_text(text) for text in part]
    return handle_text(part) if key == "h" else part


def command_text(command):
    """The canonical text of a command."""
    parts = {key: part_text(key, part) for key, part in command.items() if (key, part) not in SAY_NOTHING}
    return json.dumps(parts, separators=(",", ":"), sort_keys=True, ensure_ascii=False)
