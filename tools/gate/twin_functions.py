"""Twins of functions: the same function under another name, beside it, with another body.

Edits of one function are tried in one check so: the first stands in the function, and each further one in a twin, which has the function's
contract and its proof. Nothing calls a twin, and a proof rests on no other body than its function's own, so what a check says of a twin it would say of the function.
"""
import os
import re

# What stands above a function and belongs to it.
ABOVE = re.compile(r"\s*(//|#\[)")


def name_of(name, number):
    return f"{name}_twin{number}"


def folder_of(symbol):
    """Where the proof of the function with this name in a check stands."""
    return "/".join(["proofs", *symbol.split("::")[1:]])


def has_twins(function, symbol, crate_folder, text):
    """Whether the function can stand there once more: as an item or in an impl of its type, in no cycle of calls, with no proof that is all by hand."""
    if function.owner[1] or function.owner[0] == "\0" or function.name == "main" or os.path.exists(f"{crate_folder}/{folder_of(symbol)}/Proof.antt"):
        return False
    return not re.search(r"#\[(cycle|test|cfg)\b", text[begin_of(function, text) : function.body[0]])


def begin_of(function, text):
    """Where the function's comments and attributes begin, or itself."""
    begin = text.rindex("\n", 0, function.key[1]) + 1
    while begin:
        above = text.rindex("\n", 0, begin - 1) + 1 if "\n" in text[: begin - 1] else 0
        line = text[above : begin - 1]
        if line.strip() == ")]":
            above = text.rindex("#[", 0, above)
            above = text.rindex("\n", 0, above) + 1 if "\n" in text[:above] else 0
        elif not ABOVE.match(line):
            break
        begin = above
    return begin


def twin_of(function, text, body, number):
    """The text of a twin with this body, to stand behind the function."""
    head = text[begin_of(function, text) : function.body[0]]
    named = re.sub(rf"\bfn\s+{function.name}\b", f"fn {name_of(function.name, number)}", head, count=1)
    return f"\n\n{named}{body}}}"


def proof_of_twin(crate, crate_folder, symbol, number):
    """The files of the function's proof, as those of a twin."""
    was, made = folder_of(symbol), folder_of(name_of(symbol, number))
    module = f"Rattle.{crate}.{was.replace('/', '.')}"
    files = {}
    for folder, _, names in os.walk(f"{crate_folder}/{was}"):
        for name in names:
            with open(f"{folder}/{name}", encoding="utf-8") as it:
                text = it.read()
            file = f"{folder}/{name}".removeprefix(f"{crate_folder}/{was}")
            files[made + file] = re.sub(rf"{re.escape(module)}(?![\w-])", name_of(module, number), text)
    return files
