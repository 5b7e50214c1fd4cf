"""The commands by which docs/EMBED.md builds the library and runs the examples in C, C++ and Python, and its programs in Python."""
import re
import sys

from parts.built_program import TOP

PAGE = f"{TOP}/docs/EMBED.md"
FIRST_WORDS = {"c": ["tools/c_library", *["cc", "out/order_book", "cc", "out/order_book_rows"], *["c++", "out/order_book", "c++", "out/order_book_rows"], *["cc", "out/kept_orders"]], "python": ["python3", "out/python/bin/pip", "out/python/bin/python"]}


def blocks(language):
    with open(PAGE, encoding="utf-8") as it:
        return re.findall(rf"(?ms)^```{language}\n(.*?)^```$", it.read())


def program():
    """The page's blocks in Python as one program, and what the comments behind its lines say that it prints."""
    text = "".join(blocks("py"))
    return text, re.findall(r"(?m)\S {2,}# (.*)$", text)


def commands(language):
    """Those for C and C++, of which the first makes the library, or those for Python."""
    lines = [line.removeprefix("$ ") for block in blocks("console") for line in block.splitlines() if line.startswith("$ ")]
    if [line.split()[0] for line in lines] != [word for words in FIRST_WORDS.values() for word in words]:
        sys.exit(f"{PAGE}: the blocks `console` have to show how the library is made, and the example in C, C++ and Python, and show {lines}")
    return lines[: len(FIRST_WORDS["c"])] if language == "c" else lines[len(FIRST_WORDS["c"]) :]
