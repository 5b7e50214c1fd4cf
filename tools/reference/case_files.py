"""The files of cases that programs read: parts below lines `=== NAME`, and streams in which `@(COUNT BYTE)` stands for so many bytes of a number."""
import re


def parts_of(text):
    """What stands before the first `=== NAME`, and the name and the text of each part."""
    first, *parts = re.split(rb"(?m)^=== ", text)
    return first.decode(), [it.split(b"\n", 1) for it in parts]


def spelled(stream):
    """The bytes of a stream."""
    return re.sub(rb"@\((\d+) (\d+)\)", lambda it: bytes([int(it[2])]) * int(it[1]), stream)
