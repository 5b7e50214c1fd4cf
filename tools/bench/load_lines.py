"""The lines by which sockets and the library are timed: a record of two indices goes in, and is found, by turns."""

SCHEMA = """
[[table]]
name = "p"
column = [{name = "id", cell = "int"}, {name = "g", cell = "text"}]
index = [{name = "u", kind = "ordered", unique = true, key = ["id"]}, {name = "g", kind = "hashed", key = ["g"]}]
"""


def lines_for(place, count):
    """The lines of one connection."""
    for number in range(place << 32, (place << 32) + count // 2):
        yield b'{"op":"insert","t":"p","r":{"id":%d,"g":"some words"}}\n' % number
        yield b'{"op":"find","t":"p","i":"u","k":[%d]}\n' % number
