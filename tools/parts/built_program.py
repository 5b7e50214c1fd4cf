"""Where the built programs lie."""
import os
import sys

TOP = os.path.join(os.path.dirname(os.path.abspath(__file__)), "../..")


def built_program(name="table_server"):
    """The path of the program that `tools/prove`, `rt run` or `rt ci` left; where there is none, ends the tool with a sentence."""
    path = f"{TOP}/crates/{name}/out/{name}"
    if not os.path.isfile(path):
        sys.exit(f"there is no built program: `tools/prove {name}` proves it and makes it, and so does `rt ci`")
    return path
