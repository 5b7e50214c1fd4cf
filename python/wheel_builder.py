"""Builds the wheel of this package, with the standard library alone: pip calls it by pyproject.toml.

The library that the wheel takes in is the one that THWARTCORNEL_LIBRARY names, or the one that `tools/c_library out` made in this clone. Without one
the wheel is a client of servers, and its containers and tables in process ask for the library by name.
"""
import base64
import hashlib
import os
import sys
import sysconfig
import tomllib
import zipfile

HERE = os.path.dirname(os.path.abspath(__file__))
PACKAGE, LIBRARY = "thwartcornel", "libthwartcornel.so"


def read(path):
    with open(path, "rb") as it:
        return it.read()


def library():
    """The bytes of the library, or None where there is none."""
    if named := os.environ.get("THWARTCORNEL_LIBRARY"):
        return read(named)
    made = f"{HERE}/../out/{LIBRARY}"
    if os.path.exists(made):
        return read(made)
    print(f"wheel_builder: there is no {LIBRARY}, and so no tables in process: `tools/c_library out` makes it", file=sys.stderr)
    return None


def digest(contents):
    return "sha256=" + base64.urlsafe_b64encode(hashlib.sha256(contents).digest()).rstrip(b"=").decode()


def build_wheel(wheel_directory, config_settings=None, metadata_directory=None):
    """Makes the wheel in a folder, and returns its name."""
    about = tomllib.loads(read(f"{HERE}/pyproject.toml").decode())["project"]
    files = {f"{PACKAGE}/{it}": read(f"{HERE}/{PACKAGE}/{it}") for it in sorted(os.listdir(f"{HERE}/{PACKAGE}")) if it.endswith((".py", ".typed"))}
    shared, tag = library(), "py3-none-any"
    if shared:
        files[f"{PACKAGE}/{LIBRARY}"] = shared
        tag = "py3-none-" + sysconfig.get_platform().replace("-", "_").replace(".", "_")
    info, name = f"{PACKAGE}-{about['version']}.dist-info", f"{PACKAGE}-{about['version']}-{tag}.whl"
    heads = {"Metadata-Version": "2.1", "Name": about["name"], "Version": about["version"], "Summary": about["description"]}
    heads["Requires-Python"] = about["requires-python"]
    files[f"{info}/METADATA"] = "".join(f"{key}: {it}\n" for key, it in heads.items()).encode()
    files[f"{info}/WHEEL"] = f"Wheel-Version: 1.0\nGenerator: wheel_builder\nRoot-Is-Purelib: {'false' if shared else 'true'}\nTag: {tag}\n".encode()
    record = "".join(f"{path},{digest(it)},{len(it)}\n" for path, it in files.items()) + f"{info}/RECORD,,\n"
    with zipfile.ZipFile(f"{wheel_directory}/{name}", "w", zipfile.ZIP_DEFLATED) as it:
        for path, contents in (files | {f"{info}/RECORD": record.encode()}).items():
            entry = zipfile.ZipInfo(path)
            entry.compress_type, entry.external_attr = zipfile.ZIP_DEFLATED, 0o644 << 16
            it.writestr(entry, contents)
    return name
