"""The files of an installation: the built programs, the shell and the explaining tools, manual pages, completions, a unit of systemd and a container file.

`files_of` gives each by its path below the prefix. The tools lie in a folder of their own as they lie in a clone, with a link to the installed program.
"""
import os
import re
import subprocess
import sys

from parts.built_program import TOP
from parts.completions import bash
from parts.man_pages import man_page

PROGRAMS = ("table_server", "table_keeper")
# The tools for users: under which name each is installed.
TOOLS = {"table_shell": "tools/shell", "table_explain_schema": "tools/explain_schema", "table_explain_line": "tools/explain_line", "table_client": "examples/client.py"}
# The manual pages: the section, the page in docs/, and what stands behind the name.
PAGES = {
    "table_server": (1, "PROTOCOL.md", "answers lines of JSON on tables in memory"),
    "table_keeper": (1, "KEEPER.md", "serves tables that last"),
    "table_recipes": (7, "RECIPES.md", "which index does what, with lines that do it"),
    "table_journals": (7, "JOURNALS.md", "the journals of table_server"),
}
OWN = "lib/thwartcornel"
LIST = "share/thwartcornel/installed"
COMMANDS = ("run", "serve")
IMPORT = re.compile(r"(?m)^(?:from|import) ([\w.]+)")
UNIT = """\
[Unit]
Description=Tables that last, served over a Unix socket
Documentation=man:table_keeper(1)

[Service]
ExecStart={prefix}/bin/{keeper} --schema /etc/table_keeper/tables.toml --listen unix:/run/table_keeper/socket --data /var/lib/table_keeper
DynamicUser=yes
RuntimeDirectory=table_keeper
StateDirectory=table_keeper
Restart=on-failure
# (a start with wrong words, another schema, or a log or state that is none, is no better the next time)
RestartPreventExitStatus=2 3 6 7 8

[Install]
WantedBy=multi-user.target
"""
CONTAINER = """\
# Build it from the folder that the programs were installed into: podman build -f share/thwartcornel/Containerfile -t table_keeper .
# Run it with a schema and a folder: podman run -v ./tables.toml:/tables.toml:ro -v ./data:/data -p 7000:7000 table_keeper
FROM debian:stable-slim
COPY bin/{keeper} /usr/bin/table_keeper
VOLUME /data
EXPOSE 7000
# The first process of a container takes no other signal. What was answered is in the log.
STOPSIGNAL SIGKILL
ENTRYPOINT ["/usr/bin/table_keeper"]
CMD ["--schema", "/tables.toml", "--listen", "tcp:0.0.0.0:7000", "--data", "/data"]
"""


class Missing(Exception):
    """What is not there that would be installed."""


def read(path):
    with open(path, "rb") as it:
        return it.read()


def built(name, ending):
    """The path of a built program; the ending is that of programs without proof, or empty."""
    path = f"{TOP}/crates/{name}/out/{name}{ending}"
    if not os.path.isfile(path):
        how = f"tools/quick_build {name}" if ending else f"tools/prove {name}"
        raise Missing(f"there is no {name}{ending}: `{how}` makes it")
    return os.path.realpath(path)


def help_of(path, *words):
    """What a program says of its words, on standard error."""
    return subprocess.run([path, *words, "--help"], stdin=subprocess.DEVNULL, capture_output=True, encoding="utf-8", timeout=60).stderr


def helps_of(name, path):
    return {"": help_of(path)} | ({it: help_of(path, it) for it in COMMANDS} if name == "table_server" else {})


def with_imports(files):
    """Files of tools/ and examples/ with those that they import."""
    found, left = set(), list(files)
    while left:
        file = left.pop()
        if file in found:
            continue
        found.add(file)
        names = [it.replace(".", "/") for it in IMPORT.findall(read(f"{TOP}/{file}").decode())]
        left += [path for name in names for path in (f"tools/{name}.py", f"examples/{name}.py") if os.path.isfile(f"{TOP}/{path}")]
    return sorted(found)


def files_of(prefix, is_unproved=False, has_unit=False, has_container=False):
    """The files by their paths below the prefix: the bytes and the mode of each, or the target of a link as a text."""
    ending, files = "-unproved" if is_unproved else "", {}
    for name in PROGRAMS:
        path = built(name, ending)
        files[f"bin/{name}{ending}"] = (read(path), 0o755)
        completion = bash(name, helps_of(name, path)).encode()
        files[f"share/bash-completion/completions/{name}"] = (completion, 0o644)
    for file in with_imports(TOOLS.values()):
        files[f"{OWN}/{file}"] = (read(f"{TOP}/{file}"), 0o755 if os.access(f"{TOP}/{file}", os.X_OK) else 0o644)
    files[f"{OWN}/crates/table_server/out/table_server{ending}"] = f"../../../../../bin/table_server{ending}"
    for name, file in TOOLS.items():
        files[f"bin/{name}"] = (f'#!/bin/sh\nexec python3 "$(dirname "$(readlink -f "$0")")/../{OWN}/{file}" "$@"\n'.encode(), 0o755)
    for name, (section, page, does) in PAGES.items():
        files[f"share/man/man{section}/{name}.{section}"] = (man_page(name, section, does, with_manuals(read(f"{TOP}/docs/{page}").decode())).encode(), 0o644)
    words = {"prefix": prefix, "keeper": f"table_keeper{ending}"}
    if has_unit:
        files["lib/systemd/system/table_keeper.service"] = (UNIT.format(**words).encode(), 0o644)
    if has_container:
        files["share/thwartcornel/Containerfile"] = (CONTAINER.format(**words).encode(), 0o644)
    files[LIST] = ("".join(f"{it}\n" for it in sorted([*files, LIST])).encode(), 0o644)
    return files


def with_manuals(text):
    """A page that names the manual pages in the place of those that they are made of."""
    manuals = {page: f"{name}({section})" for name, (section, page, _) in PAGES.items()}
    return re.sub(r"\[([A-Z]+\.md)\]\([^()]*\)", lambda it: manuals.get(it[1], it[1]), text)


def put(files, folder):
    """Puts files into a folder, each whole or not at all."""
    for path, it in sorted(files.items()):
        target = f"{folder}/{path}"
        os.makedirs(os.path.dirname(target), exist_ok=True)
        made = f"{target}.new"
        if os.path.lexists(made):
            os.remove(made)
        if isinstance(it, str):
            os.symlink(it, made)
        else:
            with open(made, "wb") as file:
                file.write(it[0])
            os.chmod(made, it[1])
        os.replace(made, target)


def take_away(folder):
    """Removes what was installed into a folder, and the folders that are empty then. Returns how many files there were."""
    with open(f"{folder}/{LIST}", encoding="utf-8") as it:
        paths = it.read().splitlines()
    for path in paths:
        if os.path.lexists(f"{folder}/{path}"):
            os.remove(f"{folder}/{path}")
        above = os.path.dirname(path)
        while above and os.path.isdir(f"{folder}/{above}") and not os.listdir(f"{folder}/{above}"):
            os.rmdir(f"{folder}/{above}")
            above = os.path.dirname(above)
    return len(paths)


def stop(tool, why):
    print(f"{tool}: {why}", file=sys.stderr)
    sys.exit(1)
