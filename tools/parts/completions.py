"""Makes completions of a shell for a program: of the words that its own help tells. Pure functions."""
import re

OPTION = re.compile(r"(?m)^ +(?:-\w, )?(--[\w-]+)(?: <(\w+)>)?(.*)$")
COMMAND = re.compile(r"(?m)^  ([a-z]\w*)  +\S")

# How a value is completed, by what the help calls it. (`return` alone leaves it to the person.)
HOW = {
    "FILE": 'COMPREPLY=($(compgen -f -- "$word")); return',
    "NEW": 'COMPREPLY=($(compgen -f -- "$word")); return',
    "FOLDER": 'COMPREPLY=($(compgen -d -- "$word")); return',
    "ADDRESS": 'COMPREPLY=($(compgen -W "unix: tcp:127.0.0.1:" -- "$word")); return',
    "INDEX": "return",
    "NAME": "return",
    "NUMBER": "return",
    "OBJECT": "return",
    "SECONDS": "return",
    "WHEN": 'COMPREPLY=($(compgen -W "each second never" -- "$word")); return',
}


def commands_of(help_text):
    """The words of a program that stand before its options."""
    part = re.search(r"(?ms)^Commands:\n(.*?)\n\n", help_text)
    return [it for it in COMMAND.findall(part[1] + "\n") if it != "help"] if part else []


def options_of(help_text):
    """The options, each with the kind of its value, or None."""
    part = re.search(r"(?ms)^Options:\n(.*?)(?:\n\n|\Z)", help_text)
    return {option: kind or None for option, kind, _ in OPTION.findall(part[1])} if part else {}


def bash(program, helps):
    """Completion of bash, and of zsh by its `bashcompinit`; helps has the help of the program alone, under "", and of each of its commands."""
    commands, name = commands_of(helps[""]), f"_{program}"
    options = {command: options_of(text) for command, text in helps.items()}
    values = {option: kind for its in options.values() for option, kind in its.items() if kind}
    cases = [f"        {'|'.join(it for it in values if values[it] == kind)}) {how} ;;" for kind, how in HOW.items() if kind in values.values()]
    words = [f"        {command}) words='{' '.join(options[command])}' ;;" for command in commands]
    lines = [
        f"# Completion for {program}, made of its help: bash reads this file by itself, and zsh after `autoload -U bashcompinit && bashcompinit`.",
        f"{name}() {{",
        '    local word=${COMP_WORDS[COMP_CWORD]} before=${COMP_WORDS[COMP_CWORD - 1]} words',
        "    COMPREPLY=()",
        "    case $before in",
        *cases,
        "    esac",
        '    case ${COMP_WORDS[1]} in',
        *words,
        f"        *) words='{' '.join([*commands, *options['']])}' ;;",
        "    esac",
        '    COMPREPLY=($(compgen -W "$words" -- "$word"))',
        "}",
        f"complete -o filenames -F {name} {program}",
    ]
    return "\n".join(lines) + "\n"
