"""By what an edit is refused: by its contract, or by the form of a proof that is written by hand."""
import os
import re

from gate.rattle_source import functions_of

VALUES, SEARCH, FORM, UNTOLD = KINDS = "by values", "by search", "by form", "untold"
# What stands behind the words of a refusal by values, and behind those that name no goal of a function with a proof by hand.
SHOWN, BY_HAND = "; values show a goal false", "; its proof is written by hand"
# A goal of a loop's invariant or of its end: both are written by hand. The first is its name, the second what is told of it.
INVARIANT = re.compile(r"loop-.*(init|preserved|decreases)")
OF_LOOP = re.compile(r"that the invariant of the loop holds|that the loop ends")
# What a check says of a goal of the source, and what of a declaration of a proof.
GOAL = re.compile(r"(note: )?(\./)?src/\S+:\d+:\d+:.*it is not proved")
DECLARATION = re.compile(r"(note: )?(\./)?proofs/\S+:\d+:\d+:.*error")
FALSE = re.compile(r"(?m)^(?:note: )?(?:\./)?(src/\S+?):(\d+):\d+:(.*)allow values at which this goal is false")


def is_shown_false(said, texts, functions):
    """Whether a check of these texts found values at which a goal of one of these functions, each by its file and its name, is false. (What is chosen by
    hand of a loop counts for nothing.)"""
    lines = [(file, int(line)) for file, line, told in FALSE.findall(said.text) if not OF_LOOP.search(told)]
    for file, name in functions:
        text = texts[file]
        for it in functions_of(file, text):
            first, last = (text.count("\n", 0, place) + 1 for place in (it.key[1], it.body[1]))
            if it.name == name and any(where == file and first <= line <= last for where, line in lines):
                return True
    return False


def has_by_hand(folder, symbols, name=""):
    """Whether the proof of one of these functions has a file by hand, or one of this name, in the crate of this folder."""
    places = [f"{folder}/proofs/{'/'.join(it.split('::')[1:])}" for it in symbols]
    return any(os.path.isfile(f"{it}/{name}") if name else os.path.isdir(it) for it in places)


def words_behind(said, texts, edit):
    """What stands behind the words of a refusal. Behind a loop only that is known which its invariant keeps, and this is chosen by hand: there values
    show nothing."""
    folder, symbols = edit.crate.folder, [*edit.symbols, *edit.inner]
    if not has_by_hand(folder, symbols, "Invariants.antt") and is_shown_false(said, texts, edit.tried_functions()):
        return SHOWN
    named = any("`search` did not prove" in said.functions.get(it, "") for it in [*edit.tried_symbols(), *edit.tried_inner()])
    return "" if named or not has_by_hand(folder, symbols) else BY_HAND


def kind_of(words):
    """The kind of a refusal, by the words with which it is told. By values: a goal of the function is false at some. By search: a goal is not proved
    without a proof by hand. By form: an invariant, or another declaration that is written by hand, is refused."""
    if words.endswith(SHOWN):
        return VALUES
    goals = re.search(r"`search` did not prove (.*)", words)
    if goals:
        names = re.findall(r"`([^`]*)`", goals[1])
        return FORM if names and all(INVARIANT.search(it) for it in names) else SEARCH
    if "antt refuses " in words or words.endswith(BY_HAND):
        return FORM
    told = re.match(r"(?:kept: )?alone, [^:]*(?:::[^:]+)*: (.*)", words)
    if told and GOAL.match(told[1]) and not OF_LOOP.search(told[1]):
        return SEARCH
    return FORM if told and (DECLARATION.match(told[1]) or OF_LOOP.search(told[1])) else UNTOLD
