"""Reads the edits and attacks of a crate from its files."""
import os
import re
import sys

from .attacks import Attack
from .edits import Edit, add_pair, read

EDITS, ATTACKS, ONE_BY_ONE = "wrong-bodies.txt", "attacks.txt", "must-fail"
HEADING = re.compile(r"^== ([\w-]+)\n", re.M)


def entries(path):
    """Returns the entries of a file by name, in its order: the text after each heading `== NAME` up to the next one."""
    before, *parts = HEADING.split(read(path)) if os.path.isfile(path) else [""]
    names, texts = parts[::2], [it.rstrip("\n") + "\n" for it in parts[1::2]]
    if before.strip():
        sys.exit(f"{path}: its first line is no heading `== NAME`")
    refuse_twice(names, path)
    return dict(zip(names, texts))


def refuse_twice(names, path):
    """Ends the run if there are two entries of one name."""
    twice = {it for it in names if names.count(it) > 1}
    if twice:
        sys.exit(f"{path}: there are two of {' '.join(sorted(twice))}")


def edit_of(top, crate, name, text):
    """Reads an edit from lines `file: FILE`, `old: TEXT`, `new: TEXT`.

    A line `fn: NAME` or `fn: TYPE::NAME` before an `old:` names the function whose body has the text once.
    """
    edit, file, of, old = Edit(crate, name), None, None, None
    for line in text.split("\n"):
        word, _, rest = line.partition(" ")
        if word == "file:":
            file, of = rest.strip(), None
        elif word == "fn:":
            of = rest.strip()
        elif word == "old:" and old is None:
            old = rest
        elif word == "new:" and old is not None:
            if not edit.verdict:
                add_pair(edit, f"{top}/crates/{crate}", file, of, old, rest)
            old = None
        elif line and word != "verdict:":
            edit.settle("bad", f"its line `{line}` is at no place that it can have")
    if not edit.verdict and (old is not None or not edit.changes):
        edit.settle("bad", "it has no pair of an old and a new text")
    return edit


def tries_in(top, crate, folder):
    """Reads the edits and attacks of a crate that the files in a folder hold."""
    found = [edit_of(top, crate, *it) for it in entries(f"{folder}/{EDITS}").items()]
    found += [Attack(crate, *it) for it in entries(f"{folder}/{ATTACKS}").items()]
    refuse_twice([it.name for it in found], folder)
    return found


def tried_one_by_one(top, crate):
    """Reads the edits of a crate that `rt ci` tries, each from a file of its own."""
    folder = f"{top}/crates/{crate}/{ONE_BY_ONE}"
    names = sorted(os.listdir(folder) if os.path.isdir(folder) else [])
    return [edit_of(top, crate, it.removesuffix(".edit"), read(f"{folder}/{it}")) for it in names]
