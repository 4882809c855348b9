"""Copies of memory beside what ring-show prints of them: the cases of tests/snapshots.

In tests/snapshots/FILE.txt a line that begins with `$ ring-show` has the command of the cases below it; `-` is standard
input, and `{}` is a file with the name `case`. A line that begins with `<` says what the command reads:

- NAME is a file of examples/snapshots;
- 0*N is N words of 0;
- INDEX=WORD is another word at this index of all words before.

Below it, lines indented by four spaces are what the command prints. A line `...` matches any number of lines. Lines
that begin with `!` are on standard error. If there is such a line, the status is 1, and otherwise 0. Any other line
says what the cases below it show, and a line that begins with # is a remark.
"""
import glob
import os
import re

from cases import TOP, Case, first_difference

FOLDER = "tests/snapshots"


class Listing(Case):
    """A copy of memory, the words of a command line, and the lines that it prints."""

    def difference(self, ran):
        errors = ["! " + line for line in ran.err.split("\n")[:-1]]
        found = ran.out.split("\n")[:-1] + errors
        lines = ["(.*\n)*" if line == "..." else re.escape(line + "\n") for line in self.shown]
        status = 1 if self.shown[-1].startswith("! ") else 0
        if not re.fullmatch("".join(lines), "".join(line + "\n" for line in found)):
            return "%s; printed: %s" % (first_difference(self.shown, found), "\n".join(found))
        return None if ran.status == status else "status %s, and not %d" % (ran.status, status)


def image_of(parts):
    """The bytes of a copy of memory."""
    image = bytearray()
    for part in parts:
        if part.startswith("0*"):
            image += bytes(8 * int(part[2:]))
        elif "=" in part:
            index, word = (int(it, 0) for it in part.split("="))
            image[8 * index:8 * index + 8] = (word % 2**64).to_bytes(8, "little")
        else:
            with open(os.path.join(TOP, "examples/snapshots", part), "rb") as file:
                image += file.read()
    return bytes(image)


def in_file(path, lines):
    """The cases of a file."""
    what, words, image, shown, where = None, (), None, [], ""
    for number, line in enumerate([*lines, "the end"], 1):
        if line[:4] == "    " or line[:2] == "! ":
            shown.append(line[4:] if line[0] == " " else line)
            continue
        if shown:
            if not what or not words or image is None:
                raise ValueError(f"{where}: a case needs a line that says what it shows, a command, and what it reads")
            yield Listing("%s: %s" % (where, what), words, image, tuple(shown))
            image, shown = None, []
        where = "%s:%d" % (path, number)
        if line.startswith("$ ring-show "):
            words = tuple(line.split()[2:])
        elif line.startswith("< "):
            image = image_of(line.split()[1:])
        elif line and not line.startswith("#"):
            what = line


def stored():
    """The cases of tests/snapshots."""
    for path in sorted(glob.glob(os.path.join(glob.escape(TOP), FOLDER, "*.txt"))):
        with open(path, encoding="utf-8") as file:
            yield from in_file(os.path.relpath(path, TOP), file.read().split("\n"))
