"""Reads crates/ring_c/exports.txt, whose first lines say what it has."""
import re
import typing

KEY = re.compile(r"((?:requires|ensures)(?: \w+)?|out|call|body):(?: (.*))?$")


class Row(typing.NamedTuple):
    name: str
    entries: typing.List[typing.List[str]]  # a key and its text

    @property
    def clauses(self):
        return [(key, text) for key, text in self.entries if re.match("requires|ensures", key)]

    @property
    def effect(self):
        """The definition that its last clause applies."""
        return self.clauses[-1][1].split()[0]

    def said(self, wanted):
        return next((text for key, text in self.entries if key == wanted), None)


class File(typing.NamedTuple):
    name: str
    about: str  # its first line
    imports: typing.List[str]  # the import lines that do not follow from its words
    rows: typing.List[Row]


def files_of(table):
    """The files that the table lists, each with its rows."""
    files = []
    for number, line in enumerate(table.split("\n"), 1):
        key = KEY.match(line)
        if line.startswith("file: "):
            files.append(File(*line[len("file: "):].split(" ", 1), [], []))
        elif line.startswith(("use ", "ghost use ")):
            files[-1].imports.append(line)
        elif line.startswith("== "):
            files[-1].rows.append(Row(line[len("== "):], []))
        elif key:
            files[-1].rows[-1].entries.append([key[1], key[2] or ""])
        elif line.startswith("    "):
            files[-1].rows[-1].entries[-1][1] += "\n" + line[4:]
        elif line and not line.startswith("#"):
            raise SystemExit(f"c/bindings: crates/ring_c/exports.txt has a line {number} that is of no kind")
    return files
