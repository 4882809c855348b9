"""Scenarios beside what they print: those that documents show, and those of tests/scenarios.

A line of a scenario is at the left, and what it prints at the right, after two spaces or more, and below that. The line
`fault: ..` is on standard error, and says that the run ends with status 1. A fault or a blank line ends a scenario, and
another one follows. At the left \\t, \\r, \\n, \\\\ and \\x20 are bytes; \\c at the end leaves out the line feed.

In tests/scenarios/FILE.txt a line without indentation says what the scenarios below it show. One that begins with --
has the options of those below it, and one that begins with # is a remark. Scenarios are indented by four spaces.
"""
import glob
import os
import re
import subprocess
import typing

from model import scenario as model

TOP = os.path.dirname(os.path.dirname(os.path.abspath(__file__)))
FOLDER = "tests/scenarios"
SECONDS = 900


def first_difference(wanted, found):
    for at in range(max(len(wanted), len(found))):
        left = wanted[at] if at < len(wanted) else "(no line)"
        right = found[at] if at < len(found) else "(no line)"
        if left != right:
            return "line %d: shown %r, so is %r" % (at + 1, left, right)
    return "no difference"


class Ran(typing.NamedTuple):
    """How a run ended, and what it wrote."""

    status: typing.Union[int, str]
    out: str
    err: str


class Case(typing.NamedTuple):
    """An input of a program, the words of its command line, and the lines that it writes."""

    name: str
    words: tuple
    data: bytes
    shown: tuple

    def difference(self, ran):
        """How a run differs from what is shown, or None."""
        faults = tuple(line for line in ran.err.split("\n") if line.startswith("fault: "))
        found = tuple(ran.out.split("\n")[:-1]) + faults
        status = 1 if any(line.startswith("fault: ") for line in self.shown) else 0
        if found != self.shown:
            return first_difference(self.shown, found)
        if ran.status != status:
            return "status %s, and not %d: %s" % (ran.status, status, ran.err.strip()[-500:])
        if faults and faults[-1].startswith("fault: 25 "):
            return self.difference_of_reason(ran)
        return None

    def difference_of_reason(self, ran):
        """How the reason of a bad line differs from that of the model, or None."""
        wanted, found = (re.findall("^reason: .*$", it.err, re.M) for it in (self.of_model(), ran))
        return None if found == wanted else "the reason is %s, and not %s" % (found, wanted)

    def run(self, program):
        """Runs a program at the top of the repository."""
        done = subprocess.run([program, *self.words], cwd=TOP, input=self.data, stdout=subprocess.PIPE,
                              stderr=subprocess.PIPE, timeout=SECONDS)
        return Ran(done.returncode, done.stdout.decode(errors="replace"), done.stderr.decode(errors="replace"))

    def of_model(self):
        """What the model of scenarios in tests/model does."""
        options = {name[2:].replace("-", "_"): int(value) for name, value in zip(self.words[::2], self.words[1::2])}
        return Ran(*model.run(self.data, **options))


def bytes_of(line):
    text = line[:-2] if line.endswith("\\c") else line + "\n"
    return text.encode().decode("unicode_escape").encode("latin-1")


def scenarios_in(lines):
    """The scenarios of a block: the number of a line, counted from 0, the text, and the lines that it prints."""
    first, text, shown = None, b"", ()
    for number, line in enumerate([*lines, ""]):
        left, right = re.match(r"(.*?)(?: {2,}(.*))?$", line).groups()
        if first is None and line:
            first = number
        text += bytes_of(left) if left else b""
        shown += (right,) if right else ()
        if first is not None and (not line or shown and shown[-1].startswith("fault: ")):
            yield first, text, shown
            first, text, shown = None, b"", ()


def in_block(page, lines):
    """The cases of a block of a document."""
    return [Case("%s: %s" % (page, lines[first]), (), text, shown) for first, text, shown in scenarios_in(lines)]


def in_file(path, lines):
    """The cases of a file of tests/scenarios."""
    what, words, block, begins, count = None, (), [], 0, 1
    for number, line in enumerate([*lines, "the end"], 1):
        if line.startswith("    ") or not line:
            begins = begins if block else number
            block.append(line[4:])
            continue
        for first, text, shown in scenarios_in(block):
            count += 1
            where = "%s:%d" % (path, begins + first)
            if not what or not shown:
                raise ValueError("%s: a scenario needs a line that says what it shows, and what it prints" % where)
            yield Case("%s: %s" % (where, what), words, text, shown)
        block = []
        if line.startswith("--"):
            words = tuple(line.split())
        elif not line.startswith("#"):
            if not count:
                raise ValueError("%s: no scenario is below this line: %s" % (path, what))
            what, words, count = line, (), 0


def long_cases():
    """Those that are too long to be written: inputs at their limit, the longest commands, and all shares in use."""
    ended, finished = "end messages 0 left 0", "finished received 0 left %d live 0"
    lines = b"\n" * (2**20 - 3) + b"end"
    yield Case("an input of 1,048,576 bytes", (), lines, (ended,))
    yield Case("an input of one byte more", (), lines + b"\n", ("fault: input too long",))
    for line, most in ((b"allocate 1 ", 4076), (b"own 9 1 ", 4068)):
        for size, shown in ((most, ("sent 0", ended, finished % 1)), (most + 1, ("fault: 25 BadLine 1",))):
            text = line + b"00" * size + b" -\nend\n"
            yield Case("%s with a key of %d bytes" % (line.decode(), size), ("--commands", "32768"), text, shown)

    def taken(kind):
        return tuple("%s %d" % (kind, number) for number in range(1, 65536)) + ("refused 12 NoShares",)

    listen, watch = b"listen\n" * 65536, b"watch\n" * 65536
    yield Case("65,536 receivers", (), b"subscribe\n" * 65536 + b"leave 1\nsubscribe\nend\n",
               taken("receiver") + ("ok", "receiver 65536", ended))
    yield Case("65,536 listeners", (), listen + b"watch\nend\n",
               taken("listener") + ("watcher 1", ended, finished % 0))
    last = taken("watcher") + ("ok", "watcher 65536", ended, finished % 0)
    yield Case("65,536 watchers", (), watch + b"unwatch 1\nwatch\nend\n", last)
    yield Case("65,536 listeners and watchers", (), listen + watch + b"unwatch 1\nwatch\nend\n",
               taken("listener") + last)


def in_folder():
    """The cases of tests/scenarios."""
    for path in sorted(glob.glob(os.path.join(glob.escape(TOP), FOLDER, "*.txt"))):
        with open(path, encoding="utf-8") as file:
            yield from in_file(os.path.relpath(path, TOP), file.read().split("\n"))


def samples():
    """The first case below each line of tests/scenarios that says what cases show."""
    found = {}
    for case in in_folder():
        found.setdefault(re.sub(r":\d+: ", ": ", case.name), case)
    return list(found.values())


def stored():
    """The cases of tests/scenarios, and those that are too long for a file."""
    return [*in_folder(), *long_cases()]
