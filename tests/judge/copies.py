"""Writes edits into a crate: each on a copy of its function, beside the right one, or in its place."""
import os
import re
import shutil

from .attacks import Attack, put_attacks
from .edits import read, replaced
from .functions import line_of, module_of
from .log import MARK

PROOFS = ("Answers.antt", "Invariants.antt", "Proof.antt")


class Copy:
    """A copy of a function under another name, whose body has some stretches replaced."""

    def __init__(self, edit, number):
        own = [it for it in edit.changes if it not in edit.additions]
        self.function, self.file, self.changes = edit.targets[0], own[0][0], [it[1:] for it in own]
        self.name = f"{self.function.plain()}_wrong_{number}"
        self.target = self.function.called(self.name)

    def text(self, source):
        """Returns the text of the copy, from that of the file."""
        it = self.function
        name = (it.named, it.named + len(it.plain()), self.name)
        changes = [(begin - it.item, end - it.item, new) for begin, end, new in [*self.changes, name]]
        return "\n" + replaced(source[it.item : it.after], changes)


def put_sources(folder, changed, copies):
    """Writes these changes and copies into a copy of the crate.

    Returns (file, first line, last line) of each copy, and (file, line, lines) that were put before a line of old.
    """
    spans, moved = {}, []
    for file in {change[0] for change in changed} | {it.file for it in copies}:
        source, text, place = read(f"{folder}/{file}"), "", 0
        puts = [(*change[1:], None) for change in changed if change[0] == file]
        puts += [(it.function.after, it.function.after, it.text(source), it) for it in copies if it.file == file]
        for begin, end, new, copy in sorted(puts, key=lambda it: it[:2]):
            text += source[place:begin] + new
            place = end
            if copy:
                moved.append((file, line_of(source, begin), new.count("\n")))
                spans[copy] = (file, text.count("\n") - new.count("\n") + 1, text.count("\n"))
        with open(f"{folder}/{file}", "w", encoding="utf-8") as it:
            it.write(text + source[place:])
    return spans, moved


def proved_in(crate, folder):
    """Returns the functions that have proof files: the name that a check gives each, and its folder."""
    found = {}
    for at, _, names in os.walk(f"{folder}/proofs"):
        if any(it in PROOFS for it in names):
            found["::".join([crate, *os.path.relpath(at, f"{folder}/proofs").split("/")])] = at
    return found


def types_in(folder):
    """Returns the folder below proofs/ of each type that a crate declares."""
    found = {}
    for at, _, names in os.walk(f"{folder}/src"):
        for file in (os.path.relpath(f"{at}/{it}", folder) for it in names):
            for kind in re.findall(r"^(?:pub(?:\([\w: ]+\))? )?(?:struct|enum) (\w+)", read(f"{folder}/{file}"), re.M):
                found[kind] = f"{module_of(file)}/{kind}"
    return found


def put_mark(folder):
    """Writes the mark into the answers of a copy. With it a check ends without the search for what it can offer."""
    if not os.path.exists(f"{folder}/Proof.antt"):
        os.makedirs(folder, exist_ok=True)
        with open(f"{folder}/Answers.antt", "a", encoding="utf-8") as out:
            out.write(f"\npub {MARK} : Type 0\n")


def put_proofs(crate, folder, proved, copies):
    """Copies the proof files of each copied function, so that they speak of the copy.

    Returns the name that a check gives the function whose files each copy has, if there are any.
    """
    named, types = {}, types_in(folder)
    for it in copies:
        found = it.function.among(proved)
        if len(found) != 1:
            put_mark(f"{folder}/proofs/{types.get(it.function.folder, it.function.folder)}/{it.name}")
            continue
        named[it] = found[0]
        own = proved[found[0]]
        to = f"{os.path.dirname(own)}/{it.name}"
        shutil.copytree(own, to)
        path = re.escape(found[0].removeprefix(f"{crate}::").rpartition("::")[0].replace("::", "."))
        plain = it.function.plain()
        names = re.compile(rf"(\bRattle\.{crate}\.(?:proofs|specs\.contracts)\.{path and path + '[.]'}){plain}\b")
        for at, _, files in os.walk(to):
            for file in files:
                text, count = names.subn(rf"\1{it.name}", read(f"{at}/{file}"))
                text = re.sub(rf"(?<![\w.]){plain}_spec\b", f"{it.name}_spec", text)
                with open(f"{at}/{file}", "w", encoding="utf-8") as out:
                    out.write(text)
                if not count:
                    # (whose goals it answers cannot be seen)
                    named[it] = "?"
        put_mark(to)
    return named


class Trial:
    """Edits and attacks that one check judges, and the copies of functions that stand in for edits."""

    def __init__(self, crate, its):
        self.crate, self.its, self.lines, self.given, self.proved = crate, its, {}, {}, {}
        self.copies = {it: Copy(it, number) for number, it in enumerate(its) if it.is_copied()}

    def put(self, folder):
        """Writes them into a copy of the crate."""
        copies = list(self.copies.values())
        self.proved = proved_in(self.crate, folder)
        self.given = put_proofs(self.crate, folder, self.proved, copies)
        changes = [of for it in self.its for of in (it.additions if it in self.copies else it.changes)]
        spans, moved = put_sources(folder, changes, copies)
        for it in self.its:
            down = lambda file, line: line + sum(lines for of, at, lines in moved if of == file and at <= line)
            kept = [(file, down(file, first), down(file, last)) for file, first, last in it.spans]
            self.lines[it] = [*kept[: len(it.additions)], spans[self.copies[it]]] if it in self.copies else kept
        put_attacks(folder, [it for it in self.its if isinstance(it, Attack)])

    def modules_alone(self, folder):
        """Returns the modules that a check of these has to read, if those are copies in a small part of the crate.

        Otherwise it returns none, and has to check the whole crate.
        """
        files = {it.file for it in self.copies.values()}
        sizes = {f"{at}/{it}": os.path.getsize(f"{at}/{it}") for at, _, its in os.walk(f"{folder}/src") for it in its}
        is_small = 4 * sum(sizes[f"{folder}/{it}"] for it in files) < sum(sizes.values())
        modules = [module_of(it).replace("/", "::") for it in sorted(files)]
        return modules if len(self.copies) == len(self.its) and is_small and all(modules) else []

    def targets(self, it):
        """Returns the functions whose goals decide on an edit."""
        return [self.copies[it].target] if it in self.copies else it.targets

    def has_line(self, it, file, line):
        """Tests whether a line, which the front end names, is of an edit."""
        return any(file == of and first <= line <= last for of, first, last in self.lines[it])

    def verdict(self, it, log):
        """Returns the verdict on one of them by the log of its check, and why."""
        if isinstance(it, Attack):
            return it.verdict_of(log)
        if it not in self.copies:
            return log.verdict(it.targets)
        copy = self.copies[it]
        right = log.find(copy.function)
        if right is None or self.given.get(copy) != (right if right in self.proved else None):
            return "undecided", "its copy has not the proof files of its function"
        return log.verdict([copy.target])
