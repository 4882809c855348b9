"""An edit of a crate, and which edits one check can judge together."""
import os

from .functions import HEAD, at_place, functions_of, line_of

# How many edits and attacks one check judges at most.
MOST = 80


def read(path):
    with open(path, encoding="utf-8") as it:
        return it.read()


def replaced(text, changes):
    """Returns the text with each stretch replaced, by its places in the text as it is."""
    for start, end, new in sorted(changes, reverse=True):
        text = text[:start] + new + text[end:]
    return text


class Edit:
    """The stretches of text that an edit replaces, the functions that they lie in, and the verdict."""

    def __init__(self, crate, name):
        self.crate, self.name = crate, name
        self.changes = []  # (file, start, end, new text)
        self.additions = []  # those of them that put a new function in the place of a comment
        self.targets = []  # the functions that it changes
        self.spans = []  # (file, first line, last line) of these functions, or of the line itself
        self.is_shared = False  # whether it changes what other functions can see
        self.in_place = False  # whether it was tried on a copy of its function, which decided nothing
        self.is_unchanged = False  # whether it is no edit, and only tries a copy
        self.verdict, self.why = None, ""

    def settle(self, verdict, why):
        self.verdict, self.why = verdict, why

    def is_copied(self):
        """Tests whether it is tried on a copy of its function."""
        is_one = not self.is_shared and len(self.keys_in_place()) == 1
        return is_one and self.targets[0].is_copyable and not self.in_place

    def keys(self):
        """Returns what no other edit of its check may change."""
        return set() if self.is_copied() else self.keys_in_place()

    def keys_in_place(self):
        return {it.key() for it in self.targets}

    def apart(self, has_others=False):
        """Has it tried in its place, since a copy decided nothing. Of a copy that nothing changes that is the verdict.

        has_others: others were tried in their place, and may be why the copy decided nothing.
        """
        self.in_place, self.verdict = not self.is_unchanged, "bad" if self.is_unchanged and not has_others else None
        self.why = self.why or "its copy does not compile"

    def replace(self, file, text, start, end, new):
        """Adds a stretch of a file, whose text this is."""
        function = None
        if file.startswith("src/"):
            function = at_place(functions_of(self.crate, file, text), start)
        self.changes.append((file, start, end, new))
        if not function and text.startswith("//", start) and HEAD.match(new):
            self.additions.append(self.changes[-1])
        begin, last = (function.begin, function.end) if function else (start, end)
        # (an addition's before those of functions)
        at = len(self.additions) - 1 if self.changes[-1] in self.additions else len(self.spans)
        self.spans.insert(at, (file, line_of(text, begin), line_of(text, last)))
        self.targets += [function] if function else []
        self.is_shared = len(self.additions) + len(self.targets) < len(self.changes)


def unchanged(edit):
    """Returns an edit that changes nothing, to be tried on a copy of the function that this edit changes."""
    it = Edit(edit.crate, f"copy of {edit.targets[0].name} in {edit.changes[-1][0]}")
    it.targets, it.spans, it.is_unchanged = edit.targets[:1], edit.spans[-1:], True
    it.changes = [(edit.changes[-1][0], edit.targets[0].begin, edit.targets[0].begin, "")]
    return it


def add_pair(edit, folder, file, of, old, new):
    """Adds a pair of texts, which applies to what the pairs before it made of the file."""
    text = read(f"{folder}/{file}") if file and old and os.path.isfile(f"{folder}/{file}") else ""
    own = [it[1:] for it in edit.changes if it[0] == file]
    now, first, last = replaced(text, own), 0, None
    if of:
        named = [it for it in functions_of(edit.crate, file, text) if of in (it.name, it.name.rpartition("::")[2])]
        now, own = text, []
        first, last = (named[0].begin, named[0].end) if len(named) == 1 else (0, 0)
    count, start = now.count(old or "\0", first, last), now.find(old or "\0", first, last)
    # (the places of a change are those in the text as it was)
    for begin, end, put in sorted(own):
        start -= len(put) - (end - begin) if start >= begin + len(put) else 0
    if count != 1 or old == new or text[start : start + len(old)] != old:
        edit.settle("bad", f"its old text is in {file} {count} times, and not once, or its new text is the same")
        return
    edit.replace(file, text, start, start + len(old), new)


def grouped(its):
    """Puts edits and attacks into as few groups as one check each can judge, of about one size.

    No two of a group change one function in its place, and what other functions can see is changed alone.
    """
    alone = [[it] for it in its if it.is_shared]
    rest = [it for it in its if not it.is_shared]
    groups = [[] for _ in range(-(-len(rest) // MOST))]
    # (first what is changed in its place: as few checks as can be prove again what rests on that)
    for it in sorted(rest, key=lambda it: not it.keys()):
        free = [of for of in groups if not any(other.keys() & it.keys() for other in of)]
        if not free:
            free = [[]]
            groups += free
        (free[0] if it.keys() else min(free, key=len)).append(it)
    return [*groups, *alone]
