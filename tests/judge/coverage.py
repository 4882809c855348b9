"""Which public functions whose contract ensures something no edit changes, in all crates but those of tests.

A function is covered if an edit of its crate changes its body, or if its body only passes on: apart from a macro around
it, it is one call of one function of this repository that is covered, whose arguments are names and fields. A call is
taken by its name and the number of its arguments: if it can be of several functions, each of them has to be covered.
Laws, whose bodies are empty, are left out, and what tests/uncovered.txt lists in lines `CRATE FUNCTION: REASON`.
"""
import os
import re
from collections import defaultdict

from .edits import read
from .functions import functions_of
from .stored import tried_one_by_one, tries_in

EXCEPTIONS = "tests/uncovered.txt"
CLAUSE = re.compile(r"^\s*ensures\b", re.M)
# What the code of a body has beside comments: texts, and the types of a call.
NO_CODE = re.compile(r"//.*|\"(?:[^\"\\]|\\.)*\"|'(?:[^'\\]|\\.)'|::<[^()]*?>(?=\()")
CALL = re.compile(r"(?:\b(\w+)::|(\.))?\b([a-z_]\w*)\(")
# What a body that only passes on may have beside its call: names, fields, references, patterns and macros.
PASSES = re.compile(r"(?:[\s(),.&|{}]|=>|::|\bmut\b|\w+!|\b[A-Za-z_]\w*\b)*")
CHOICES = re.compile(r"\b(?:if|match|while|for|loop|return|let|true|false)\b|\b[A-Z][A-Z_\d]+\b|\w::[A-Z]")


def code_of(text, function):
    """Returns the body of a function without comments, texts and what is for the proofs alone."""
    lines = NO_CODE.sub("", text[function.begin : function.end]).split("\n")
    return " ".join(it.strip() for it in lines if it.strip() and not it.strip().startswith("ghost "))


def count_in(text):
    """Returns how many arguments or parameters follow, up to the closing bracket, without a `self`."""
    depth, parts = 0, [""]
    for it in text:
        depth += (it in "([{<") - (it in ")]}>")
        if depth < 0:
            break
        if it == "," and depth == 0:
            parts.append("")
        else:
            parts[-1] += it
    return sum(bool(it.strip()) and not re.search(r"\bself$", it.strip()) for it in parts)


def call_in(code):
    """Returns the call that a body only passes on to.

    That is the type or module before its name, or ".", the name, and the number of its arguments.
    """
    calls = [*CALL.finditer(code)]
    if len(calls) != 1 or not PASSES.fullmatch(code) or CHOICES.search(code):
        return None
    of, dot, name = calls[0].groups()
    return of or dot, name, count_in(code[calls[0].end() :])


def sources_of(top, crate):
    """Returns the text of each source file of a crate, by its path in the crate's folder."""
    folder = f"{top}/crates/{crate}"
    walked = (f"{at}/{it}" for at, _, names in os.walk(f"{folder}/src") for it in names if it.endswith(".rt"))
    return {os.path.relpath(it, folder): read(it) for it in sorted(walked)}


class Coverage:
    """The functions of all crates, and which of them edits cover."""

    def __init__(self, run, top):
        self.run, self.functions, self.named = run, defaultdict(list), defaultdict(list)
        self.codes, self.counts = {}, {}
        self.changed, self.public = set(), set()
        for crate in (it for it in run.lines if not it.endswith("_tests")):
            for file, text in sources_of(top, crate).items():
                for it in functions_of(crate, file, text):
                    self.add(crate, text, it)
            tries = [*tries_in(top, crate, f"{top}/crates/{crate}"), *tried_one_by_one(top, crate)]
            self.changed.update(target.key() for it in tries for target in it.targets)

    def add(self, crate, text, function):
        key = function.key()
        self.functions[crate].append(function)
        self.named[function.plain()].append((crate, function))
        self.codes[key] = code_of(text, function)
        self.counts[key] = count_in(re.sub("->", "", text[function.named : function.begin]).partition("(")[2])
        line = text[text.rfind("\n", 0, function.named) + 1 : function.named]
        if line.lstrip().startswith("pub ") and CLAUSE.search(text[function.item : function.begin]):
            self.public.add(key)

    def is_covered(self, crate, function, seen=()):
        """Tests whether an edit changes a function, or what its body only passes on to."""
        key, call = function.key(), call_in(self.codes[function.key()])
        if key in self.changed:
            return True
        if not call or key in seen:
            return False
        found = [it for it in self.called(crate, *call) if it[1].key() != key]
        return bool(found) and all(self.is_covered(*it, (*seen, key)) for it in found)

    def called(self, crate, of, name, count):
        """Returns the functions that a call in a crate can be of."""
        visible = self.run.all_below(crate)
        found = [it for it in self.named[name] if it[0] in visible and self.counts[it[1].key()] == count]
        if of == ".":
            return [it for it in found if "::" in it[1].name]
        exact = [it for it in found if it[1].name == f"{of}::{name}"]
        return exact or [it for it in found if "::" not in it[1].name]

    def uncovered(self):
        """Returns the public functions with a contract and a body that no edit covers, each with its crate."""
        return [(crate, it.name) for crate, its in self.functions.items() for it in its
                if it.key() in self.public and self.codes[it.key()] and not self.is_covered(crate, it)]


def exceptions(top):
    """Returns the functions that need no edit, each with its crate."""
    return re.findall(r"^(\w+) (\S+): \S", read(f"{top}/{EXCEPTIONS}"), re.M)


def report_uncovered(run, top):
    """Prints the functions that are neither covered nor an exception, and the exceptions that are none.

    Returns how many those are.
    """
    found, known = Coverage(run, top).uncovered(), exceptions(top)
    wrong = [f"{crate} {name}: no edit changes it" for crate, name in found if (crate, name) not in known]
    wrong += [f"{crate} {name}: {EXCEPTIONS} has it, and it needs no exception" for crate, name in known
              if (crate, name) not in found]
    print("".join(f"{it}\n" for it in wrong), end="")
    return len(wrong)
