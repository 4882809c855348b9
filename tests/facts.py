"""What tests/documents asks of the table in docs/USING.md of the facts that calls of ends require, and of numbers in
docs/TESTING.md."""
import glob
import os
import re

import prose
from attacks.sabotages import IN_CALLS, IN_MEETINGS
from judge.stored import entries

TESTING = "docs/TESTING.md"
PAGE = "docs/USING.md"
HEADING = "\n## Facts that calls require\n"
CALLS = "crates/ring_ends/CALLING.md"
# The page says these in the list below its tables, and a call `of` makes an end of its parts.
IN_WORDS = r"\bnow ≤ 2 \^ 62|\.ready |^len_of "
MAKES = "of"


def words(fact):
    """The names in a fact, but for its variables."""
    return set(re.findall(r"\w{4,}", fact)) - {"self", "record"}


def rows():
    """Each fact of the first table, with the calls that require it."""
    table = prose.read(PAGE).split(HEADING)[1].split("\n|---|---|---|\n")[1].split("\n\n")[0]
    for line in table.split("\n"):
        fact, _meaning, calls = line.strip("| ").split(" | ")
        yield fact.strip("`"), re.findall(r"`(\w+)`", calls)


def required():
    """Each clause that a call of an end requires, with the name of the call."""
    for section in prose.read(CALLS).split("\n## ")[1:]:
        for call in section.split("\n\n") if re.match(r"`\w*End\b", section) else ():
            name = re.search(r"(?m)^fn (\w+)", call)
            for clause in re.findall(r"(?m)^  requires(?: \w+)?: (.*)$", call):
                yield name[1], clause


def check_facts(report):
    facts, clauses = list(rows()), list(required())
    report.need(PAGE, facts and clauses, "no table of facts, or no call that requires one")
    for fact, calls in facts:
        for call in calls:
            found = any(name == call and words(fact) <= words(clause) for name, clause in clauses)
            report.need(PAGE, found, "no contract of `%s` requires `%s`" % (call, fact))
    for name, clause in clauses:
        found = any(name in calls and words(fact) <= words(clause) for fact, calls in facts)
        report.need(PAGE, found or name == MAKES or re.search(IN_WORDS, clause),
                    "no row says that `%s` requires `%s`" % (name, clause))


def stored(name):
    """How many entries the files of this name have, in all crates."""
    return sum(len(list(entries(path))) for path in glob.glob(os.path.join(prose.TOP, "crates", "*", name)))


def mutants():
    """How many mutants the table of docs/PROOFS.md says were refused, and of how many."""
    cells = re.findall(r"(?m)^\| `ring_\w+` \| (\d[^|]*) \|", prose.read("docs/PROOFS.md"))
    return [sum(map(int, figures)) for figures in zip(*re.findall(r"(\d+)/(\d+)", " ".join(cells)))]


def check_numbers(report):
    text = " ".join(prose.read(TESTING).split())
    for name, what in (("wrong-bodies.txt", "wrong bodies"), ("attacks.txt", "lemmas")):
        stated = re.search(r"`crates/X/%s` have more than (\d+) %s" % (name, what), text)
        report.need(TESTING, stated and stored(name) > int(stated[1]), "there are %d in %s" % (stored(name), name))
    planted = "puts one of {} faults between `calls` and the C library, or one of {} faults"
    refused = "refused {:,} of the {:,} mutants"
    for said in (planted.format(len(IN_CALLS), len(IN_MEETINGS)), refused.format(*mutants())):
        report.need(TESTING, said in text, "does not say: " + said)


def check(report):
    check_facts(report)
    check_numbers(report)
