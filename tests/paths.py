"""What tests/documents asks of the files and functions in docs/ARCHITECTURE.md: those of the paths of data, with how
many there are, and those that keep each rule."""
import os
import re

import prose

PAGE = "docs/ARCHITECTURE.md"
HEADING = "\n## Paths of data\n"
RULES = "\n## What keeps each rule\n"
COUNTS = ("no", "one", "two", "three", "four", "five", "six", "seven", "eight", "nine", "ten")
ITEM = r"- (.+?) \((\d+) files, depth (\d+)\): (.+)"
QUOTED = r"(\*\*)?`([^`]+)`"


def listed(text):
    """The files that a text names in backticks, each with the functions that follow it and whether they are in bold."""
    files = []
    for bold, word in re.findall(QUOTED, text):
        if re.search(prose.ENDINGS, word):
            files.append((word, []))
        elif files:
            files[-1][1].append((word, bool(bold)))
    return files


def source(file):
    """What a file has, named from `crates` or from the top."""
    for path in ("crates/" + file, file):
        if os.path.isfile(os.path.join(prose.TOP, path)):
            return prose.read(path)
    return None


def texts_of(text, function):
    """What follows each definition of a function or macro, up to the next one: in Rattle, or in a header for C."""
    head = r"(?!\s*//)(?:.*\b(?:fn|macro_rules!)|FELTER_GUARD \w+) %s\b"
    definitions = re.split("(?m)^(?=%s)" % head % r"\w+", text)
    heads = [re.match(head % re.escape(function), definition) for definition in definitions]
    return "".join(found.string[found.end():] for found in heads if found)


def calls(text, function):
    return re.search(r"\b%s(::<.*>)?\(" % re.escape(function), text)


def is_chain(functions):
    """Whether the functions, each its name and its text, are in some order such that each calls the next one."""
    def goes_on(text, rest):
        return not rest or any(calls(text, it[0]) and goes_on(it[1], rest - {it}) for it in rest)
    return any(goes_on(first[1], set(functions) - {first}) for first in functions)


def check(report):
    section = prose.read(PAGE).split(HEADING)[-1].split("\n## ")[0]
    parts = [" ".join(part.split()) for part in re.split(r"\n\n|\n(?=- )", section)]
    paths = [re.fullmatch(ITEM, part) for part in parts if part.startswith("- ")]
    report.need(PAGE, paths and all(paths), "no path of data, or one that is not written as the others")
    said = "For each of %s operations" % COUNTS[len(paths)]
    report.need(PAGE, said in parts[0], "there are %d paths, and the page does not say: %s" % (len(paths), said))
    for path in filter(None, paths):
        check_path(report, path[1], int(path[2]), int(path[3]), listed(path[4]))
    for part in parts:
        if not part.startswith("- "):
            check_functions(report, PAGE, listed(part))
    check_keepers(report)


def check_keepers(report):
    """The third column of each table of rules: its files are there, and have the names that follow them."""
    for section in prose.read(PAGE).split(RULES)[1].split("\n### ")[1:]:
        crates = re.findall(r"`(\w+)`", section.split("\n")[0])
        for row in re.findall(r"(?m)^\| (?!Rule)(.+) \|$", section):
            for file, names in listed(row.split(" | ")[2]):
                texts = [text for text in map(source, [*(crate + "/src/" + file for crate in crates), file]) if text]
                report.need(PAGE, texts, "nothing is at `%s`" % file)
                for name, _bold in names:
                    there = any(re.search(r"\b%s\b" % name.split("::")[-1], text) for text in texts)
                    report.need(PAGE, there, "`%s` does not have `%s`" % (file, name))


def check_path(report, name, count, depth, files):
    where = "%s, path %r" % (PAGE, name)
    check_functions(report, where, files)
    report.need(where, count == len(files), "says %d files, and lists %d" % (count, len(files)))
    report.need(where, len({file for file, _functions in files}) == len(files), "a file is listed twice")
    deepest = [(function, texts_of(source(file) or "", function))
               for file, functions in files for function, bold in functions if bold]
    report.need(where, depth == len(deepest), "says depth %d, and %d functions are in bold" % (depth, len(deepest)))
    report.need(where, is_chain(deepest), "the functions in bold do not call one another")


def check_functions(report, where, files):
    for file, functions in files:
        text = source(file)
        report.need(where, text is not None, "nothing is at `%s`" % file)
        for function, _bold in functions:
            report.need(where, text is None or texts_of(text, function), "%s does not define %s" % (file, function))
