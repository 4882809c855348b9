"""What tests/documents asks of prose: paths that exist, plain words, a README of some lines, and a short glossary."""
import ast
import fnmatch
import io
import os
import re
import subprocess
import tokenize

TOP = os.path.dirname(os.path.dirname(os.path.abspath(__file__)))
MOST_LINES_OF_README = 200
MOST_WORDS_OF_CALLS = 20
STRUCTURES = {"rings", "broadcast buffer", "counters", "conductor"}
PLACEHOLDER = r"(^|[/_])(NAME|CRATE|X|FILE|FUNCTION|MODULE|TYPE|DIR|PATH)([/_.]|$)"
ENDINGS = r"[\w}]\.(?:rt|antt|md|py|svg|c|h|hpp|rs|ring|out|edit|txt|toml)$"
COMMENT = {".rt": r"^\s*//[/!]? ?(.*)", ".rs": r"^\s*//[/!]? ?(.*)", ".antt": r"^\s*-- ?(.*)", ".ring": r"^\s*# ?(.*)"}
# What users of the library and the programs read: it is held to the words of documents, but those of code are right.
READ_BY_USERS = ("c/felter", "c/examples/", "rust/felter/src/", "rust/felter/examples/", "python/felter/", "java/felter/",
                 "docs/help/", "examples/")


def read(path):
    with open(os.path.join(TOP, path), encoding="utf-8") as file:
        return file.read()


def tracked():
    """Every file of the repository, and every folder that has one."""
    listed = subprocess.run(["git", "ls-files", "-co", "--exclude-standard"], cwd=TOP, stdout=subprocess.PIPE, check=True)
    files = [path for path in listed.stdout.decode().split("\n") if path and os.path.exists(os.path.join(TOP, path))]
    folders = {path[:at] for path in files for at in range(len(path)) if path[at] == "/"}
    return files, folders


def generated(path):
    return path.endswith("/CALLING.md") or path in ("bench/RESULTS.md", "docs/DEFINITIONS.md")


def without_code(text):
    """The lines of a page with their numbers, but for blocks of code."""
    in_code = False
    for number, line in enumerate(text.split("\n"), 1):
        fence = line.startswith("```")
        if not in_code and not fence and not line.startswith("    "):
            yield number, line
        in_code ^= fence


def expanded(path):
    """`a/{b,c}.rt` as two paths."""
    group = re.search(r"\{([^{}]*)\}", path)
    if group is None:
        return [path]
    return [one for part in group.group(1).split(",") for one in
            expanded(path[:group.start()] + part + path[group.end():])]


def is_path(word, tops):
    """Whether a word in backticks names a file or folder of the repository, and no placeholder such as `X/out`."""
    if not re.fullmatch(r"[\w./{},*-]+", word) or word.startswith(("/", "../")) or ".." in word:
        return False
    if re.search(PLACEHOLDER, word):
        return False
    first = word.split("/")[0]
    return bool(re.search(ENDINGS, word)) or ("/" in word and first in tops)


class Places:
    def __init__(self):
        files, folders = tracked()
        self.all = set(files) | folders
        self.tops = {path.split("/")[0] for path in files if "/" in path} | set(os.listdir(os.path.join(TOP, "crates")))
        self.tops |= {"src", "specs", "proofs"}
        self.all |= {line[5:].strip() for line in read("tests/words").split("\n") if line.startswith("soon ")}

    def has(self, path):
        path = path[2:] if path.startswith("./") else path
        ends = [path, path + ".antt", path + ".rt"]
        if any(sign in path for sign in "*["):
            return any(fnmatch.fnmatch("/" + place, "*/" + path) for place in self.all)
        return any(place == end or place.endswith("/" + end) for end in ends for place in self.all)


def check_paths(report, page, text, places):
    for number, line in without_code(text):
        for quoted in re.findall(r"`([^`]+)`", line):
            for word in quoted.split():
                if is_path(word, places.tops):
                    for path in expanded(word.rstrip(".,/")):
                        report.need("%s:%d" % (page, number), "out" in path.split("/") or places.has(path),
                                    "nothing is at `%s`" % path)


# Words of every comment, of what users read too, and of documents alone.
KINDS = ("word", "read-by-users", "in-documents")


class Words:
    """The list in tests/words: what to write instead, where, and the lines that are right as they are."""

    def __init__(self):
        self.words, self.exceptions, self.later = [], [], []
        for line in read("tests/words").split("\n"):
            kind, _, rest = line.partition(" ")
            if kind in KINDS:
                pattern, _, instead = rest.strip().partition(" -> ")
                self.words.append((re.compile(r"\b(?:%s)\b" % pattern.strip(), re.I), instead, KINDS.index(kind)))
            elif kind == "right":
                self.exceptions.append(tuple(rest.strip().split(": ", 1)))
            elif kind == "later":
                self.later.append(rest.strip())

    def check(self, report, path, lines, kinds):
        """Looks for the words of the first of KINDS, this many."""
        if path.startswith(tuple(self.later)):
            return
        right = [part for name, part in self.exceptions if name == path]
        for number, line in lines:
            plain = re.sub(r"`[^`]*`", "", line)
            for part in right:
                plain = plain.replace(part, "")
            for pattern, instead, kind in self.words:
                found = pattern.search(plain) if kind < kinds else None
                if found:
                    report.need("%s:%d" % (path, number), False, "%r: write %s" % (found.group(0), instead))


def comments(path):
    """The lines of prose in a file, with their numbers: its comments and doc comments, or all of a page of help."""
    ending = os.path.splitext(path)[1]
    if path.startswith("docs/help/"):
        yield from enumerate(read(path).split("\n"), 1)
    elif ending == ".py" or path.startswith("tests/") and not ending and read(path).startswith("#!/usr/bin/env python3"):
        yield from comments_of_python(read(path))
    elif ending in (".h", ".hpp", ".c", ".cc", ".cpp", ".java"):
        yield from comments_of_c(read(path))
    elif ending in COMMENT:
        pattern, in_picture = re.compile(COMMENT[ending]), False
        for number, line in enumerate(read(path).split("\n"), 1):
            found = pattern.match(line)
            if found:
                in_picture ^= found.group(1).startswith("```")
                if not in_picture:
                    yield number, found.group(1)


def comments_of_c(text):
    """The lines of comments, also those after code."""
    for found in re.finditer(r"/\*.*?\*/|//[^\n]*|\"(?:\\\\.|[^\"\\\n])*\"", text, re.DOTALL):
        if not found.group(0).startswith('"'):
            first = text.count("\n", 0, found.start()) + 1
            yield from enumerate((line.lstrip(" */") for line in found.group(0).split("\n")), first)


def comments_of_python(text):
    """The lines of docstrings and of comments."""
    for node in ast.walk(ast.parse(text)):
        if isinstance(node, (ast.Module, ast.ClassDef, ast.FunctionDef)) and ast.get_docstring(node, False):
            yield from enumerate(ast.get_docstring(node, False).split("\n"), node.body[0].lineno)
    for token in tokenize.generate_tokens(io.StringIO(text).readline):
        if token.type == tokenize.COMMENT:
            yield token.start[0], token.string.lstrip("# ")


def check_comments(report, words):
    files, _folders = tracked()
    for path in files:
        if os.path.isfile(os.path.join(TOP, path)) and not path.endswith(".md"):
            try:
                words.check(report, path, comments(path), 2 if path.startswith(READ_BY_USERS) else 1)
            except UnicodeDecodeError:
                pass


def check_counts(report):
    lines = read("README.md").count("\n")
    report.need("README.md", lines <= MOST_LINES_OF_README, "%d lines" % lines)


def explained(table):
    """The words that a table of the glossary explains, each with the last line in bold above it."""
    above = None
    for line in table.split("\n"):
        cell = line.split("|")[1].strip() if line.startswith("|") else ""
        if cell.startswith("**"):
            above = cell.strip("*")
        elif cell not in ("", "Word", "---"):
            for word in cell.split(", "):
                yield above, word


def check_glossary(report):
    """The first table has what callers need, the second the rest. Each word is in one of them, once."""
    page = "docs/GLOSSARY.md"
    tables = [list(explained(table)) for table in re.split(r"(?m)^## ", read(page))[1:]]
    report.need(page, len(tables) == 2, "%d tables" % len(tables))
    counts = {above: sum(1 for its, _word in tables[0] if its == above) for above, _word in tables[0]}
    report.need(page, set(counts) == STRUCTURES | {"several"}, "the first table is of " + ", ".join(map(str, counts)))
    for structure in STRUCTURES:
        count = counts.get(structure, 0) + counts.get("several", 0)
        report.need(page, count <= MOST_WORDS_OF_CALLS, "%d words for callers of: %s" % (count, structure))
    words = [word for table in tables for _above, word in table]
    for word in sorted(set(words)):
        report.need(page, words.count(word) == 1, "explains twice: " + word)
