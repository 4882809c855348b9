"""Which definitions of `specs` a contract rests on, as docs/DEFINITIONS.md lists them.

A file of `specs` is cut at the lines that declare something. A word of a definition leads to another one if the file
declares it or a `use` brings it in. Types that `src` declares and words of the kit are ends of this walk."""
import glob
import os
import re
import typing

import contracts

TOP = os.path.dirname(os.path.dirname(os.path.realpath(__file__)))
PAGE = "docs/DEFINITIONS.md"
MARKS = r"(?:(?:pub|abbrev|unfoldable|pattern) )*"
DECLARES = re.compile(r"^( *)" + MARKS + r"(?:(record|data) )?([^\s:(){}]+)(?: \{[^}]*\})?(?= :| \(|$| \{)(.*)")
WORDS = re.compile(r"[^\s(){}\[\],;.λ→×]+")
# Of each contract what its clauses are called here, and the functions of src that have it.
ROOTS = (
    ("What `Headline` rests on", "crates/ring_service/src/finishing.rt", "finish", ("headline",)),
    ("What the other clauses of `finish` add", "crates/ring_service/src/finishing.rt", "finish", None),
    ("What `Concludes` of `whole_run` adds", "crates/ring_service/src/whole.rt", "whole_run", None),
    ("What `Conductor::finish_without` adds", "crates/ring_service/src/finishing/without.rt", "finish_without", None),
)
HEAD = """# What must be read to trust the headline

This page lists the definitions that the contracts of `finish`, `whole_run` and `finish_without` rest on. A contract
says only what its definitions say. Only a reader can check that the definitions say what they should.

[HEADLINE](HEADLINE.md) explains the contracts of `finish` and `whole_run`. `finish_without` is for a conductor whose
producers are lost. [READING](READING.md) says how to read a definition. Each item of the lists names a file and its
definitions, in the order in which a reader meets them. `tests/cone` writes this page from `specs`, and
`tests/documents` compares the page with `specs`.

Some facts are not in the lists and must be read too:

- The contracts name `R.bytes`, `R.start`, `R.is_consumer` and `R.is_producer`. These are members of traits in
  `crates/ring_rings/src/source.rt`. For a ring these members are the capacity (`capacity_of`), the start
  (`start_of`), `IsConsumerOf` and `IsProducerOf`. All four are in `crates/ring_rings/specs/Seats.antt`.
- `Producer` and `Consumer` have ghost fields (`crates/ring_rings/src/ring.rt`). What a ghost field states is true of
  every value of the type that has the field. Some of the other types that are named [at the end](#all-of-them) also
  have ghost fields.
- Ghost fields name further definitions.

The crates have more than %s definitions in `specs`. No other definition changes what these three contracts say.
"""


class Definition(typing.NamedTuple):
    """A name that a file of `specs` declares, the number of its lines, and the words that it uses."""

    lines: int
    words: tuple


class Module(typing.NamedTuple):
    """A file of `specs`: what it declares, and which name of which module each imported word is."""

    defined: dict
    used: dict


def read(path):
    with open(os.path.join(TOP, path), encoding="utf-8") as file:
        return file.read()


def imports(text):
    """Each word that a `use` brings in, as (module, name); a whole module has the name None."""
    found = {}
    for module, items, alias in re.findall(r"(?m)^(?:ghost |pub )*use ([\w.-]+?)(?:\.\{([^}]*)\})?(?: as (\w+))?;?$", text):
        for item in (items.split(",") if items else ()):
            path, _, other = item.strip().partition(" as ")
            below, _, name = path.rpartition(".")
            found[other or name] = (module + "." * bool(below) + below, name)
        if not items:
            found[alias or module.split(".")[-1]] = (module, None)
    return found


def declared(text):
    """The definitions of a file: a line that declares begins one, at the margin or in a `module _ (..) where`."""
    found, name, base, head = {}, None, 0, ""
    for line in text.split("\n"):
        indent = len(line) - len(line.lstrip(" "))
        if not line.strip() or line.lstrip().startswith("--") or line.startswith("use ") or line.startswith("pub use "):
            continue
        if line.startswith("module "):
            name, base, head = None, 2, line
            continue
        if indent == 0:
            base, head = 0, ""
        begins = DECLARES.match(line) if indent == base else None
        is_clause = begins and not begins[2] and not begins[4].lstrip().startswith(":")
        if begins and not is_clause:
            name = begins[3]
            found[name] = [head]
        if name:
            found[name].append(line)
    return {it: Definition(len(lines) - 1, tuple(WORDS.findall(" ".join(lines)))) for it, lines in found.items()}


def modules():
    found = {}
    for path in glob.glob(os.path.join(TOP, "crates/*/specs/**/*.antt"), recursive=True):
        crate, _, rest = os.path.relpath(path, os.path.join(TOP, "crates")).partition("/specs/")
        text = read(path)
        found["Rattle.%s.specs.%s" % (crate, rest[:-len(".antt")].replace("/", "."))] = Module(declared(text), imports(text))
    return found


def path_of(module):
    _, crate, _, *rest = module.split(".")
    return "crates/%s/specs/%s.antt" % (crate, "/".join(rest))


class Walk:
    """What was met so far: definitions in the order of meeting, types of src, and words of the kit."""

    def __init__(self):
        self.modules, self.met, self.types, self.kit = modules(), {}, set(), set()

    def resolve(self, module, word):
        """The module and name that a word of a file is, or None if it is a bound variable."""
        its = self.modules.get(module)
        if its is None:
            return (module, word)
        names = [word, *(it for it in (*its.defined, *its.used) if "◌" in it and word in it.split("◌") and word)]
        for name in names:
            if name in its.defined:
                return (module, name)
            if name in its.used:
                into, other = its.used[name]
                return self.resolve(into, other) if other and into in self.modules else (into, other)
        return None

    def ends(self, module, name):
        """Counts a name that no file of `specs` defines."""
        if ".declared." in module:
            self.types.add(re.search(r"\.declared\.(?:[a-z]\w*\.)*(\w+)", module)[1])
        elif name:
            self.kit.add(name)

    def follow(self, starts):
        """The definitions that these ones rest on and that were not met before."""
        todo, found = [self.resolve(*start) for start in starts], []
        for module, name in todo:
            if (module, name) in self.met:
                continue
            if module not in self.modules or name is None:
                self.ends(module, name)
                continue
            self.met[module, name] = its = self.modules[module].defined[name]
            found.append((module, name))
            words = its.words
            for at, word in enumerate(words):
                into = self.resolve(module, word)
                if into and into[1] is None and into[0] in self.modules and at + 1 < len(words):
                    into = self.resolve(into[0], words[at + 1])
                todo += [into] if into else []
        return found


def starts_of(path, function, clauses):
    """The definitions that the clauses of a function name, by the imports of its file."""
    lines, used = contracts.lines_of(os.path.join(TOP, path)), imports(read(path))
    at = next(at for at, line in enumerate(lines) if re.search(r"\bfn %s\b" % function, line))
    for clause in contracts.header(lines, at)[1]:
        named = re.match(r"(?:requires|ensures)\s*(\w*)", clause)[1]
        if clauses is None or named in clauses:
            for word in WORDS.findall(clause):
                if word in used:
                    yield used[word]


def part(found):
    """A line for each file, in the order in which it is met."""
    files = {}
    for module, name in found:
        files.setdefault(module, []).append(name)
    for module, names in files.items():
        path = path_of(module)
        yield "- [`%s`](../%s): %s" % (path[len("crates/"):], path, ", ".join("`%s`" % name for name in names))


def counted(walk, found):
    files = {module for module, _name in found}
    crates = {module.split(".")[1] for module in files}
    lines = sum(walk.met[it].lines for it in found)
    return ("These are %d definitions with %s lines, in %d files of %d crates."
            % (len(found), format(lines, ","), len(files), len(crates)))


def page():
    walk = Walk()
    total = sum(len(its.defined) for its in walk.modules.values())
    parts, everything = [HEAD % format(total // 100 * 100, ",")], []
    for title, path, function, clauses in ROOTS:
        found = walk.follow(list(starts_of(path, function, clauses)))
        everything += found
        parts.append("## %s\n\n%s\n\n%s\n" % (title, counted(walk, found), "\n".join(part(found))))
    parts.append("## All of them\n\n%s They name these types of `src`: %s.\n\n"
                 "They also use these words of the kit: %s.\n"
                 % (counted(walk, everything), ", ".join("`%s`" % it for it in sorted(walk.types)),
                    ", ".join("`%s`" % it for it in sorted(walk.kit))))
    return "\n".join(parts)
