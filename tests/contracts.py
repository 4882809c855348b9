"""The public calls of a library with their contracts, as its CALLING.md has them."""
import itertools
import os
import re
import textwrap

TOP = os.path.dirname(os.path.dirname(os.path.realpath(__file__)))
CALL = re.compile(r"^( *)(pub )?((?:const |unsafe |extern \"C\" )*fn (\w+).*)$")
CLAUSE = re.compile(r"^ *(requires|ensures)\b")
HEAD = """# Calling `%s`

%s

This page has the public calls with their contracts, quoted from `src` by `tests/calling`. First come the calls of types,
then free functions, and then the calls of traits. Above each call is the first sentence of its doc comment. In a clause
`self.old` and `self.new` are `self` before and after the call, and `self.now` is what a shared reference shows. The
definitions of the words are in `specs`. docs/READING.md explains the symbols.

%s
"""


def libraries():
    """The crates that others use: no programs, no tests."""
    folder = os.path.join(TOP, "crates")
    return sorted(name for name in os.listdir(folder) if os.path.exists(os.path.join(folder, name, "src/lib.rt"))
                  and not name.endswith("_tests"))


def page_of(crate):
    return os.path.join(TOP, "crates", crate, "CALLING.md")


def sources(crate):
    """The files of src, by path; lib.rt and the files of a folder come before the folders in it."""
    found = []
    for path, _folders, names in os.walk(os.path.join(TOP, "crates", crate, "src")):
        found += [os.path.join(path, name) for name in names if name.endswith(".rt")]
    return sorted(found, key=lambda path: (path.count("/"), path))


def lines_of(path):
    with open(path, encoding="utf-8") as file:
        return file.read().split("\n")


def exported(crate):
    """The names that lib.rt makes public, and the modules."""
    text = "\n".join(lines_of(os.path.join(TOP, "crates", crate, "src/lib.rt")))
    names = set()
    for used in re.findall(r"pub use ([^;]*);", text):
        names |= set(re.findall(r"\w+", used.split("{", 1)[-1] if "{" in used else used.rsplit("::", 1)[-1]))
    return names, set(re.findall(r"pub mod (\w+);", text))


def joined(lines):
    """Lines of a signature or a clause as one."""
    text = " ".join(line.strip() for line in lines)
    return re.sub(r",? \)", ")", text.replace("( ", "("))


def header(lines, at):
    """The signature and the clauses of the function that begins at a line."""
    indent = CALL.match(lines[at]).group(1)
    signature, clauses, into = [], [], None
    for line in lines[at:]:
        code = line.split(" // ")[0].rstrip()
        if code.strip().startswith("//"):
            continue
        if code in (indent + "{", indent + "{}"):
            break
        if CLAUSE.match(code) and not (into and into is not signature and unbalanced(into)):
            clauses.append([])
            into = clauses[-1]
        elif into is None:
            into = signature
        into.append(code)
        if into is signature and code.endswith((" {", ";")) or code.endswith("};"):
            break
    return joined(signature).rstrip(" {;"), [joined(clause) for clause in clauses]


def unbalanced(lines):
    text = " ".join(lines)
    return text.count("{") != text.count("}")


def shown(clause):
    """`ensures name { fact }` as `ensures name: fact`."""
    found = re.match(r"(requires|ensures)\s*(\w*)\s*\{\s*(.*?)\s*\};?$", clause)
    if not found:
        return clause
    kind, name, fact = found.groups()
    return "%s%s: %s" % (kind, " " + name if name else "", fact)


def doc_of(lines, at):
    """The first sentence of the doc comment above a line, or nothing."""
    said = []
    while at > 0 and re.match(r"^ *(///|#\[)", lines[at - 1]):
        at -= 1
        said[:0] = [lines[at].strip()[3:].strip()] if lines[at].strip().startswith("///") else []
    first = " ".join(said).split("  ")[0]
    return re.sub(r":$", ".", re.split(r"(?<=[.:])\s", first)[0]) if first else ""


def calls_in(path, names, whole):
    """The public functions of a file: the type or trait that each is of, or nothing, whether that is a trait, the
    signature, the first sentence of its doc comment, and the clauses."""
    owner, shown_as, is_trait = None, None, False
    lines = lines_of(path)
    for at, line in enumerate(lines):
        block = re.match(r"^(?:pub )?(impl|trait)(?:<.*?>)? (?:(\w[\w:]*)(?:<.*?>)? for )?(\w+)((?:<[^']*>)?)", line)
        if block:
            is_trait = block.group(1) == "trait" and line.startswith("pub ")
            owner = None if block.group(2) else block.group(3)
            shown_as = block.group(3) + block.group(4)
        elif line.startswith("}"):
            owner, is_trait = None, False
        found = CALL.match(line)
        if not found or (len(found.group(1)) == 4 and owner is None) or len(found.group(1)) > 4:
            continue
        of = owner if found.group(1) else found.group(4)
        if (found.group(2) or (is_trait and found.group(1))) and (whole or of in names):
            signature, clauses = header(lines, at)
            name = signature.replace("pub ", "", 1)
            of_type = shown_as if found.group(1) else ""
            yield of_type, is_trait and bool(of_type), name, doc_of(lines, at), clauses


def is_fault(calls):
    """Whether these are the calls of a fault, which only has a number."""
    return all(re.search(r"(?m)^fn code", call) for call in calls)


def first_paragraph(crate):
    """The first paragraph of what lib.rt says of the crate."""
    said = itertools.takewhile(lambda line: re.match(r"//! ", line), lines_of(f"{TOP}/crates/{crate}/src/lib.rt"))
    return textwrap.fill(" ".join(line[4:].strip() for line in said), 120, break_long_words=False, break_on_hyphens=False)


def calling(crate):
    """The page: a heading for each type, for the free functions and for each trait. Types with many calls come first, and
    of a type the calls that make it; otherwise the order is that of the files."""
    names, modules = exported(crate)
    groups = {}
    for path in sources(crate):
        stem = os.path.basename(path)[:-len(".rt")]
        for of_type, is_trait, signature, said, clauses in calls_in(path, names, stem in modules):
            lines = ["// " + said] if said else []
            lines += [signature] + ["  " + shown(clause) for clause in clauses]
            groups.setdefault((is_trait, not of_type, of_type), []).append("\n".join(lines))
    parts = []
    for key in sorted(groups, key=lambda it: (*it[:2], is_fault(groups[it]), -len(groups[it]))):
        is_trait, is_free, of_type = key
        title = "Free functions" if is_free else "%s`%s`" % ("Trait " if is_trait else "", of_type)
        calls = sorted(groups[key], key=lambda call: not re.search(r"(?m)^fn new", call))
        parts.append("## %s\n\n```text\n%s\n```" % (title, "\n\n".join(calls)))
    return HEAD % (crate, first_paragraph(crate), "\n\n".join(parts))
