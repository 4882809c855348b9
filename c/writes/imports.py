"""The import lines of a file of exports, which follow from the words that the file has."""
import itertools
import os
import re
import typing

from .layout import WIDTH

DEFINED = re.compile(r"(?m)^(?:(?:pattern|unfoldable|abbrev|axiom) )*pub (?:record |data )?([^\s:(){}]+)")
GHOST = re.compile(r"ghost use (Rattle\.[\w.]+)\.\{(.*)\};")


class Known(typing.NamedTuple):
    """What a file can import."""
    homes: typing.Dict[str, typing.List[str]]  # the modules that define a word of specs
    shared: typing.Set[str]  # the macros and functions of work_on.rt
    handles: typing.Set[str]  # what ring_handles passes on
    modules: typing.Set[str]  # its public modules


def known(top):
    crates = top / "crates"
    below = re.search(r"(?m)^ring_c staticlib: (.*)$", (top / "crates.txt").read_text()).group(1).split()
    shared = re.findall(r"pub\(crate\) (?:use|fn) (\w+)", (crates / "ring_c/src/work_on.rt").read_text())
    library = (crates / "ring_handles/src/lib.rt").read_text()
    handles = {name for it in re.findall(r"pub use ([^;]*);", library) for name in re.findall(r"\w+(?!\w|::)", it)}
    modules = set(re.findall(r"pub mod (\w+);", library))
    return Known(homes_of(crates, [*below, "ring_c"]), set(shared), handles, modules)


def homes_of(crates, names):
    homes = {}
    for crate in names:
        for path in sorted((crates / crate / "specs").rglob("*.antt")):
            below = path.relative_to(crates).with_suffix("")
            for word in DEFINED.findall(path.read_text()):
                homes.setdefault(word, []).append("Rattle." + ".".join(below.parts))
    return homes


def words_of(clause, names):
    """The words of a clause that are no projections, no parameters and not bound in it."""
    bound = {name for names in re.findall(r"λ ([^.]*)\.", clause) for name in names.split()}
    found = re.findall(r"(?<![\w.'])[^\W\d][\w']*", clause.replace("λ", " "))
    return [it for it in dict.fromkeys(found) if it not in {*bound, *names, "_", "result"}]


def ghost_lines(lines, words, homes):
    """The lines that import words of specs. The given lines import what does not follow from the words."""
    chunks = {it[1]: it[2].split(", ") for it in map(GHOST.match, lines) if it}
    said = {it for items in chunks.values() for it in items}
    for word in sorted(words - said, key=in_order):
        its = homes.get(word, [])
        if len(its) != 1:
            raise SystemExit(f"c/bindings: exports.txt must import {word}, which {len(its)} modules define")
        chunks.setdefault(its[0], []).append(word)
    split = [(module, its) for module, items in sorted(chunks.items()) for its in fitting(module, items)]
    return [line(its) for its in packed(split)]


def in_order(word):
    return (not word[:1].islower(), word)


def fitting(module, items):
    """The words of one module, in parts that each have room in a line."""
    parts = [[]]
    for item in items:
        if parts[-1] and len(line([(module, [*parts[-1], item])])) > WIDTH:
            parts.append([])
        parts[-1].append(item)
    return parts


def line(chunks):
    above = shared(chunks)
    items = [".".join(filter(None, [module[len(above) + 1:], item])) for module, items in chunks for item in items]
    return "ghost use %s.{%s};" % (above, ", ".join(items))


def shared(chunks):
    return ".".join(os.path.commonprefix([module.split(".") for module, _ in chunks]))


def packed(chunks):
    """The words of several modules in as few lines as have room for them. Those that have most in common come together
    first."""
    lines = [[it] for it in chunks]
    while True:
        pairs = [(one, two) for one, two in itertools.combinations(lines, 2) if may_share(one + two)]
        if not pairs:
            return lines
        one, two = max(pairs, key=lambda it: (shared(it[0] + it[1]).count("."), len(line(it[0] + it[1]))))
        lines[lines.index(one)] = one + two
        lines.remove(two)


def may_share(chunks):
    return shared(chunks).startswith("Rattle.ring_") and len(line(chunks)) <= WIDTH


def rust_lines(lines, text, known):
    """The lines that import what functions name."""
    named, above = set(re.findall(r"(?<![\w:.])\w+", text)), set(re.findall(r"(?<![\w:.])\w+(?=::)", text))
    of_handles = known.handles & named | known.modules & above
    lines = [line for line in lines if line.startswith("use ")]
    for path, words in (("crate::work_on", known.shared), ("ring_handles", of_handles), ("std::alloc", {"Global"})):
        its = sorted(words & named)
        if its:
            lines.append(f"use {path}::{its[0]};" if len(its) == 1 else "use %s::{%s};" % (path, ", ".join(its)))
    return sorted(lines)
