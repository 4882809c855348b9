"""The exports of crates/ring_c, from the calls of felter.h and the rows of exports.txt."""
import re

from .header import BUFFERS
from .imports import ghost_lines, rust_lines, words_of
from .layout import filled

SLICES = {"bytes": "&[u8]", "*u8": "&mut [u8]", "words": "&[u64]"}
# The definitions that take the kind of the first handle, and those that take the kinds of both.
OF_ONE, OF_BOTH = ("Uses", "Yields", "EndsAs"), ("GivesInto", "JoinsInto", "WhereBoth")
# What a call does, by the definition that says it.
BODIES = {
    "Uses": "work_on!({0}, alloc, {kind0}(side) => {call})",
    "Yields": "work_on!({0}, alloc, {kind0}(side) => {call})",
    "GivesInto": "make_into!({0}, alloc, {kind0}(side) => {call}, {1}, {kind1})",
    "JoinsInto": "join_into!({0}, {1}, alloc, {kind0}(side), {kind1}(joining) => {call})",
    "EndsAs": "end_with!({0}, alloc, {kind0}(side) => {call})",
    "Ends": "end_with!({0}, alloc, {kind0}(side) => {call})",
}
# What the name of a call begins with if it is for a handle of one kind.
OWNERS = "adder|board|client|conductor|counters?|raw_receiver|raw|receiver"
# How `rt fmt` lays out lines: the width of a signature, that of what a macro is given, and how many names of one group
# of imports share lines.
ROW_WIDTH, ARGUMENTS_WIDTH, MOST_NAMES = 100, 60, 100
APART = f"\n// (apart, since of more than {MOST_NAMES} names in one group `rt fmt` puts each on a line of its own)"
WRITTEN = "// Written by c/bindings from felter.h and exports.txt. To change this file, change them and run c/bindings."


def kind_of(handle):
    return handle.word[1:]


def arguments(call):
    """What an export takes, besides the allocator, as pairs of a name and a type."""
    its = []
    for before, it in zip([None, *call.parameters], call.parameters):
        if it.is_handle:
            its.append((it.name, "&mut Handle"))
        elif it.kind in BUFFERS:
            its.append((it.name, SLICES[it.word]))
        # (the length of a buffer is in its slice)
        elif not before or before.kind not in BUFFERS:
            its.append((it.name, it.word.replace("*", "&mut ")))
    return its


# Clauses --------------------------------------------------------------------------------------------------------------

def test_of(handle):
    """The definition that tests the kind of what a handle holds: a_producer."""
    return {"counters": "some_counters", "adder": "an_adder"}.get(kind_of(handle), "a_" + kind_of(handle))


def put_out(call, row):
    """What the call puts out, before and after it."""
    names = [name for name, kind in arguments(call) if re.match("&mut (?!Handle)", kind)]
    said = row.said("out") or " ".join(names[:1])
    if set(names) - set(re.findall(r"\w+", said)):
        raise SystemExit(f"c/bindings: exports.txt must say by `out:` how {row.name} puts out {', '.join(names)}")
    named = r"\b(%s)\b" % "|".join(names)
    # (no line breaks it)
    whole = (f"({said})" if " " in said else said).replace(" ", "\0")
    return [re.sub(named, r"\1." + time, whole) for time in ("old", "new")] if said else []


def clause(call, row, key, text):
    """A clause with what follows from the signature: the kinds of handles, what is put out, the handles, the result."""
    if re.search(r"\bresult\b|\.new\b", text):
        return text
    word, *rest = text.split(" ", 1)
    kinds = [test_of(it) for it in call.handles][: 1 if word in OF_ONE else 2 if word in OF_BOTH else 0]
    before, after = [[f"{it.name}.{time}.held" for it in call.handles] for time in ("old", "new")]
    if key.startswith("requires"):
        return " ".join([word, *kinds, *rest, *before])
    out = put_out(call, row) if word != "Uses" else []
    return " ".join([word, *kinds, *rest, *out, *before, *after, "result"])


def clauses(call, row):
    return [(key, clause(call, row, key, text)) for key, text in row.clauses]


# Functions ------------------------------------------------------------------------------------------------------------

def comment(call):
    """The comment of the header as a doc comment."""
    if not call.comment:
        raise SystemExit(f"c/bindings: felter.h must have a comment right above {call.name}")
    parts = [""]
    for line in call.comment.split("\n"):
        in_list, is_item = parts[-1].startswith("- "), line.startswith("  - ")
        if line and parts[-1] and not is_item and in_list == line.startswith("    "):
            parts[-1] += " " + line.strip()
        else:
            # (Markdown needs an empty line after a list)
            parts += [""] * (in_list and bool(line) and not is_item) + [line.strip()]
    return "\n".join(filled(it, "/// ", "///   " if it.startswith("- ") else "/// ") or "///" for it in parts[1:])


def signature(call):
    its = ["alloc: Global"] * bool(call.handles) + [": ".join(it) for it in arguments(call)]
    first, last = f'pub extern "C" fn {call.name}(', ") -> i32" if call.answers else ")"
    whole = first + ", ".join(its) + last
    return whole if len(whole) <= ROW_WIDTH else "\n".join([first, *(f"    {it}," for it in its), last])


def own_method(call, row):
    """The method that has the name of the call, with what the call is given besides handles: side.add(delta, before)."""
    method = re.sub(rf"^felter_(?:(?:{OWNERS})_)?", "", call.name)
    given = [name for name, kind in arguments(call) if kind != "&mut Handle"]
    return f"side.{method}({'joining' if row.effect == 'JoinsInto' else ', '.join(given)})"


def body(call, row):
    if row.said("body") is not None:
        return row.said("body").strip("\n")
    its, does = [it.name for it in call.handles], row.said("call") or own_method(call, row)
    if row.effect in BODIES:
        # (of a raw_receiver the object is a RawReceiver)
        kinds = {f"kind{at}": kind_of(it).title().replace("_", "") for at, it in enumerate(call.handles)}
        return BODIES[row.effect].format(*its, call=does, **kinds)
    macro, given = "fill_both!" if len(its) == 2 else "fill!", [*its, "alloc", does]
    if len(", ".join(given)) <= ARGUMENTS_WIDTH:
        return f"{macro}({', '.join(given)})"
    return "\n".join([f"{macro}(", ",\n".join("    " + it for it in given), ")"])


def code(call, row):
    """An export without its comment."""
    its = [filled(f"{key} {{ {text}\0}}", "    ", " " * 8).replace("\0", " ") for key, text in clauses(call, row)]
    indented = re.sub(r"(?m)^(?=.)", "    ", body(call, row))
    return "\n".join(["#[unsafe(no_mangle)]", signature(call), *its, "{", indented, "}"])


# Files ----------------------------------------------------------------------------------------------------------------

def file_text(file, calls, known):
    """A file of exports."""
    its = [(calls[row.name], row) for row in file.rows]
    words = {word for call, row in its for _, text in clauses(call, row)
             for word in words_of(text, [it.name for it in call.parameters])}
    codes = [code(*it) for it in its]
    head = "\n".join([file.about, WRITTEN, *ghost_lines(file.imports, words, known.homes)])
    uses = "\n".join(rust_lines(file.imports, "\n".join(codes), known))
    functions = [comment(call) + "\n" + it for (call, _), it in zip(its, codes)]
    return "\n\n".join(filter(None, [head, uses, *functions])) + "\n"


def modules_text(files):
    """The file exports.rt, which names the files."""
    return "\n".join(["//! What C calls.", WRITTEN, *(f"pub(crate) mod {it.name};" for it in files)]) + "\n"


def passed_on(files):
    """The lines of lib.rt that make the exports public."""
    lines, count = [], 0
    for file in files:
        its, first = sorted(row.name for row in file.rows), f"pub use exports::{file.name}::"
        if count + len(its) > MOST_NAMES:
            lines, count = [*lines, APART], 0
        count += len(its)
        whole = first + (its[0] if len(its) == 1 else "{%s}" % ", ".join(its)) + ";"
        if len(whole) > ROW_WIDTH:
            whole = "\n".join([first + "{", filled(", ".join(its) + ",", "    ", "    ", ROW_WIDTH - 1), "};"])
        lines.append(whole)
    return "\n".join(lines) + "\n"
