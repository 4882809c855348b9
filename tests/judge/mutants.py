"""Writes mutants: copies of a function with one place changed."""
import os
import re

from .edits import Edit, read
from .functions import functions_of

# What is replaced, by kind: a pattern of the text, and what may stand in its place.
SWAPS = {
    " + ": (" - ",),
    " - ": (" + ",),
    " * ": (" + ",),
    " / ": (" * ",),
    " % ": (" / ",),
    " << ": (" >> ",),
    " >> ": (" << ",),
    " & ": (" | ",),
    " += ": (" -= ",),
    " -= ": (" += ",),
    " < ": (" <= ", " >= "),
    " <= ": (" < ", " > "),
    " > ": (" >= ", " <= "),
    " >= ": (" > ", " < "),
    " == ": (" != ",),
    " != ": (" == ",),
    " && ": (" || ",),
    " || ": (" && ",),
    ".min(": (".max(",),
    ".max(": (".min(",),
    "_le_bytes(": ("_be_bytes(",),
    "::MAX": ("::MIN",),
}
OPERATOR = re.compile("|".join(re.escape(it) for it in sorted(SWAPS, key=len, reverse=True)))
NOT = re.compile(r"(?<![\w)\]])!(?=[\w(])")
CONDITION = re.compile(r"\bif (?=[a-z_][\w.:]*\([^{}<>=]*\) \{)")
RANGE = re.compile(r"(?<=[\w)])\.\.(?=[\w(])")
NUMBER = re.compile(r"(?<![\w.])\d[\d_]*(?![\w.])|(?<![\w.])\d[\d_]*(?=\.\.)|(?<=\.\.)\d[\d_]*(?!\w)")
TRUTH = re.compile(r"\b(true|false)\b")
LENGTH = re.compile(r"\.len\(\)(?! as\b|\.)")
FIELD_OF = re.compile(r"(?:\b([a-z_]\w*)|[\])?])\.([a-z_]\w*)\b(?!\()")
CONSTANT = re.compile(r"(?<![\w:])((?:[a-z_]\w*::)*)([A-Z][A-Z\d_]+)\b(?!::)")
# Two neighbours in a list of arguments or of elements.
PAIR = re.compile(r"(?<=[(\[ ])(?=([&*]*[a-z_][\w.]*), ([&*]*[a-z_][\w.]*)(?=[,)\]]))")
ELEMENT = re.compile(r"^\s*[&*]*[a-z_].*,$")
STATEMENT = re.compile(r"^\s*((?:\*|self\b|[a-z_]\w*(?:::|\.|\())\S.*;)$")
NO_STATEMENT = re.compile(r"^(let|return|use|ghost|break|continue|prove!|assert)")
BINDING = re.compile(r"^\s*let \(([^()]*)\) = .*;$")
# Lines that are no code, or a clause.
SKIPPED = re.compile(r"^\s*(//|#|ghost\b|requires\b|ensures\b|invariant\b|decreases\b|prove!)|[^\x00-\x7f]")
TEXT = re.compile(r"""b?"(?:[^"\\]|\\.)*"|b?'(?:[^'\\]|\\.)'|//.*""")
STRUCT = re.compile(r"^\s*(?:pub(?:\([\w: ]+\))? )?struct (\w+)[^\n{;]*\{\n(.*?)^\s*\}", re.M | re.S)
FIELD = re.compile(r"^\s*(?:pub(?:\([\w: ]+\))? )?([a-z_]\w*): ([^{\n]*),$", re.M)
ENUM = re.compile(r"^\s*(?:pub(?:\([\w: ]+\))? )?enum (\w+)[^\n{;]*\{\n(.*?)^\s*\}", re.M | re.S)
VARIANT = re.compile(r"^\s*([A-Z]\w*),", re.M)
TYPED = re.compile(r"\b([a-z_]\w*): (?!:)([^,()\n={}]+)")


def sources_of(top, crate):
    """Returns the text of each source file of a crate."""
    folder, found = f"{top}/crates/{crate}", {}
    for at, _, names in sorted(os.walk(f"{folder}/src")):
        for name in sorted(names):
            if name.endswith(".rt"):
                path = f"{at}/{name}"
                found[os.path.relpath(path, folder)] = read(path)
    return found


def neighbours(names):
    """Returns, for each of these names, the ones before and after it, the last being before the first."""
    return {it: sorted({names[at - 1], names[(at + 1) % len(names)]} - {it}) for at, it in enumerate(names)}


class Names:
    """What may be put in place of a name: another field of the struct, a neighbour in an enum or among constants."""

    def __init__(self, sources):
        self.fields, self.types, self.variants = {}, {}, {}
        code = "\n".join(sources.values())
        for struct, body in STRUCT.findall(code):
            own = FIELD.findall(body)
            twins = {name: sorted(it for it, kind in own if kind == of and it != name) for name, of in own}
            # (a struct of which no value is made is for the proofs alone)
            if re.search(rf"(?<!struct )(?<!impl )(?<!for )\b(?:{struct}|Self)\b \{{", code):
                self.fields[struct] = twins
            for name, of in own:
                self.types.setdefault(name, set()).add(of)
        for enum, body in ENUM.findall(code):
            own = neighbours(VARIANT.findall(body))
            self.variants.update({f"{enum}::{it}": [f"{enum}::{other}" for other in own[it]] for it in own})

    def type_of(self, place, typed):
        """Returns the type of a parameter or a field, or "" if it is not known."""
        name = place.lstrip("&*").rpartition(".")[2]
        kinds = {typed[name]} if name in typed and name in place.lstrip("&*").split(".")[:1] else self.types.get(name)
        return plain_type(*kinds) if kinds and len(kinds) == 1 else ""

    def fields_for(self, of, name, typed):
        """Returns the fields that may be put in place of one of a parameter or a field."""
        kind = self.type_of(of, typed)
        structs = [self.fields.get(kind, {})] if kind else self.fields.values()
        return sorted({it for fields in structs for it in fields.get(name, ())})


def plain_type(of):
    """Returns a type without what borrows it and its parameters."""
    return re.sub(r"^(&('\w+ )?(mut )?)*|<.*", "", of.strip())


def constants_in(text):
    """Returns, for each constant that a file names, those that may be put in its place."""
    found = {}
    for line in text.split("\n"):
        masked = "" if SKIPPED.search(line) else TEXT.sub("", line)
        for path, name in CONSTANT.findall(masked):
            found.setdefault(path, set()).add(name)
    return {path + it: path + after[0] for path, names in found.items()
            for it, after in neighbours(sorted(names)).items() if after}


def changes_of(line, names, typed, constants):
    """Returns the changes of a line of code: where each begins and ends, and what is put there."""
    if SKIPPED.search(line):
        return []
    masked = TEXT.sub(lambda it: "\0" * len(it[0]), line)
    found = [(*it.span(), new) for it in OPERATOR.finditer(masked) for new in SWAPS[it[0]]]
    for it in NUMBER.finditer(masked):
        number = int(it[0].replace("_", ""))
        found += [(*it.span(), str(new)) for new in sorted({0, 1, number + 1} - {number})]
    found += [(*it.span(), "false" if it[0] == "true" else "true") for it in TRUTH.finditer(masked)]
    for pattern, new in ((LENGTH, ".len() / 2"), (NOT, ""), (CONDITION, "if !"), (RANGE, "..=")):
        found += [(*it.span(), new) for it in pattern.finditer(masked)]
    for it in FIELD_OF.finditer(masked):
        found += [(*it.span(2), new) for new in names.fields_for(it[1] or "", it[2], typed)]
    for it in re.finditer(r"\b([A-Z]\w*::[A-Z]\w*)\b(?!\(| \{)", masked):
        found += [(*it.span(), new) for new in names.variants.get(it[0], ())]
    found += [(*it.span(), constants[it[0]]) for it in CONSTANT.finditer(masked) if it[0] in constants]
    for it in PAIR.finditer(masked):
        opened = re.sub(r"[(\[{][^()\[\]{}]*[)\]}]", "", masked[: it.start()])
        kinds = {names.type_of(it[1], typed), names.type_of(it[2], typed)} - {""}
        if it[1] != it[2] and len(kinds) < 2 and re.search(r"[(\[][^(\[{]*$", opened):
            found.append((it.start(1), it.end(2), f"{it[2]}, {it[1]}"))
    return found


def head_of(text, function):
    """Returns the parameters and the result of a function."""
    return re.split(r"\n\s*(?:requires|ensures|decreases|\{)", text[function.named : function.begin])[0]


def is_statement(lines, at):
    """Tests whether a line is a whole statement that can be left out."""
    line, above = lines[at], lines[at - 1].rstrip() if at else "{"
    whole = STATEMENT.match(line) and not NO_STATEMENT.match(line.strip()) and not SKIPPED.search(line)
    return bool(whole) and line.count("(") == line.count(")") and above.endswith((";", "{", "}"))


def can_swap(lines, at):
    """Tests whether a line and the next are two statements, or two elements of a list, that can change places."""
    both = lines[at : at + 2]
    depths = {len(it) - len(it.lstrip()) for it in both}
    if len(both) < 2 or len(depths) > 1 or both[0] == both[1] or any(SKIPPED.search(it) for it in both):
        return False
    bound = [set(it[1].split(", ")) for it in map(BINDING.match, both) if it]
    if len(bound) == 2 and bound[0] & bound[1] or all(is_statement(lines, it) for it in (at, at + 1)):
        return True
    above = next((it for it in reversed(lines[:at]) if len(it) - len(it.lstrip()) < min(depths)), "")
    are_whole = all(ELEMENT.match(it) and it.count("(") == it.count(")") for it in both)
    return are_whole and above.endswith(("(", "[")) and " => " not in "".join(both)


def mutants_of(top, crate):
    """Returns all mutants of a crate, each as an edit that is named by its place and by what it changes."""
    sources, mutants = sources_of(top, crate), []
    names = Names(sources)
    for file, text in sources.items():
        constants = constants_in(text)
        for function in functions_of(crate, file, text):
            lines, place = text[function.begin : function.end].split("\n"), function.begin
            typed = {"self": function.name.rpartition("::")[0], **dict(TYPED.findall(head_of(text, function)))}
            for at, line in enumerate(lines):
                found = changes_of(line, names, typed, constants)
                if is_statement(lines, at):
                    found.append((len(line) - len(line.lstrip()), len(line), ""))
                if can_swap(lines, at):
                    found.append((0, len(line) + 1 + len(lines[at + 1]), f"{lines[at + 1]}\n{line}"))
                for begin, end, new in found:
                    mutants.append(mutant(crate, file, text, place + begin, place + end, new))
                place += len(line) + 1
    return [it for it in mutants if it.targets]


def mutant(crate, file, text, begin, end, new):
    number, old, new_name = text.count("\n", 0, begin) + 1, " ".join(text[begin:end].split()), " ".join(new.split())
    edit = Edit(crate, f"{file}:{number}: `{old}` -> `{new_name or 'nothing'}`")
    edit.replace(file, text, begin, end, new)
    return edit
