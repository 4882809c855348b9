"""Finds the functions of a source file."""
import re
from dataclasses import dataclass, replace

# The head of a function, and that of an impl, a trait or a macro.
HEAD = re.compile(r"(?:pub(?:\([\w: ]+\))? )?(?:(?:const|unsafe|extern \"C\") )*fn (\w+)")
OWNER = re.compile(
    r"(?:pub(?:\([\w: ]+\))? )?(?:unsafe )?(impl|trait|macro_rules!)(<(?:[^<>]|<[^<>]*>)*>)? "
    r"(.*?)(?: where\b.*| \{|$)"
)
TYPE = re.compile(r"(?:\w+::)*(\w*)<?(.*?)>?$")


@dataclass(frozen=True)
class Function:
    """A function of a source file, and how a check names it."""

    name: str  # `f`, or `Type::f`
    pattern: re.Pattern  # of the name that a check prints
    module: str  # the path of its module, with that of the crate first
    argument: str  # what its name has more than that of the same function in another impl
    folder: str  # the folder below proofs/ that has its own by its name, or the type that it is a method of
    cycle: str  # the cycle of calls that it belongs to, or ""
    item: int  # where its doc comment or first attribute begins in the file
    named: int  # where its name does
    begin: int  # where its body begins, and where it ends
    end: int
    after: int  # where its last line ends
    is_copyable: bool  # whether a copy of it under another name can stand beside it

    def key(self):
        """Returns what two functions share that one check cannot tell apart."""
        return self.cycle or (self.module, self.begin)

    def plain(self):
        """Returns its name without that of its type."""
        return self.name.rpartition("::")[2]

    def among(self, names):
        """Returns those of a check's names that may be its own: one, if the check has it and has no other like it."""
        end = f"+{self.cycle}" if self.cycle else "\0"
        found = [it for it in names if self.pattern.search(it) or it.endswith(end)]
        kind, plus, _ = self.argument.partition("+")
        # (one of an impl for other arguments is none of them, also if there is no other)
        found = [it for it in found if not plus or self.argument in it or f"::{kind}+" not in it]
        for word in (self.argument, f"{self.module}::"):
            found = [it for it in found if word in it] if len(found) > 1 else found
        return found

    def called(self, name):
        """Returns the same function under another name."""
        pattern = self.pattern.pattern.removesuffix(f"{self.plain()}$") + f"{name}$"
        return replace(self, name=self.name.removesuffix(self.plain()) + name, pattern=re.compile(pattern))


def module_of(file):
    """Returns the path of the module that a source file is: `a/b` of `src/a/b.rt`, and "" of `src/lib.rt`."""
    return re.sub(r"^src/|(\b(mod|lib|main))?\.rt$", "", file).strip("/")


def functions_of(crate, file, text):
    """Returns the functions of a file that `rt fmt` laid out: a block ends at a brace of its own depth."""
    path = "::".join(it for it in (crate, *module_of(file).split("/")) if it)
    lines = text.split("\n")
    depths = [len(it) - len(it.lstrip()) if it.strip() else 999 for it in lines]
    places = [0]
    for it in lines:
        places.append(places[-1] + len(it) + 1)
    found, owners = [], []
    for at, line in enumerate(lines):
        head, owner = HEAD.match(line.strip()), OWNER.match(line.strip())
        if not head and not owner:
            continue
        begin, end = block(lines, depths, at)
        if owner:
            kind, parameters, of = owner.groups()
            owners.append((end, kind, of, parameters or ""))
        within = [it[1:] for it in owners if at < it[0]]
        if not head or any(kind == "macro_rules!" for kind, *_ in within):
            continue
        first = first_line(lines, depths, at)
        cycle = (re.findall(r"#\[cycle\((\w+)\)\]", "\n".join(lines[first:at])) or [""])[0]
        name, pattern, argument = names_of(head[1], path, within)
        spots = places[first], places[at] + line.index(head[0]) + head.start(1), places[begin + 1], places[end]
        is_copyable = not cycle and can_be_copied(head[1], owner_of(within), text[places[begin + 1] : places[end]])
        folder = folder_of(path, within)
        spots = *spots, places[end + 1]
        found.append(Function(name, re.compile(pattern), path, argument, folder, cycle, *spots, is_copyable))
    return found


def can_be_copied(name, owner, body):
    """Tests whether a copy of a function can stand beside it.

    What is written in a trait or for one has no other name there, and a copy of a function that calls itself would call
    the right one.
    """
    before = r"\b(self\.|Self::)" if owner == "impl" else r"(?<![\w.:])"
    calls_itself = re.search(rf"{before}{name}(::<[^()]*>)?\(", body)
    return owner in ("", "impl") and name != "main" and not calls_itself


def first_line(lines, depths, at):
    """Returns the line at which the comments and attributes above the head of an item begin."""
    first = at
    while first > 0 and lines[first - 1].strip() and depths[first - 1] >= depths[at]:
        if depths[first - 1] == depths[at] and not re.match(r"\s*(//|#|\)+\]$)", lines[first - 1]):
            break
        first -= 1
    return first


def owner_of(within):
    """Returns "" for a free function, "impl" for a method of a type's own, and else what a function is written in."""
    if not within:
        return ""
    kind, of = within[-1][:2]
    return kind if kind != "impl" or " for " not in of else "impl for"


def block(lines, depths, at):
    """Returns the lines at which the block of an item begins and ends."""
    same = [it for it in range(at, len(lines)) if depths[it] == depths[at]]
    begin = next((it for it in same if lines[it].rstrip().endswith(("{", "}", ";"))), at)
    if not lines[begin].rstrip().endswith("{"):
        return begin, begin
    return begin, next((it for it in same if it > begin and lines[it].strip().startswith("}")), begin)


def names_of(name, path, within):
    """Returns the name of a function, a pattern of what a check calls it, and what tells it from those of other impls.

    A check calls `f` of `impl From<B> for Type<A>` `..::Type+AFromB::f`, and that of `impl Type<A, B>`
    `..::Type+A+B::f`.
    """
    if not within:
        return name, f"^{path}::{name}$", ""
    trait, _, own = within[-1][1].rpartition(" for ")
    kind, of = TYPE.match(own.strip()).groups()
    trait, given = TYPE.match(trait.strip()).groups()
    of, given = named(of.replace(", ", "+")), re.sub(r"<.*|\W", "", given)
    argument = f"{kind}{trait}{given[:1].upper()}{given[1:]}::" if trait else f"{kind}+{of}::"
    more = trait and trait + r"[\w+]*"
    return f"{kind}::{name}", rf"::{kind}(\+[\w+]+)?{more}::{name}$", argument


def folder_of(path, within):
    """Returns the folder of a module's proofs, `../Type+A+B` for `impl<B> Type<A, B>`, or `Type` for `impl<B> Type<B>`.

    The last is in the folder of the module that declares the type.
    """
    module = "/".join(path.split("::")[1:])
    if not within:
        return module
    _, own, parameters = within[-1]
    kind, of = TYPE.match(own.rpartition(" for ")[2].strip()).groups()
    given = [it for it in of.split(", ") if it and not it.startswith("'")]
    if all(re.search(rf"[<,] ?{re.escape(it)}\b", parameters) for it in given):
        return kind
    return "/".join([module, "+".join([kind, *map(named, given)])])


def named(arguments):
    """Returns arguments of a type as a check names them: `ref+slice+u8` for `&[u8]`, and `Vec+u8` for `Vec<u8>`."""
    return re.sub(r"[>\]]", "", arguments.replace("&", "ref+").replace("[", "slice+").replace("<", "+"))


def at_place(functions, place):
    """Returns the innermost function whose body has this place of the file, or None."""
    inside = [it for it in functions if it.begin <= place < it.end]
    return inside[-1] if inside else None


def line_of(text, place):
    """Returns the number of the line that a place lies on, from 1 on."""
    return text.count("\n", 0, place) + 1
