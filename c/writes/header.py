"""What c/felter.h declares: calls with their comments, inline functions, and codes."""
import re
import typing

OF_C = {"uint8_t": "u8", "int32_t": "i32", "int64_t": "i64", "uint32_t": "u32", "uint64_t": "u64", "size_t": "usize"}
# Pointers that a length follows.
BUFFERS = {"const void *": "bytes", "void *": "*u8", "char *": "*u8", "const uint64_t *": "words"}
# The kinds of handles, and `handle` for one of any kind.
KINDS = "producer|consumer|transmitter|raw_receiver|receiver|counters|reader|adder|conductor|client|handle"


class Parameter(typing.NamedTuple):
    kind: str  # as C writes it
    name: str

    @property
    def word(self):
        """The word of its type in Python's table: u32, *u32, bytes, words, *u8 of a buffer, memory of the caller that
        stays in use, *producer."""
        if self.kind == "void *" and self.name == "memory":
            return "memory"
        if self.kind in BUFFERS:
            return BUFFERS[self.kind]
        if not self.kind.endswith("*"):
            return OF_C[self.kind]
        base = self.kind[:-1].strip()
        return "*" + (OF_C.get(base) or base.removeprefix("felter_"))

    @property
    def is_handle(self):
        return re.fullmatch(r"\*(?:%s)" % KINDS, self.word) is not None

    @property
    def in_c(self):
        return self.kind + ("" if self.kind.endswith("*") else " ") + self.name


class Call(typing.NamedTuple):
    name: str
    answers: bool
    parameters: typing.List[Parameter]
    comment: str  # the lines of the comment right above the declaration, without its marks

    @property
    def handles(self):
        return [it for it in self.parameters if it.is_handle]

    @property
    def words(self):
        return [it.word for it in self.parameters]


class Code(typing.NamedTuple):
    name: str
    number: int
    text: str


def calls_of(header):
    """The functions that the header declares."""
    comment = r"(?:/\* (?P<comment>(?:(?!\*/).)*?) ?\*/\n)?"
    call = r"^(?P<answer>int32_t|void) (?P<name>felter_\w+)\((?P<parameters>[^)]*)\);"
    return [Call(it["name"], it["answer"] == "int32_t", parameters_of(it["parameters"]), unmarked(it["comment"] or ""))
            for it in re.finditer("(?ms)" + comment + call, header)]


def unmarked(comment):
    return re.sub(r"(?m)^ \* ?", "", comment).rstrip()


def parameters_of(text):
    its = [" ".join(it.split()) for it in text.split(",")]
    return [Parameter(re.sub(r"\w+$", "", it).strip(), re.search(r"\w+$", it).group()) for it in its if it != "void"]


def inline_of(header):
    """The functions that the header declares as inline: what each returns, its name, and what it takes."""
    plain = re.sub(r"/\*.*?\*/", "", header, flags=re.S)
    found = re.findall(r"^static inline (int32_t |const char \*)(felter_\w+)\(([^)]*)\);", plain, re.M)
    return [(answer, name, [" ".join(it.split()) for it in text.split(",")]) for answer, name, text in found]


def codes_of(header, enum="felter_code", prefix="FELTER_"):
    """The numbers of an enum of the header, with the comments after them."""
    body = re.search(r"enum %s \{(.*?)\n\};" % enum, header, re.S).group(1)
    return [Code(name, int(number), " ".join(text.split()))
            for name, number, text in re.findall(prefix + r"(\w+) = (\d+),?\s*/\* (.*?) \*/", body, re.S)]
