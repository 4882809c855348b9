"""What c/bindings --check compares, besides the written files."""
import re
import subprocess

from .header import calls_of, codes_of, inline_of, parameters_of


def placed(top):
    """The functions of c/felter_memory.c that the header declares, with what they take."""
    text = (top / "c/felter_memory.c").read_text()
    found = re.findall(r"^int32_t (felter_\w+)\(([^)]*)\) \{", text, re.M)
    return {name: [it.word for it in parameters_of(parameters)] for name, parameters in found}


def symbols(*command):
    said = subprocess.run(["nm", *command], check=True, capture_output=True, text=True).stdout
    # (the symbols of the shared library have a version)
    return set(re.findall(r" [TDB] (felter_\w+)(?:@@.*)?$", said, re.M))


def matched(text, pattern):
    """The names and numbers that a pattern finds in a text. A name in camel case gets the form that it has in C."""
    found = [it.groupdict() for it in re.finditer(pattern, text, re.M)]
    return {re.sub(r"(?<=[a-z])([A-Z])", r"_\1", it["name"]).upper(): int(it["number"]) for it in found}


def numbers_of_python(text, name):
    body = re.search(r"^class %s\(.*?\n\n\n" % name, text, re.S | re.M).group(0)
    return {name: int(number) for name, number in re.findall(r"^    ([A-Z_]+) = (\d+)$", body, re.M)}


def expected_in_tests(top):
    texts = [path.read_text() for path in (top / "c/tests").glob("*.c")]
    seen = [re.findall(r"(?:EXPECT\(|code == |code != |refuses\(.*, )FELTER_(\w+)", text) for text in texts]
    return {name for its in seen for name in its} - {"OK"}


def differences(what, wanted, found):
    """What is said where two sets or two tables differ."""
    for name in sorted(set(wanted) | set(found)):
        if name not in found:
            yield f"{what}: {name} is missing"
        elif name not in wanted:
            yield f"{what}: {name} is too much"
        elif isinstance(wanted, dict) and wanted[name] != found[name]:
            yield f"{what}: {name} is {found[name]} and not {wanted[name]}"


def differences_of_numbers(top, header):
    def table(*of):
        return {it.name: it.number for it in codes_of(header, *of) if it.name != "OK"}

    def text(path):
        return (top / path).read_text()
    codes, stops = table(), table("felter_stop", "FELTER_STOP_")
    kinds, conductor = table("felter_reply", "FELTER_REPLY_"), text("python/felter/conductor.py")
    variant = r"^    (?P<name>[A-Z]\w+)(?: \{[^}]*\})? = (?P<number>\d+),$"
    yield from differences("error.rs", codes, matched(text("rust/felter/src/error.rs"), variant))
    number = r"(?P<number>\d+) => Ok\(%s::(?P<name>\w+)"
    yield from differences("conductor.rs", stops, matched(text("rust/felter/src/conductor.rs"), number % "WorkStop"))
    yield from differences("client.rs", kinds, matched(text("rust/felter/src/client.rs"), number % "Reply"))
    yield from differences("WorkStop of python/felter", stops, numbers_of_python(conductor, "WorkStop"))
    yield from differences("ReplyKind of python/felter", kinds, numbers_of_python(conductor, "ReplyKind"))
    yield from differences("c/tests", set(codes), expected_in_tests(top))
    path = "crates/ring_handles/src/conductor.rt"
    yield from differences(path, stops, matched(text(path), r"WorkStop::(?P<name>\w+) => (?P<number>\d+),"))
    path = "crates/ring_protocol/src/reply.rt"
    yield from differences(path, kinds, matched(text(path), r"pub const (?P<name>\w+): i32 = (?P<number>\d+);"))


def differences_of_calls(top, header, files):
    """Where the header, exports.txt and c/felter_memory.c do not have the same calls."""
    calls, its = {it.name: it.words for it in calls_of(header)}, placed(top)
    yield from differences("c/felter_memory.c", {name: calls.get(name) for name in its}, its)
    rows = {row.name for file in files for row in file.rows}
    yield from differences("crates/ring_c/exports.txt", set(calls) - set(its), rows)


def differences_of_libraries(header, folder):
    shown = {*(it.name for it in calls_of(header)), *(name for _, name, _ in inline_of(header))}
    yield from differences("libfelter.a", shown, symbols("-g", "--defined-only", f"{folder}/libfelter.a"))
    yield from differences("libfelter.so", shown, symbols("-D", "--defined-only", f"{folder}/libfelter.so"))
