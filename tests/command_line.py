"""The command line of ring-run: what its options do. tests/refusals runs this."""
import dataclasses
import pathlib
import re

TOP = pathlib.Path(__file__).resolve().parent.parent


def bytes_of(count):
    """A body of this many bytes, as a scenario writes it."""
    return "07" * count if count else "-"


END = "end messages 0 left 0"


def too_long(line, most):
    """A scenario whose first line is one byte too long, and what it prints."""
    return f"{line} 1 {bytes_of(most + 1)}\n", f"refused 5 TooLong {most + 1} max {most}\n"


def replies(capacity):
    """The replies that a broadcast buffer of this size holds for a listener, or one more, and what it receives."""
    spans = capacity // 24
    cases = []
    for count in (spans, spans + 1):
        work = "set 0 1\nwork 0 1\n" * count
        told = "".join(f"sent {k}\nwork 1 stopped limit\n" for k in range(count))
        cases.append((f"listen\n{work}hear 1\n", "listener 1\n" + told, count > spans))
    return cases


def reuse(wait):
    """A freed id that is asked for a millisecond before it is due, and when it is due."""
    lines, told = [], []
    for step, (line, now) in enumerate((("allocate 5 - -", 0), ("free 0", 100), ("allocate 5 - -", 99 + wait),
                                        ("allocate 5 - -", 100 + wait))):
        lines += [line, f"work {now} 1", "counters"]
        told += [f"sent {step}", "work 1 stopped limit"]
        told += {0: [counter(0, 0)], 1: [], 2: [counter(1, 2)], 3: [counter(0, 3), counter(1, 2)]}[step]
        told += [f"counters {[1, 0, 1, 2][step]}"]
    return "\n".join(lines) + "\n", "\n".join(told) + "\n"


def counter(number, registration):
    return f"counter {number} type 5 value 0 registration {registration} label -"


DEFAULTS = {"ring": 128, "board": 256, "commands": 1024, "replies": 1024, "counters": 4, "reuse-ms": 50}
OTHERS = {"ring": 256, "board": 512, "commands": 2048, "replies": 512, "counters": 2, "reuse-ms": 7}


def shows(judge, ring_run, what, args, values):
    """The behaviour shows that the options have these values."""
    cases = [too_long("write", values["ring"] // 8), too_long("transmit", values["board"] // 8),
             too_long("send", values["commands"] // 8)]
    last = values["counters"] - 1
    cases += [(f"watch\npeek 1 {last}\npeek 1 {last + 1}\n", "watcher 1\nvalue 0\nrefused 20 BadId\n")]
    cases += [reuse(values["reuse-ms"])]
    for scenario, told in cases:
        run = ring_run.run(scenario + "end\n", args)
        judge.case("options")
        if run.status != 0 or not run.out.startswith(told + "end ") or run.err:
            judge.say(f"options {what}: {scenario[:40]!r}", run)
    for scenario, told, is_lapped in replies(values["replies"]):
        run = ring_run.run(scenario + "end\n", args)
        judge.case("options")
        heard = run.out.removeprefix(told).splitlines()[:1]
        if run.status != 0 or not run.out.startswith(told) or heard[0].startswith("lapped 1") != is_lapped:
            judge.say(f"options {what}: replies", dataclasses.replace(run, out=run.out[-200:]))


LARGEST = {"ring": 16777216, "board": 16777216, "commands": 16777216, "replies": 16777216, "counters": 4096}
OVER_ALL = """write 7 0102
read 9
subscribe
transmit 7 0102
receive 1
listen
allocate 5 - 6162
work 100 9
hear 1
end
"""
GIVES = """ok
message 7 0102
read 1 bytes 16 stopped unpublished
receiver 1
ok
copy 7 0102 place 0
listener 1
sent 0
work 1 stopped unpublished
copy 101 000000000000000000000000 place 0
end messages 1 left 0
finished received 1 left 0 live 1
"""


def files(judge, ring_run, scenarios):
    """A scenario in a file, and the version."""
    for name, (text, out) in scenarios.items():
        if name == "storm":
            continue
        run = ring_run.run("fly\n", [f"{TOP}/examples/{name}.ring"])
        judge.expect("options", f"the file {name}", run, 0, out, "")
        judge.expect("options", f"- for the file {name}", ring_run.run(text, ["-"]), 0, out, "")
    run = ring_run.run("", ["/nowhere/file"])
    judge.expect("options", "no file", run, 1, "",
                 "ring-run: No such file or directory (os error 2)\nfault: input cannot be read\n")
    run = ring_run.run("", ["--ring", "100", "/nowhere/file"])
    judge.expect("options", "no file and a bad capacity", run, 1, "", "fault: 1 BadCapacity\n")
    judge.expect("options", "a folder", ring_run.run("", ["/"]), 1, "", "fault: input cannot be read\n")
    version = re.search(r'FELTER_VERSION "(.*)"', pathlib.Path(f"{TOP}/c/felter.h").read_text())[1]
    for word in ("-V", "--version"):
        judge.expect("options", word, ring_run.run("fly\n", [word]), 0, f"ring-run {version}\n", "")
    judge.expect("options", "-V that cannot be written", ring_run.run("", ["-V"], "write", 1), 1, "", "")


def options(judge, ring_run, scenarios):
    """Tries each option alone and all together, the defaults, the largest sizes, --help, the version and the statuses."""
    shows(judge, ring_run, "by default", (), DEFAULTS)
    for name, value in OTHERS.items():
        shows(judge, ring_run, name, (f"--{name}", str(value)), DEFAULTS | {name: value})
    every = [word for name, value in OTHERS.items() for word in (f"--{name}", str(value))]
    shows(judge, ring_run, "all together", every, OTHERS)
    run = ring_run.run("", ["--help"])
    judge.expect("options", "--help", run, 0, None, "")
    if not all(f"--{name}" in run.out for name in DEFAULTS):
        judge.say("--help names every option", run)
    run = ring_run.run("", ["--help"], "write", 1)
    judge.expect("options", "--help that cannot be written", run, 1, "")
    for args, begins in ((["--fly"], "error: unexpected argument '--fly' found\n"),
                         (["--ring", "x"], "error: invalid value 'x' for '--ring <"),
                         (["--ring", "4294967296"], "error: invalid value '4294967296' for '--ring <"),
                         (["--ring"], "error: a value is required for '--ring <"),
                         (["a", "b"], "error: unexpected argument 'b' found\n")):
        run = ring_run.run("end\n", args)
        judge.expect("options", " ".join(args), run, 2, "")
        if not run.err.startswith(begins) or "--help" not in run.err:
            judge.say(f"{' '.join(args)}: clap's text", run)
    run = ring_run.run("end\n", [b"--ring=\xff"])
    judge.expect("options", "an argument that is not UTF-8", run, 2, "", "error: an argument is not UTF-8\n")
    largest = [word for name, value in LARGEST.items() for word in (f"--{name}", str(value))]
    judge.expect("options", "the largest of all", ring_run.run(OVER_ALL, largest), 0, GIVES, "")
    judge.expect("options", "end", ring_run.run("end\n"), 0, f"{END}\n", "")
    judge.expect("options", "a fault", ring_run.run("fly\n"), 1, "",
                 "fault: 25 BadLine 1\nreason: no call has this name\n")
    files(judge, ring_run, scenarios)
