"""Random scenarios and options: ring_run against the model."""
import random
import subprocess
import tempfile

from model import scenario

from .shared import Clock, Finding, program

SECONDS = 120
LINES = (1, 5, 20, 60, 200, 600)
WEIGHTS = {"write": 8, "claim": 5, "put": 4, "commit": 4, "abort": 2, "read": 7, "control": 5, "positions": 2,
           "correlation": 1, "beat": 1, "heartbeat": 1, "transmit": 6, "subscribe": 2, "receive": 6, "leave": 1,
           "send": 2, "allocate": 4, "own": 2, "free": 3, "set": 4, "close": 1, "work": 6, "listen": 2, "hear": 6,
           "counters": 2, "owner": 1, "watch": 1, "peek": 2, "unwatch": 1, "storm": 0.1}
HELD = {"put": "claims", "commit": "claims", "abort": "claims", "receive": "receivers", "leave": "receivers",
        "hear": "listeners", "peek": "watchers", "unwatch": "watchers"}
NUMBERS = {"LIMIT": (0, 1, 2, 3, 9, 2**32 - 1), "OFFSET": (0, 1, 7, 8, 15, 16, 2**64 - 1),
           "CLIENTS": (0, 1, 2, 5, 65), "COMMANDS": (0, 1, 2, 9, 10001),
           "OWNER": (0, 1, 9, 2**64 - 1), "N": (0, 1, 77, 2**64 - 1), "VALUE": (0, 1, -1, 2**63 - 1, -2**63)}


def options_of(dice):
    """Mostly small capacities, so that buffers wrap; now and then one that is refused."""
    if dice.random() < 0.3:
        return {}
    chosen = {"ring": dice.choice((128, 128, 256, 512, 4096, 1 << 20)), "board": dice.choice((256, 256, 512, 8192)),
              "commands": dice.choice((128, 256, 1024, 8192)), "replies": dice.choice((256, 512, 1024)),
              "counters": dice.choice((1, 2, 4, 9, 4096)), "reuse_ms": dice.choice((0, 1, 50, 2**32 - 1))}
    if dice.random() < 0.03:
        chosen[dice.choice(("ring", "board", "commands", "replies"))] = dice.choice((0, 64, 100, 1 << 25, 2**32 - 1))
    if dice.random() < 0.02:
        chosen["counters"] = dice.choice((0, 4097, 2**32 - 1))
    return {name: value for name, value in chosen.items() if dice.random() < 0.8}


def flags(options):
    return [word for name, value in options.items() for word in ("--" + name.replace("_", "-"), str(value))]


class Writer:
    """Makes lines, most of which fit what the model holds."""

    def __init__(self, dice, held):
        self.dice, self.held, self.now = dice, held, 0

    def body(self, most):
        """Bytes in hexadecimal: of most lengths around what is allowed, many of them zeros."""
        dice = self.dice
        size = dice.choice((0, dice.randint(0, min(most, 40)), dice.randint(0, most + 1), dice.randint(0, 9), most))
        data = dice.choice((dice.randbytes(size), bytes(size), bytes(dice.choice((0, 0, 1, 255)) for _ in range(size))))
        text = data.hex() or "-"
        return text.upper() if dice.random() < 0.2 else text

    def number(self, held):
        """The number of something that is held, or nearly so."""
        if held.of and self.dice.random() < 0.97:
            return str(self.dice.choice(list(held.of)))
        return str(self.dice.choice((0, held.given, held.given + 1, 2**64 - 1, 2**64, -1)))

    def near(self, *numbers):
        return str(self.dice.choice(numbers))

    def word(self, name, kind):
        """A word of a kind, for a line with this name."""
        dice, held = self.dice, self.held
        own = {"claim": held.ring, "write": held.ring, "transmit": held.board, "send": held.conductor.ring}.get(name)
        most = own.capacity // 8 if own else 130
        if kind == "HEX":
            return self.body(min(most, 1100) if own else dice.choice((3, 16, 112, 113, 380)))
        if kind == "TYPE":
            return self.near(1, 2, 3, 4, 5, 6, *(() if name == "send" else (99, 2**31 - 1, 0, -1, -2**31)))
        if kind == "K":
            return self.number(getattr(held, HELD[name]))
        if kind == "LEN":
            return self.near(0, 1, 8, most, most + 1, dice.randint(0, most), 2**64 - 1)
        if kind == "LETTERS":
            return "".join(dice.choice("nnncab") for _ in range(dice.randint(0, 5))) or "-"
        if kind == "NOW":
            self.now = dice.choice((self.now, self.now + dice.randint(0, 60), dice.randint(0, 300), 2**62))
            return str(self.now)
        if kind == "ID":
            count = held.conductor.counters.count
            return self.near(*range(0, count + 1, 1 + count // 8), 2**32 - 1)
        return self.near(*NUMBERS[kind])

    def line(self):
        dice = self.dice
        if dice.random() < 0.02:
            return dice.choice((b"", b"   ", b"# a comment \xff\t", b"#"))
        name = dice.choices(list(WEIGHTS), WEIGHTS.values())[0]
        words = [name] + [self.word(name, kind) for kind in scenario.LINES[name]]
        if dice.random() < 0.05:
            words = ["0" * dice.randint(1, 30) + word if word.isdigit() else word for word in words]
        space = " " * dice.choice((1, 1, 1, 1, 3))
        return (dice.choice(("", "", "", " ")) + space.join(words) + dice.choice(("", "", "", "  "))).encode()

    def broken(self, line):
        """A line that is perhaps none."""
        dice, words = self.dice, line.split()
        if not words:
            return dice.choice((b"fly", b"\t", b"write 1", b"end end", b"end # x"))
        at = dice.randrange(len(words))
        words[at] = dice.choice((words[at] + b"0", words[at][:-1], words[at] + b"\t", words[at].upper(), b"-", b"+1",
                                 b"1.0", b"\xff\xfe", b"0x10", b"99999999999999999999", b"g0", b"1" * 300))
        return b" ".join(words + dice.choice(([], [], [b"1"])))


def make(dice, options):
    """A scenario. Each line is made with what the model has come to."""
    held, lines = scenario.Run(dict(scenario.DEFAULTS, **options)), []
    writer = Writer(dice, held)
    is_hostile = dice.random() < 0.2
    for _ in range(dice.randint(0, dice.choice(LINES))):
        line = writer.line()
        if is_hostile and dice.random() < 0.03:
            line = writer.broken(line)
        words = [word for word in line.split(b" ") if word]
        try:
            if words and not words[0].startswith(b"#"):
                held.line(words)
        except scenario.BadLine:
            if not is_hostile:
                continue
        lines.append(line)
    ends = dice.choice(([b"end"],) * 8 + ([b"end", b"# done"], [b"end", b"", b"read 1"], []))
    return b"\n".join(lines + ends) + dice.choice((b"\n", b"\n", b"", b"\n\n"))


def compare(path, options, data):
    """One scenario of both."""
    wanted = scenario.run(data, **options)
    done = subprocess.run([path, *flags(options)], input=data, stdout=subprocess.PIPE, stderr=subprocess.PIPE,
                          timeout=SECONDS)
    found = (done.returncode, done.stdout.decode(), done.stderr.decode())
    if found == wanted:
        return
    left, right = (f"{status} {out}{err}".split("\n") for status, out, err in (wanted, found))
    at = next((k for k, (a, b) in enumerate(zip(left, right)) if a != b), min(len(left), len(right)))
    # (of a name that no other user can know before, who could put a link there)
    descriptor, kept = tempfile.mkstemp(prefix="attack-scenario.", suffix=".ring")
    with open(descriptor, "wb") as file:
        file.write(data)
    raise Finding(f"{kept} with {flags(options)}: the model has {left[at:at + 2]}, the program {right[at:at + 2]}")


def run(seconds, seed):
    path, clock, dice = program("ring_run", "RING_RUN"), Clock(seconds), random.Random(seed)
    scenarios = lines = 0
    while clock.runs():
        options = options_of(dice)
        is_refused = scenario.refused_option(dict(scenario.DEFAULTS, **options))
        data = b"end\n" if is_refused else make(dice, options)
        compare(path, options, data)
        scenarios, lines = scenarios + 1, lines + data.count(b"\n")
    return f"{scenarios} scenarios of {lines} lines"
