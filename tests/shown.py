"""What tests/show has of files: rings in two parts and memory that is looked through; and the checks that it counts."""
import json
import os
import re
import resource
import struct
import subprocess
import time

TOP = os.path.dirname(os.path.dirname(os.path.realpath(__file__)))
STORED = os.path.join(TOP, "examples/snapshots")
LABEL = r'[a-z]+="(\\[\\"n]|[^"\\\n])*"'
METRIC = re.compile(r"[a-zA-Z_:][a-zA-Z0-9_:]*(\{%s(,%s)*\})? -?[0-9]+(\.[0-9]{3})?\Z" % (LABEL, LABEL))


def stored(name):
    with open(os.path.join(STORED, name), "rb") as file:
        return file.read()


def header_of(length, type_id):
    """The header with this length and type id."""
    return struct.unpack("<Q", struct.pack("<ii", length, type_id))[0]


def senseless(at, rng):
    """A mark at a position that makes no sense, and its slot: the kind is above 3, the end is another one than that of
    the header, or the slot has no header of a message."""
    end, kind = at + 8 * rng.randrange(1, 4), rng.choice((0, 2, 3))
    return rng.choice(((end + rng.randrange(4, 8), header_of(end - at, 5)), (end + kind, header_of(end - at + 8, 5)),
                       (end + 8 + rng.choice((2, 3)), header_of(end - at, 5)), (end + kind, header_of(at - end, 5)),
                       (end + kind, header_of(end - at, rng.choice((0, -1))))))


def senseless_in_run(at, tail, rng):
    """The end of a run that goes on at a position, and the slot there, of which no record of the run begins."""
    end = at + 8 * rng.randrange(1, min(4, (tail - at) // 8) + 1)
    length, type_id = rng.choice(((end - at + 8, 5), (at - end, 5), (end - at, 0), (end - at, -1)))
    return end, header_of(length, type_id)


def split(image, rng):
    """The words and the slots of a plain ring, and the image of a ring that is listed as this plain ring is. That image
    is the given one, but the first header that no record has is one with the length 1: no mark shows another one. Words
    that are no marks, and slots that no record has, have any contents. Committed records may be in a run, whose mark is
    at the index `begin`."""
    words = [int.from_bytes(image[at:at + 8], "little") for at in range(0, len(image), 8)]
    size = len(words) - 96
    slots, marks = [rng.getrandbits(64) for _ in range(size)], words[:]
    head, tail = words[size + 48], words[size + 16]
    if head % 8 == 0 and tail % 8 == 0 and head <= tail <= head + 8 * size:
        for position in range(head, head + 8 * size, 8):
            marks[position // 8 % size] = rng.choice((0, position, rng.randrange(position + 1)))
        at = head
    else:
        at = tail
    begin, inside = None, []
    while at < tail:
        index = at // 8 % size
        length, type_id = struct.unpack("<ii", struct.pack("<Q", words[index]))
        span = (abs(length) + 7) // 8
        is_passed = length > 0 and type_id == -1
        if words[index] == 0:
            break
        if (not 8 <= abs(length) <= 8 + size or index + span > size or at + 8 * span > tail
                or not is_passed and type_id < 1):
            words[index] = 1
            if begin is not None and rng.random() < 0.5:
                marks[begin], slots[index] = senseless_in_run(at, tail, rng)
            else:
                marks[index], slots[index] = senseless(at, rng)
            break
        # (the length of padding is a multiple of 8)
        kind = rng.choice((1, 3) if length % 8 == 0 else (3,)) if is_passed else 2 if length < 0 else 0
        if kind == 0 and begin is not None and rng.random() < 0.5:
            inside.append((index, begin))
        else:
            begin = index
        marks[begin] = at + 8 * span + kind
        if kind != 0:
            begin = None
        if kind != 1:
            slots[index:index + span] = words[index:index + span]
            slots[index] = header_of(abs(length), rng.randrange(1, 2**31) if is_passed else type_id)
        at += 8 * span
    if begin is not None and rng.random() < 0.05:
        # (the run ends above the tail)
        marks[begin], words[begin] = tail + 8 * rng.randrange(1, 4), 1
    for index, first in inside:
        # (a consumer stopped inside of the run; and no word there is looked at)
        marks[index] = rng.choice((marks[index], marks[index], marks[first], rng.getrandbits(64)))
    return tuple(b"".join(it.to_bytes(8, "little") for it in part) for part in (marks, slots, words))


def prometheus_fault(text):
    """Why a text is not in Prometheus' format, or None: each sample follows the HELP and TYPE lines of its name, which
    come once, and no sample comes twice."""
    known, samples, last = set(), set(), None
    for line in text.splitlines():
        words = line.split(" ", 3)
        if line.startswith("# TYPE ") and len(words) == 4 and words[3] in ("gauge", "counter"):
            if words[2] in known or (words[3] == "counter") != words[2].endswith("_total"):
                return f"a second or a wrong type: {line!r}"
            known.add(words[2])
            last = words[2]
        elif line.startswith("# HELP ") and len(words) == 4:
            continue
        elif not METRIC.match(line):
            return f"no sample: {line!r}"
        elif re.split(r"[ {]", line)[0] != last:
            return f"not after its type: {line!r}"
        elif line.rsplit(" ", 1)[0] in samples:
            return f"a second sample: {line!r}"
        else:
            samples.add(line.rsplit(" ", 1)[0])
    return None


class Checks:
    """Single checks, each of which prints what is wrong."""

    def __init__(self, program, folder, subject):
        self.program, self.folder, self.subject, self.wrong = program, folder, subject, 0

    def check(self, what, holds, said=""):
        if not holds:
            self.wrong += 1
            print(f"{self.subject}: {what}: {said}")


class Apart(Checks):
    """A file in which a ring lies in two parts."""

    RING, BODIES, TABLE = 0x1000, 0x2000, 0x3000

    def memory(self, *table):
        """The file, with these words where a program keeps where the parts are."""
        image, memory = stored("wrapped.plain"), bytearray(0x4000)
        memory[self.RING:self.RING + 896] = image[:896]
        memory[self.BODIES:self.BODIES + 128] = image[896:]
        memory[self.TABLE:self.TABLE + 8 * len(table)] = b"".join(it.to_bytes(8, "little") for it in table)
        path = os.path.join(self.folder, "apart")
        with open(path, "wb") as file:
            file.write(memory)
        return path

    def run(self, *words):
        run = subprocess.run([self.program, *words], capture_output=True, text=True, timeout=60, check=False)
        return run.returncode, run.stdout + run.stderr

    def try_all(self):
        """Looks into files, and returns how much was wrong."""
        path = self.memory(self.RING, self.BODIES, 112, 16)
        status, text = self.run("find", path)
        command = f"  ring-show ring {path} --at 0x1000 --length 896 --bodies-at 0x2000"
        self.check("the bodies are found", status == 0 and text.splitlines()[2:] == [command], text)
        summary = text.splitlines()[1].strip()
        self.check("its summary is that of the list", summary == stored("wrapped.out").decode().splitlines()[-1], text)
        status, text = self.run(*command.split()[1:], "--bodies", "text")
        self.check("the command lists them", status == 0 and text == stored("wrapped.out").decode(), text)
        for what, table in (("other words", (self.RING + 8, self.BODIES, 112, 16)),
                            ("another number of words", (self.RING, self.BODIES, 111, 16)),
                            ("another number of bodies", (self.RING, self.BODIES, 112, 0)),
                            ("bodies beyond the memory", (self.RING, 0x3ff0, 112, 16)),
                            ("bodies at no word", (self.RING, self.BODIES + 4, 112, 16))):
            status, text = self.run("find", self.memory(*table))
            self.check(f"{what} are none", status == 1 and "nothing found" in text, text)
        status, text = self.run("ring", "-", "--bodies-at", "896")
        self.check("standard input is refused", status == 2 and "--bodies-at" in text, text)
        status, text = self.run("board", path, "--bodies-at", "896")
        self.check("a board has no --bodies-at", status == 2 and "--bodies-at" in text, text)
        status, text = self.run("ring", path, "--at", "0x1000", "--length", "896", "--bodies-at", "0x3ff0")
        self.check("bodies beyond the file are too short", status == 2 and "ends before" in text, text)
        print(f"a ring in two parts: {self.wrong} wrong")
        return self.wrong


def used_ring(capacity, head, records):
    """The bytes of a ring with committed records of 8 bytes and no body from its head on."""
    words = [0] * (capacity // 8 + 96)
    for k in range(records):
        words[(head // 8 + k) % (capacity // 8)] = 7 << 32 | 8
    words[capacity // 8 + 16], words[capacity // 8 + 48] = head + 8 * records, head
    return b"".join(it.to_bytes(8, "little") for it in words)


def core_of(length):
    """A core file of 184 bytes: one piece of memory that it says has this many bytes."""
    header = b"\x7fELF\2\1\1".ljust(32, b"\0") + struct.pack("<QQIHHHHHH", 64, 0, 0, 64, 56, 1, 0, 0, 0)
    return header + struct.pack("<IIQQQQQQ", 1, 6, 0, 0x1000, 0, length, length, 8) + bytes(64)


class Copies(Checks):
    """Files that are looked through, and what is printed of their names."""

    def run(self, *words, **options):
        run = subprocess.run([self.program, *words], capture_output=True, text=True, timeout=60, check=False, **options)
        return run.returncode, run.stdout, run.stderr

    def write(self, name, data):
        path = os.path.join(self.folder, name)
        with open(path, "wb") as file:
            file.write(data)
        return path

    def look_at_names(self):
        """The command for a file works in a shell whatever its name is, and no control byte comes out."""
        image = bytes(64) + stored("blocked.ring")
        names = ("a b", "a;echo wrong", "it's", "$HOME", "line\nend", "\x1b[31mred", "bell\a'", "c1\x9b31m", "-x", "é")
        for name in names:
            self.write(name, image)
            status, out, err = self.run("find", "--", name, cwd=self.folder)
            self.check(f"{name!r} is found", status == 0 and not err, out + err)
            self.check(f"{name!r} is printable", all(it.isprintable() or it == "\n" for it in out), repr(out))
            command = out.splitlines()[-1].strip().split(" ", 1)[-1]
            shown = subprocess.run(["bash", "-c", f'"$0" {command}', self.program], capture_output=True, text=True,
                                   cwd=self.folder, timeout=60, check=False)
            self.check(f"{name!r} is shown", shown.stdout.count("committed") >= 4 and shown.returncode == 0, shown)
        status, out, err = self.run("ring", "none\x1b[31m", cwd=self.folder)
        self.check("a fault has no control bytes", status == 2 and "\x1b" not in err and "none\\x1b[31m" in err, err)
        status, out, err = self.run("ring", "x", "--at", "\x1b", cwd=self.folder)
        self.check("a refused number has no control bytes", status == 2 and "\x1b" not in err, err)

    def look_at_cores(self):
        """A core file is read as far as it goes, whatever its headers say."""
        for length in (64, 1 << 40, 1 << 63, (1 << 64) - 1):
            path, begin = self.write("core", core_of(length)), time.monotonic()
            status, out, err = self.run("find", path)
            self.check(f"a core file says {length}", status == 1 and not out and "nothing found" in err, err)
            self.check(f"{length} takes no time", time.monotonic() - begin < 5)

    def look_at_capacities(self):
        """A ring of 128 bytes after bytes of 0 may also be one of 256; a program's table says which."""
        ring = used_ring(128, 128, 6)
        memory = bytes(0x100) + ring + bytes(512)
        path = self.write("two", memory)
        status, out, _ = self.run("find", path)
        title = "ring at 0x80  capacity 256 or 128  (several fit, so less sure)"
        self.check("both capacities are named", status == 0 and out.splitlines()[0] == title, out)
        table = struct.pack("<QQQQ", 0x100, 0x100 + len(ring), 112, 16)
        self.write("two", memory + table)
        status, out, _ = self.run("find", path)
        title = "ring at 0x100  capacity 128  (sure)"
        self.check("the table says which", status == 0 and out.splitlines()[0] == title, out)
        unused = bytes(0x1000) + struct.pack("<QQQQ", 0x100, 0x600, 112, 16)
        status, out, _ = self.run("find", self.write("two", unused))
        self.check("an unused ring is found by its table", status == 0 and out.splitlines()[0] == title, out)

    def look_at_nothing(self):
        """Nothing is said to be nothing."""
        status, out, err = self.run("find", self.write("zeros", bytes(1 << 16)))
        self.check("nothing is found", status == 1 and not out and "nothing found; 65536 bytes" in err, err)
        status, out, err = self.run("find", self.write("zeros", bytes(1 << 16)), "--format", "json")
        self.check("nothing is found as JSON", status == 1 and not out and "nothing found" in err, err)
        status, out, err = self.run("find", "999999999")
        self.check("there is no such process", status == 2 and err == "ring-show: 999999999: no such process\n", err)

    def seconds(self, rings):
        """The processor's time for a file with this many rings, and whether all were found."""
        path = self.write("many", used_ring(128, 0, 3) * rings)
        before = resource.getrusage(resource.RUSAGE_CHILDREN)
        _, out, _ = self.run("find", path)
        after = resource.getrusage(resource.RUSAGE_CHILDREN)
        os.unlink(path)
        self.check(f"{rings} rings are found", out.count("ring at ") == rings, out.count("ring at "))
        return after.ru_utime - before.ru_utime

    def look_at_many(self):
        """Four times as many rings take about four times as long."""
        few, many = self.seconds(10000), self.seconds(40000)
        self.check("it is not quadratic", many < 8 * few + 0.5, f"{few:.2f} s and {many:.2f} s")

    def look_at_looks(self):
        """Looks at one file: several are JSON lines, none is refused, and none says that a consumer is blocked."""
        path = os.path.join(STORED, "blocked.ring")
        status, out, err = self.run("ring", path, "--times", "0")
        self.check("no look is refused", status == 2 and not out and "--times 0" in err, err)
        status, out, _ = self.run("ring", path, "--times", "2", "--every", "1", "--format", "json")
        lines = [json.loads(it) for it in out.splitlines()]
        self.check("two looks are two lines", status == 0 and len(lines) == 2, out)
        claim = [lines[0].get(it) for it in ("stops_at", "open_type", "open_length", "blocked_at", "blocked_ms")]
        self.check("one look says where a read stops", claim == [40, 5, 28, None, None], claim)
        status, out, _ = self.run("ring", path, "--fail-if-blocked")
        self.check("one look blocks nothing", status == 0 and "blocked" not in out, out)
        words = ("--times", "2", "--every", "300", "--format", "json", "--fail-if-blocked")
        status, out, _ = self.run("ring", path, *words)
        last = json.loads(out.splitlines()[-1])
        is_blocked = last["blocked_at"] == 40 and 300 <= last["blocked_ms"] < 20000
        self.check("two looks say that it is blocked", status == 1 and is_blocked, out)
        _, out, _ = self.run("ring", path, "--format", "prometheus", "--name", 'a"b')
        label = 'felter_ring_blocked{file="%s",address="0x0",name="a\\"b"} 0' % path
        self.check("metrics have labels", label in out.splitlines(), out)

    def look_at_versions(self):
        with open(os.path.join(TOP, "c/felter.h"), encoding="utf-8") as header:
            version = re.search(r'#define FELTER_VERSION "(.*)"', header.read()).group(1)
        status, out, _ = self.run("--version")
        self.check("the version is the library's", (status, out) == (0, f"ring-show {version}\n"), out)

    def try_all(self):
        """Looks into files, and returns how much was wrong."""
        self.look_at_names()
        self.look_at_cores()
        self.look_at_capacities()
        self.look_at_nothing()
        self.look_at_many()
        self.look_at_looks()
        self.look_at_versions()
        print(f"files and their names: {self.wrong} wrong")
        return self.wrong
