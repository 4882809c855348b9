"""What tests/show has of `ring-show recover`: images of rings, changed at random, and what is recovered from them. The
expected answer is computed here from docs/FORMATS.md, and not by the program."""
import json
import os
import struct
import subprocess

from shown import Checks, header_of, stored

HEADER, TRAILER = 128, 96
# (the kinds of marks, after that of a committed record, which is 0)
PADDING, OPEN, ABORTED = 1, 2, 3
# (numbers at the edges of what a header or a trailer may say)
EDGES = (0, 1, 7, 8, 2**31 - 1, 2**31, 2**32 - 1, 2**32, 2**62, 2**63, 2**64 - 8, 2**64 - 1)


def words_in(data):
    return list(struct.unpack(f"<{len(data) // 8}Q", data))


def bytes_of(words):
    return struct.pack(f"<{len(words)}Q", *words)


def ring(rng):
    """The words and the slots of a ring that was killed: records of all states from the head on, of which some have no
    mark yet. Words that are no marks are any numbers up to their positions. Committed records may be in a run, whose
    mark is at the index `begin`."""
    capacity = rng.choice((128, 256, 512))
    size = capacity // 8
    words, slots = [0] * (size + TRAILER), [rng.getrandbits(64) for _ in range(size)]
    head = at = 8 * rng.randrange(4 * size)
    for position in range(head, head + capacity, 8):
        words[position % capacity // 8] = rng.choice((0, position, rng.randrange(position + 1)))
    begin, inside = None, []
    while rng.random() < 0.9:
        length = 8 + rng.randrange(size + 1)
        span, room = -(-length // 8) * 8, capacity - at % capacity
        place = at if span <= room else at + room
        if place + span > head + capacity:
            break
        state = rng.choice((0, 0, OPEN, ABORTED, "padded", "moved"))
        if place > at and state != "moved":
            words[at % capacity // 8] = place + PADDING
        if state not in ("padded", "moved"):
            index = place % capacity // 8
            if state == 0 and begin is not None and place == at and rng.random() < 0.5:
                inside.append((index, begin))
            else:
                begin = index
            words[begin] = place + span + state
            slots[index] = header_of(length, rng.choice((1, rng.randrange(1, 2**31))))
        if state != 0:
            begin = None
        at = place + span
    for index, first in inside:
        # (a consumer that stopped inside of the run left its mark there)
        words[index] = rng.choice((words[index], words[first]))
    words[size + 16], words[size + 48] = at, head
    return words, slots


def image(words, slots, kind=2):
    """The image of a ring."""
    size = len(slots)
    fields = (2, kind, 8 * size, HEADER, len(words), HEADER + 8 * len(words), size)
    return b"FELTERIM" + struct.pack("<7Q", *fields) + bytes(64) + bytes_of(words) + bytes_of(slots)


def killed():
    """The stored image, examples/snapshots/killed.image: a ring of 128 bytes whose process was killed."""
    words, slots = [0] * (16 + TRAILER), [0] * 16
    words[16 + 16], words[16 + 48] = 168, 64
    # (the record at 48 was read, and its mark is left. That at 64 was shown, and the head did not move. Of the claim at
    # 80 no mark was stored. The record at 96 is committed. The claim at 128, after padding, is open. The record at 152
    # was aborted)
    for place, mark, length, type_id, body, rest in (
            (48, 64, 12, 2, b"read", b"\xee"), (64, 80, 13, 3, b"shown", b"\xaa"), (80, 0, 12, 9, b"gone", b"\0"),
            (96, 112, 12, 4, b"sent", b"\0"), (112, 128 + PADDING, 0, 0, b"", b"\0"),
            (128, 152 + OPEN, 24, 5, b"half", b"\0"), (152, 168 + ABORTED, 16, 6, b"aborted!", b"\0")):
        words[place % 128 // 8], slots[place % 128 // 8] = mark, header_of(length, type_id)
        for k in range(0, len(body), 8):
            slots[place % 128 // 8 + 1 + k // 8] = int.from_bytes(body[k:k + 8].ljust(8, rest), "little")
    return image(words, slots)


def shown_at(at, mark, slot):
    """The length and the type id of the header that a mark at a position shows. That of an open record has the type id
    1, and its body fills the record. A committed record may end before the mark's end, which is then that of a run. One
    that makes no sense shows 1 and 0."""
    kind, (length, type_id) = mark % 8, struct.unpack("<ii", struct.pack("<Q", slot))
    span = mark - kind - at
    has_end = length > 0 and -(-length // 8) * 8 == span
    is_of_run = length > 0 and -(-length // 8) * 8 <= span
    if not 8 <= span < 2**31:
        return 1, 0
    if kind == PADDING:
        return span, -2
    if kind == OPEN:
        return -span, 1
    if kind == ABORTED and has_end:
        return length, -1
    return (length, type_id) if kind == 0 and is_of_run and type_id not in (-1, -2) else (1, 0)


def recovered(words, slots):
    """The finding, the messages with places and type ids, and the number of open claims, of words and slots."""
    size = len(words) - TRAILER
    capacity = 8 * size
    if size < 16 or size > 2**21 or size & (size - 1):
        return f"BadSize: no ring has {len(words)} words", [], 0
    head, tail = words[size + 48], words[size + 16]
    if head % 8 or tail % 8:
        return f"UnalignedPosition: head {head}, tail {tail}", [], 0
    if tail < head:
        return f"TailBeforeHead: head {head}, tail {tail}", [], 0
    if tail - head > capacity:
        return f"TailTooFar: head {head}, tail {tail}", [], 0
    data, end, messages, is_open = bytes_of(slots), head, [], 0
    # (`next_at` is the end of the last committed record, and `run` is the end of its run)
    next_at, run = head, head
    for at in range(head, tail, 8):
        index = at % capacity
        word = words[index // 8]
        mark = run if word <= at and at == next_at else word
        if mark <= at:
            continue
        length, type_id = shown_at(at, mark, slots[index // 8])
        if at < run and mark != run:
            length, type_id = 1, 0
        if mark % 8 == 0:
            next_at, run = at + -(-abs(length) // 8) * 8, mark
        count = abs(length)
        span = -(-count // 8) * 8
        if at < end or not 8 <= count <= 8 + size or index + span > capacity or at + span > tail:
            return f"BadLength at {index}: length {length}", [], 0
        if type_id < -2 or type_id == 0 and length > 1:
            return f"BadType at {index}: type id {type_id}", [], 0
        end = at + span
        is_open += length < 0
        if length > 0 and type_id > 0:
            messages.append((at, type_id, data[index + 8:index + count]))
    return None, messages, is_open


def expected(data):
    """What is recovered from an image, or None if it has no image of a ring that is there as a whole."""
    if len(data) < HEADER or data[:8] != b"FELTERIM":
        return None
    version, kind, capacity, words_at, words, slots_at, slots = struct.unpack("<7Q", data[8:64])
    if version != 2 or kind not in (1, 2) or words != capacity // 8 + TRAILER or slots != capacity // 8:
        return None
    if words_at + 8 * words > len(data) or slots_at + 8 * slots > len(data):
        return None
    parts = [words_in(data[at:at + 8 * count]) for at, count in ((words_at, words), (slots_at, slots))]
    return recovered(*parts)


def place_in(data, capacity, rng):
    """A byte of an image. Half of them are in a mark or in its slot, and some are in the head or the tail."""
    positions = [HEADER + capacity + at for at in (384, 128)]
    head, tail = (struct.unpack_from("<Q", data, at)[0] for at in positions)
    marks = [at % capacity for at in range(head, min(tail, head + capacity), 8)
             if struct.unpack_from("<Q", data, HEADER + at % capacity // 8 * 8)[0] > at]
    part = rng.random()
    if part < 0.05:
        return rng.choice(positions) + rng.randrange(8)
    if part < 0.55 and marks:
        return rng.choice((HEADER, len(data) - capacity)) + rng.choice(marks) // 8 * 8 + rng.randrange(8)
    return rng.randrange(rng.choice((0, HEADER)), len(data))


def changed(data, rng):
    """The image with some of its bytes, lengths, type ids and words changed, and sometimes cut off."""
    data, capacity = bytearray(data), int.from_bytes(data[24:32], "little")
    for _ in range(rng.choice((0, 1, 1, 2, 6))):
        at, kind = place_in(data, capacity, rng), rng.random()
        if kind < 0.3:
            data[at] = rng.randrange(256)
        elif kind < 0.6:
            at += rng.choice((0, 4, 4)) - at % 8
            data[at:at + 4] = struct.pack("<i", rng.choice((0, -1, -2, -3, 1, 8, -8, 2**31 - 1, -2**31)))
        else:
            at -= at % 8
            lengths = header_of(rng.choice((8, 9, 16, -8, -16, 7, 0)), rng.choice((1, -1, -2, -3, 0)))
            word = rng.choice((rng.choice(EDGES), lengths, rng.randrange(4096), rng.randrange(4096)))
            data[at:at + 8] = word.to_bytes(8, "little")
    if rng.random() < 0.03:
        del data[rng.randrange(len(data) + 1):]
    return bytes(data)


def fault_of(run, data):
    """What is wrong with a run of `recover` on an image, with JSON, or None."""
    wanted = expected(data)
    if wanted is None:
        is_right = run.returncode == 2 and run.stderr and not run.stdout
        return None if is_right else f"status {run.returncode}, {run.stdout!r} {run.stderr!r}, of no image"
    finding, messages, is_open = wanted
    said = json.loads(run.stdout) if run.returncode in (0, 1) else {}
    found = [(it["place"], it["type"], bytes.fromhex(it["body"].replace("-", ""))) for it in said.get("messages", [])]
    counts = {"messages": len(messages), "open": is_open} if finding is None else {}
    lengths = all(it["length"] == 8 + len(message[2]) for it, message in zip(said.get("messages", []), messages))
    is_right = (run.returncode == (finding is not None) and found == messages and lengths and
                said["counts"] == counts and said["findings"] == [finding] * (finding is not None) and
                run.stderr.decode() == "".join(f"{it}\n" for it in said["findings"]))
    return None if is_right else f"status {run.returncode}, {run.stdout!r} {run.stderr!r}, not {wanted}"


class Recover(Checks):
    """What `recover` says of command lines and of the stored image."""

    def run(self, *words):
        run = subprocess.run([self.program, "recover", *words], capture_output=True, text=True, timeout=60, check=False)
        return run.returncode, run.stdout + run.stderr

    def write(self, name, data):
        path = os.path.join(self.folder, name)
        with open(path, "wb") as file:
            file.write(data)
        return path

    def try_all(self):
        """Tries command lines, and returns how much was wrong."""
        data, wanted = stored("killed.image"), stored("killed.out").decode()
        path = self.write("killed", data)
        status, text = self.run(path, "--bodies", "text")
        self.check("the stored image is shown as stored", (status, text) == (0, wanted), text)
        later = self.write("later", bytes(24) + data)
        status, text = self.run(later, "--at", "24", "--bodies", "text")
        self.check("an image may begin later", (status, text) == (0, wanted), text)
        parts = ["--at", "128", "--length", "896", "--bodies-at", "1024", "--bodies", "text"]
        status, text = self.run(path, *parts)
        self.check("the parts may be named", (status, text) == (0, wanted), text)
        status, text = self.run(path, "--limit", "1", "--bodies", "none")
        self.check("a limit is kept", status == 0 and text.endswith("(1 more)\n2 recovered, 1 open\n"), text)
        for what, words in (("standard input", ["-"]), ("no image", [path, "--at", "8"]), ("no file", [path + "-"])):
            status, text = self.run(*words)
            self.check(f"{what} is refused", status == 2 and text.startswith("ring-show: "), text)
        status, text = self.run(path, "--at", "128", "--length", "888", "--bodies-at", "1024")
        self.check("words of no ring are found", status == 1 and "BadSize: no ring has 111 words" in text, text)
        print(f"recover: {self.wrong} wrong")
        return self.wrong
