"""Copies of memory with changed bytes: ring_show against the model."""
import json
import os
import random
import re
import struct
import subprocess
import tempfile

from model import snapshot

from .shared import TOP, Clock, Finding, program, run_program

FOLDER = os.path.join(TOP, "examples", "snapshots")
ROW = re.compile(r"^ *(\d+) +(\d+) +([a-z ]+?) +(-?\d+) +(\d+)(?: |$)")
NOT_STORED = re.compile(r"^ *(\d+) +(\d+) +not stored yet")
INTERESTING = (0, 1, 7, 8, 9, 16, 24, 128, 2**31 - 1, 2**31, 2**32 - 1, 2**63, 2**64 - 1, 2**62)


def changed(dice, data):
    """A copy with some bytes, words or its length changed."""
    data = bytearray(data)
    for _ in range(dice.choice((0, 1, 1, 1, 2, 3, 8, 40))):
        at = dice.randrange(len(data) // 8) * 8
        kind = dice.randrange(5)
        if kind == 0:
            data[at + dice.randrange(8)] ^= 1 << dice.randrange(8)
        elif kind == 1:
            struct.pack_into("<Q", data, at, dice.choice(INTERESTING))
        elif kind == 2:
            half = dice.choice((0, 8, -8, 24, -16, 2**31 - 1, -2**31, -1, 1))
            struct.pack_into("<i", data, at + dice.choice((0, 4)), half)
        elif kind == 3:
            old = struct.unpack_from("<Q", data, at)[0]
            struct.pack_into("<Q", data, at, (old + dice.choice((-8, 8, -128, 128, -1, 1, 256))) % 2**64)
        else:
            data[at:at + 8] = bytes(8)
    if dice.random() < 0.05:
        data = data[:dice.randrange(len(data) // 8) * 8] + bytes(8 * dice.choice((0, dice.randint(1, 100))))
    return bytes(data)


def at_edges(dice, data, kind):
    """A copy with a number at or next to its limit."""
    data = bytearray(data)
    if kind == "ring":
        capacity = len(data) - snapshot.TRAILER
        head, = struct.unpack_from("<Q", data, capacity + snapshot.HEAD)
        if dice.random() < 0.5:
            tail = head + dice.choice((-8, 0, 8, capacity - 8, capacity, capacity + 8))
            struct.pack_into("<Q", data, capacity + snapshot.TAIL, tail % 2**64)
        else:
            header = dice.choice(((-16, -1), (-8, -1), (8 + capacity // 8, 1), (9 + capacity // 8, 1), (8, 0), (7, 1)))
            struct.pack_into("<ii", data, head % capacity // 8 * 8, *header)
    elif kind == "board":
        capacity = len(data) - snapshot.BOARD_TRAILER
        intent, tail, latest = struct.unpack_from("<QQQ", data, capacity)
        at, number = dice.choice(((0, tail + 8 * dice.randint(0, capacity // 8 + 1)), (0, latest + capacity),
                                  (0, latest + capacity + 8), (8, latest - latest % capacity + capacity), (8, latest),
                                  (8, intent + 8), (16, tail), (16, tail + 8)))
        struct.pack_into("<Q", data, capacity + at, number % 2**64)
    else:
        number = dice.randrange(max(1, len(data) // 512))
        at, value = dice.choice(((128, 380), (128, 381), (128, -1), (0, 2), (0, -2), (0, 0), (0, -1), (0, 1)))
        struct.pack_into("<i", data, 512 * number + at, value)
    return bytes(data)


def random_ring(dice):
    """A ring of its own: records that the model places, in random states."""
    capacity = dice.choice((128, 256, 1024))
    data = bytearray(capacity + snapshot.TRAILER)
    head = dice.randrange(0, 4 * capacity, 8)
    place = head
    while place < head + capacity and dice.random() < 0.9:
        index = place % capacity
        most = min(capacity - index, head + capacity - place, 8 + capacity // 8)
        length = dice.randint(8, most) if dice.random() < 0.8 else most
        kind = dice.randrange(5)
        struct.pack_into("<ii", data, index, -length if kind == 0 else length, -1 if kind == 1 else dice.randint(1, 9))
        place += (length + 7) // 8 * 8
    struct.pack_into("<Q", data, capacity + snapshot.HEAD, head)
    struct.pack_into("<Q", data, capacity + snapshot.TAIL, place)
    return bytes(data)


def mutated(dice, data, kind):
    return at_edges(dice, data, kind) if dice.random() < 0.5 else changed(dice, data)


def show(path, *words):
    done = run_program([path, *words], stdin=subprocess.DEVNULL, timeout=60)
    return done.returncode, done.stdout.decode(), done.stderr.decode()


def rows_of(out):
    """The rows of a table of a ring."""
    for line in out.split("\n"):
        if NOT_STORED.match(line):
            yield tuple(map(int, NOT_STORED.match(line).groups())) + ("not stored yet",)
        elif ROW.match(line):
            place, index, state, type_id, length = ROW.match(line).groups()
            yield int(place), int(index), state, int(type_id), int(length)


def compare_ring(path, file, data):
    records, findings = snapshot.list_ring(data)
    status, out, err = show(path, "ring", file, "--bodies", "none")
    if status != (1 if findings else 0) or (findings and not any(it in err for it in findings)):
        raise Finding(f"{file}: status {status}, {err.strip()!r}; the model has {findings or 'no finding'}")
    found = list(rows_of(out))
    if found != records and not any(it.startswith("BadSize") for it in findings):
        raise Finding(f"{file}: rows {found[:4]}.., the model has {records[:4]}..")


def show_json(path, kind, files, findings, may_find=lambda err: False):
    """The JSON of a listing. It has a finding if the model has one, or one of its records that `may_find` allows."""
    status, out, err = show(path, kind, *files, "--format", "json", "--bodies", "none")
    is_expected = any(it in err for it in findings) if findings else status == 0 or may_find(err)
    if status not in (0, 1) or (status == 1) != bool(err.strip()) or not is_expected:
        said = findings or "no finding"
        raise Finding(f"{kind} {files}: status {status}, {err.strip()[:200]!r}; the model has {said}")
    try:
        return json.loads(out), status
    except ValueError as why:
        raise Finding(f"{kind} {files}: no JSON: {why}") from why


def compare_board(path, file, data):
    numbers, findings = snapshot.board_findings(data)
    shown, status = show_json(path, "board", [file], findings, lambda err: "BadLength at" in err or "BadType at" in err)
    if findings:
        return
    end = None
    for record in shown["records"]:
        wrong = snapshot.wrong_board_record(data, numbers, record)
        if wrong or end not in (None, record["place"]):
            raise Finding(f"{file}: {wrong or f'{record} after {end}'}")
        end = record["place"] + (record["length"] + 7) // 8 * 8
    if status == 0 and end not in (None, numbers[2]):
        raise Finding(f"{file}: the last record ends at {end}, and the tail is {numbers[2]}")


def compare_counters(path, files, copies):
    states, findings = snapshot.list_counters(*copies)
    shown, _ = show_json(path, "counters", files, findings)
    for counter in shown.get("counters", ()) if states else ():
        wrong = snapshot.wrong_counter(*copies, states, counter)
        if wrong:
            raise Finding(f"{files}: {wrong}")


def read(name):
    with open(os.path.join(FOLDER, name), "rb") as file:
        return file.read()


def write(path, data):
    with open(path, "wb") as file:
        file.write(data)


def run(seconds, seed):
    path, clock, dice = program("ring_show", "RING_SHOW"), Clock(seconds), random.Random(seed)
    rings = [read(name) for name in sorted(os.listdir(FOLDER)) if name.endswith(".ring")]
    boards = [read(name) for name in sorted(os.listdir(FOLDER)) if name.endswith(".board")]
    counters = read("reused.metadata"), read("reused.values")
    shown = 0
    with tempfile.TemporaryDirectory(prefix="attack") as folder:
        one, two = os.path.join(folder, "one"), os.path.join(folder, "two")
        while clock.runs():
            data = mutated(dice, dice.choice(rings + [random_ring(dice)] * 3), "ring")
            write(one, data)
            compare_ring(path, one, data)
            data = mutated(dice, dice.choice(boards), "board")
            write(one, data)
            compare_board(path, one, data)
            copies = mutated(dice, counters[0], "counters"), changed(dice, counters[1])
            write(one, copies[0])
            write(two, copies[1])
            compare_counters(path, [one, two], copies)
            shown += 3
    return f"{shown} listings of changed copies"
