"""Scenarios: what ring_run prints for its input, and its status."""
import re
import struct

from . import conductor as protocol
from .board import Board, Receiver
from .conductor import Conductor
from .ring import ABORTED, COMMITTED, LAST_POSITION, OPEN, Refused, Ring, is_capacity

MAX_INPUT, MAX_COMMAND = 1 << 20, 4096
MOST_SHARES_OUT = 65535
DEFAULTS = {"ring": 128, "board": 256, "commands": 1024, "replies": 1024, "counters": 4, "reuse_ms": 50}
KINDS = {"TYPE": (-2**31, 2**31 - 1), "LIMIT": (0, 2**32 - 1), "LEN": (0, 2**64 - 1), "OFFSET": (0, 2**64 - 1),
         "N": (0, 2**64 - 1), "K": (0, 2**64 - 1), "ID": (0, 2**32 - 1), "VALUE": (-2**63, 2**63 - 1),
         "OWNER": (0, 2**64 - 1), "NOW": (0, LAST_POSITION), "CLIENTS": (0, 2**32 - 1), "COMMANDS": (0, 2**32 - 1)}
LINES = {line.split()[0]: line.split()[1:] for line in (
    "write TYPE HEX", "claim TYPE LEN", "put K OFFSET HEX", "commit K", "abort K", "read LIMIT",
    "control LIMIT LETTERS", "positions", "correlation", "beat N", "heartbeat", "transmit TYPE HEX", "subscribe",
    "receive K", "leave K", "send TYPE HEX", "allocate TYPE HEX HEX", "own OWNER TYPE HEX HEX", "free ID",
    "set ID VALUE", "close OWNER", "work NOW LIMIT", "listen", "hear K", "counters", "owner ID", "watch", "peek K ID",
    "unwatch K", "storm CLIENTS COMMANDS", "end")}
SERVICE = {"send", "allocate", "own", "free", "set", "close", "work", "listen", "hear", "counters", "owner", "watch",
           "peek", "unwatch"}


class BadLine(Exception):
    """A line that is bad, and why."""


class BadWords(BadLine):
    """A line whose words ask for no call."""


def hex_of(data):
    return data.hex() or "-"


def value_of(word, kind):
    """What a word is as one of its kind."""
    if kind == "HEX":
        if word == b"-":
            return b""
        if len(word) % 2 or not re.fullmatch(rb"[0-9a-fA-F]+", word):
            raise BadWords("a word is not hexadecimal digits, two for each byte")
        return bytes.fromhex(word.decode())
    if kind == "LETTERS":
        if word != b"-" and not re.fullmatch(rb"[abcn]+", word):
            raise BadWords("a letter is not a, b, c or n")
        return "" if word == b"-" else word.decode()
    if not re.fullmatch(rb"-?[0-9]+", word):
        raise BadWords("a word is not a number")
    least, most = KINDS[kind]
    if least == 0 and word.startswith(b"-") or not least <= int(word) <= most:
        raise BadWords("a number is out of its range")
    return int(word)


def parsed(words):
    """The name of a call, and the values of its words."""
    name, rest, values = words[0].decode("latin-1"), words[1:], []
    if name not in LINES:
        raise BadWords("no call has this name")
    for kind in LINES[name]:
        if not rest:
            raise BadWords("a word is missing")
        values.append(value_of(rest.pop(0), kind))
    if rest:
        raise BadWords("there is a word too many")
    return name, values


class Held:
    """Things with numbers from 1 on, none of which is given twice."""

    def __init__(self):
        self.of, self.given = {}, 0

    def add(self, thing):
        self.given += 1
        self.of[self.given] = thing
        return self.given

    def add_share(self, thing):
        if len(self.of) == MOST_SHARES_OUT:
            raise Refused("12 NoShares")
        return self.add(thing)

    def get(self, number):
        if number not in self.of:
            raise BadLine("nothing is held under this number")
        return self.of[number]

    def take(self, number):
        self.get(number)
        return self.of.pop(number)


class Run:
    def __init__(self, options):
        self.options = options
        self.ring, self.board = Ring(options["ring"]), Board(options["board"])
        self.conductor = Conductor(options["commands"], options["replies"], options["counters"], options["reuse_ms"])
        self.claims, self.receivers, self.listeners, self.watchers = Held(), Held(), Held(), Held()
        self.consumed, self.has_service, self.has_ended = 0, False, False

    def line(self, words):
        """What a line prints."""
        name, values = parsed(words)
        if self.has_ended:
            raise BadLine("a line follows `end`")
        self.has_service |= name in SERVICE
        try:
            return getattr(self, "do_" + name)(*values)
        except Refused as why:
            return f"refused {why}\n"

    # The loose ring

    def do_write(self, type_id, body):
        self.ring.write(type_id, body)
        return "ok\n"

    def do_claim(self, type_id, length):
        record = self.ring.claim(type_id, length)
        return f"claim {self.claims.add(record)} index {self.ring.index(record)}\n"

    def do_put(self, number, offset, data):
        self.ring.put(self.claims.get(number), offset, data)
        return "ok\n"

    def do_commit(self, number):
        self.claims.take(number).state = COMMITTED
        return "ok\n"

    def do_abort(self, number):
        self.claims.take(number).state = ABORTED
        return "ok\n"

    def read_end(self, shown, consumed, moved, stop):
        self.consumed += consumed
        lines = [f"message {record.type_id} {hex_of(record.body)}\n" for record in shown]
        return "".join(lines) + f"read {consumed} bytes {moved} stopped {stop}\n"

    def do_read(self, limit):
        return self.read_end(*self.ring.read(limit))

    def do_control(self, limit, letters):
        answers = iter(letters)
        return self.read_end(*self.ring.read(limit, lambda record: next(answers, "n")))

    def do_positions(self):
        return f"head {self.ring.head} tail {self.ring.tail}\n"

    def do_correlation(self):
        return f"correlation {self.ring.next_correlation_id()}\n"

    def do_beat(self, moment):
        self.ring.heartbeat = moment
        return "ok\n"

    def do_heartbeat(self):
        return f"heartbeat {self.ring.heartbeat}\n"

    # The loose broadcast buffer

    def do_transmit(self, type_id, body):
        self.board.transmit(type_id, body)
        return "ok\n"

    def do_subscribe(self):
        return f"receiver {self.receivers.add_share(Receiver(self.board))}\n"

    @staticmethod
    def received(receiver):
        got = receiver.receive()
        if got is None:
            return "none\n"
        if isinstance(got, int):
            return f"lapped {got}\n"
        return f"copy {got[0]} {hex_of(got[1])} place {got[2]}\n"

    def do_receive(self, number):
        return self.received(self.receivers.get(number))

    def do_leave(self, number):
        self.receivers.take(number)
        return "ok\n"

    # The conductor

    def do_send(self, type_id, body):
        self.conductor.ring.write(type_id, body)
        return "ok\n"

    def send(self, type_id, body_of):
        correlation = self.conductor.ring.next_correlation_id()
        self.conductor.ring.write(type_id, body_of(correlation))
        return f"sent {correlation}\n"

    def do_allocate(self, type_id, key, label):
        if 20 + len(key) + len(label) > MAX_COMMAND:
            raise BadLine("the command has more than 4096 bytes")
        return self.send(protocol.ALLOCATE, lambda correlation: protocol.allocate(correlation, type_id, key, label))

    def do_own(self, owner, type_id, key, label):
        if 28 + len(key) + len(label) > MAX_COMMAND:
            raise BadLine("the command has more than 4096 bytes")
        return self.send(protocol.ALLOCATE_OWNED, lambda it: protocol.allocate(it, type_id, key, label, owner))

    def do_free(self, number):
        return self.send(protocol.FREE, lambda correlation: struct.pack("<QI", correlation, number))

    def do_set(self, number, value):
        return self.send(protocol.SET, lambda correlation: struct.pack("<QIq", correlation, number, value))

    def do_close(self, owner):
        return self.send(protocol.CLOSE, lambda correlation: struct.pack("<QQ", correlation, owner))

    def do_work(self, now, limit):
        taken, stop = self.conductor.work(now, limit)
        return f"work {taken} stopped {stop}\n"

    def do_listen(self):
        return f"listener {self.listeners.add_share(Receiver(self.conductor.board))}\n"

    def do_hear(self, number):
        return self.received(self.listeners.get(number))

    def do_counters(self):
        live = self.conductor.counters.live()
        lines = [f"counter {number} type {it.type_id} value {self.conductor.counters.values[number]} "
                 f"registration {it.registration} label {hex_of(it.label)}\n" for number, it in live]
        return "".join(lines) + f"counters {len(live)}\n"

    def do_owner(self, number):
        return f"owner {self.conductor.counters.used(number).owner}\n"

    def do_watch(self):
        return f"watcher {self.watchers.add_share(None)}\n"

    def do_peek(self, number, counter):
        self.watchers.get(number)
        return f"value {self.conductor.counters.value(counter)}\n"

    def do_unwatch(self, number):
        self.watchers.take(number)
        return "ok\n"

    def do_storm(self, clients, commands):
        if not (1 <= clients <= 64 and 1 <= commands <= 10000 and is_capacity(self.options["commands"], 256)):
            raise Refused("26 BadPlan")
        every = clients * commands
        return f"storm received {every} left 0 seen {every} live {clients} sum {every if commands > 1 else 0}\n"

    def do_end(self):
        self.has_ended = True
        for record in self.ring.records:
            record.state = ABORTED if record.state == OPEN else record.state
        lines = f"end messages {self.consumed} left {self.ring.left()}\n"
        if self.has_service:
            lines += (f"finished received {self.conductor.received} left {self.conductor.ring.left()} "
                      f"live {len(self.conductor.counters.live())}\n")
        return lines


def refused_option(options):
    """The fault of the first option that is out of range, or None."""
    for name, least in (("ring", 128), ("board", 256), ("commands", 128), ("replies", 256)):
        if not is_capacity(options[name], least):
            return "1 BadCapacity"
    return None if 1 <= options["counters"] <= 4096 else "15 BadCount"


def run(data, **changed):
    """The status, standard output and standard error of ring_run for an input."""
    options = dict(DEFAULTS, **changed)
    fault = refused_option(options) or (len(data) > MAX_INPUT and "input too long")
    if fault:
        return 1, "", f"fault: {fault}\n"
    held, out = Run(options), []
    lines = data.split(b"\n")
    if lines[-1] == b"":
        lines.pop()
    for number, line in enumerate(lines, 1):
        words = [word for word in line.split(b" ") if word]
        if not words or words[0].startswith(b"#"):
            continue
        try:
            out.append(held.line(words))
        except BadLine as bad:
            is_carriage_return = isinstance(bad, BadWords) and line.endswith(b"\r")
            why = "the line ends in a carriage return" if is_carriage_return else bad
            return 1, "".join(out), f"fault: 25 BadLine {number}\nreason: {why}\n"
    if not held.has_ended:
        return 1, "".join(out), f"fault: 25 BadLine {len(lines) + 1}\nreason: the scenario has no `end`\n"
    return 0, "".join(out), ""
