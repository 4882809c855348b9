"""Runs of the ring of ring-run, whose bodies are in words, as ring-check reads them."""
import subprocess
import zlib


class Said:
    """What ring-run printed after these calls: the claims with their places, and the lines of the consumer."""

    def __init__(self, capacity, calls, answers):
        self.capacity, self.claims, self.producer, self.consumer = capacity, [], [], []
        self.stopped, rest = "", iter(answers)
        for call in calls:
            self.note(call.split(), rest)

    def note(self, call, rest):
        answer = next(rest)
        if call[0] == "claim":
            self.note_claim(int(call[1]), int(call[2]), answer.split())
        elif call[0] == "put":
            number, offset, part = int(call[1]), int(call[2]), bytes.fromhex(call[3])
            self.claims[number - 1]["body"][offset:offset + len(part)] = part
        elif call[0] == "read":
            while answer.startswith("message"):
                _, type_id, text = answer.split()
                body = b"" if text == "-" else bytes.fromhex(text)
                self.consumer.append(f"got - {type_id} {len(body)} {zlib.crc32(body)}")
                answer = next(rest)
            self.stopped = answer.split()[-1]
        else:
            self.claims[int(call[1]) - 1]["fate"] = {"commit": "committed", "abort": "aborted"}[call[0]]

    def note_claim(self, type_id, length, answer):
        if answer[0] == "claim":
            tail = self.claims[-1]["end"] if self.claims else 0
            place = tail + (int(answer[3]) - 8 - tail) % self.capacity
            claim = {"place": place, "end": place + 8 + (length + 7) // 8 * 8, "type": type_id, "fate": "open",
                     "body": bytearray(length)}
            self.claims.append(claim)
            self.producer.append(claim)
        elif answer[2] == "InsufficientCapacity":
            self.producer.append(f"full 0 {length}")

    def open_claims(self):
        return [number for number, it in enumerate(self.claims, 1) if it["fate"] == "open"]

    def text(self):
        """Returns the text of the run. The last call has to be a read."""
        lines = [f"ring {self.capacity}"]
        for it in self.producer:
            if not isinstance(it, str):
                body = f" {zlib.crc32(it['body'])}" if it["fate"] == "committed" else ""
                it = f"{it['fate']} 0 {it['place']} {it['type']} {len(it['body'])}{body}"
            lines.append(it)
        empty = ["empty"] if self.stopped == "unpublished" else []
        return "\n".join([*lines, *self.consumer, *empty, ""])


def next_call(said, generator):
    kind = generator.choice(["claim"] * 5 + ["put"] * 3 + ["commit"] * 4 + ["abort", "read", "read"])
    if kind == "read":
        return f"read {generator.randint(1, 4)}"
    if kind == "claim" or not said.open_claims():
        return f"claim {generator.randint(1, 9)} {generator.randint(0, said.capacity // 8)}"
    number = generator.choice(said.open_claims())
    length = len(said.claims[number - 1]["body"])
    if kind == "put" and length:
        offset = generator.randrange(length)
        part = generator.randbytes(generator.randint(1, length - offset))
        return f"put {number} {offset} {part.hex()}"
    return f"{'abort' if kind == 'abort' else 'commit'} {number}"


def random_run(program, generator, most=60):
    """Makes calls on the ring of ring-run, each with what it printed so far in view, and returns the text of the run."""
    capacity, calls = generator.choice([128, 256, 1024]), []
    count = generator.randint(1, most)
    while True:
        scenario = "\n".join([*calls, "end", ""])
        done = subprocess.run([program, "--ring", str(capacity)], input=scenario, capture_output=True, text=True,
                              check=True)
        said = Said(capacity, calls, done.stdout.splitlines())
        if len(calls) >= count + 3:
            return said.text()
        calls.append(next_call(said, generator) if len(calls) < count else "read 1000")
