"""What a run of a ring is, by a search through every order of its calls. It shares nothing with the judge.

A run is explained if the threads can have made their calls one after another, in some order, on a ring: each claim had
room when it was made, each refusal was right when it was made, and the consumer passed what it was shown, aborted
claims and padding, and never an open claim. The consumer may read more than it noted, after the last of its lines. The
words are those of the ring when all producers have returned, if the head is still where the lines before noted it last.
"""

# The runs that a test of faults begins with: some faults need an open claim, and words.
RUNS = 20
HEADER = 8
CONSUMER = ("got", "head", "positions", "empty", "word", "rest")
CLAIMS = ("committed", "aborted", "open")
BIGGEST = 2**62


def span(length):
    return (HEADER + length + 7) // 8 * 8


def next_place(capacity, tail, length):
    """The place of the next claim of this length after a tail."""
    room = capacity - tail % capacity
    return tail if span(length) <= room else tail + room


def header(length, type_id):
    """The header word with this length and type id, which are numbers of 32 bits with a sign."""
    return (type_id % 2**32) << 32 | length % 2**32


def headers(head, claims):
    """Returns the header words of these claims, which come after the head, and of the padding between them, by their
    positions, and the positions of the words of bodies."""
    words, bodies, end = {}, set(), head
    for place, after, fate, type_id, length, _ in claims:
        if end < place:
            words[end] = header(place - end, -1)
        words[place] = {"open": header(-(HEADER + length), type_id), "committed": header(HEADER + length, type_id),
                        "aborted": header(HEADER + length, -1)}[fate]
        bodies |= set(range(place + 8, after, 8))
        end = after
    return words, bodies


def read(text):
    """Returns the capacity, the start, and the words of each line that says something, with its number."""
    shape, lines = None, []
    for number, line in enumerate(text.splitlines(), 1):
        words = line.split()
        if not words or words[0].startswith("#"):
            continue
        if shape is None:
            shape = int(words[1]), int(words[2]) if len(words) > 2 else 0
        else:
            lines.append((number, words))
    return *shape, lines


def next_claim(log):
    """Returns the index of the first claim of a log, and its place, or None if there is none."""
    return next(((at, int(words[2])) for at, (_, words) in enumerate(log) if words[0] in CLAIMS), None)


def in_order(lines):
    """Returns the lines in the order in which a first wrong one is looked for: claims by their places, each refusal
    before the next claim of its producer, the refusals after the last claims by their producers, and then the
    consumer's lines."""
    logs, order = {}, []
    for it in lines:
        producer = -1 if it[1][0] in CONSUMER else int(it[1][1])
        logs.setdefault(producer, []).append(it)
    consumer = logs.pop(-1, [])
    while any(next_claim(log) for log in logs.values()):
        producer = min((next_claim(log)[1], it) for it, log in logs.items() if next_claim(log))[1]
        end = next_claim(logs[producer])[0] + 1
        order += logs[producer][:end]
        del logs[producer][:end]
    return [*order, *(it for producer in sorted(logs) for it in logs[producer]), *consumer]


class Search:
    """A search for an order of the calls that these lines note."""

    def __init__(self, capacity, start, lines):
        self.capacity, self.start = capacity, start
        logs = {}
        for _, words in lines:
            logs.setdefault("consumer" if words[0] in CONSUMER else words[1], []).append(words)
        self.consumer = logs.pop("consumer", [])
        self.logs = list(logs.values())
        self.seen = set()

    def finds(self):
        return self.can(tuple(0 for _ in self.logs), 0, [], 0, self.start, self.start)

    def can(self, done, noted, claims, passed, head, read):
        """Tests whether the lines that are left can be. `done` has the number of lines of each producer before them,
        and `noted` is that of the consumer. `claims` were made, and the consumer passed `passed` of them. `read` is the
        head that was noted last, or the position up to which words were read after that."""
        if all(count == len(log) for count, log in zip(done, self.logs)) and noted == len(self.consumer):
            return True
        state = done, noted, tuple(claims), passed, head, read
        if state in self.seen:
            return False
        self.seen.add(state)
        tail = claims[-1][1] if claims else self.start
        for place, log in enumerate(self.logs):
            if done[place] < len(log):
                after = (*done[:place], done[place] + 1, *done[place + 1:])
                made = self.made(log[done[place]], tail, head)
                if made is not None and self.can(after, noted, claims + made, passed, head, read):
                    return True
        return self.consumed(done, noted, claims, passed, head, read)

    def made(self, words, tail, head):
        """Returns the claims that a producer's line makes, or None if the line cannot be now."""
        length = int(words[-1] if words[0] == "full" else words[4])
        place = next_place(self.capacity, tail, length)
        end = place + span(length)
        fits = end <= head + self.capacity
        if length > self.capacity // 8:
            return None
        if words[0] == "full":
            return None if fits else []
        if int(words[2]) != place or not fits or not 1 <= int(words[3]) < 2**31 or end > BIGGEST:
            return None
        body = int(words[5]) if len(words) > 5 else 0
        return [(place, end, words[0], int(words[3]), length, body)]

    def consumed(self, done, noted, claims, passed, head, read):
        """Tests whether the lines that are left can be if the consumer does something now."""
        left = claims[passed:]
        if noted < len(self.consumer) and self.consumer[noted][0] in ("word", "rest"):
            return self.read_words(done, noted, claims, passed, head, read)
        if left and head < left[0][0] and self.can(done, noted, claims, passed, left[0][0], read):
            return True
        if left and left[0][2] == "aborted" and self.can(done, noted, claims, passed + 1, left[0][1], read):
            return True
        if noted == len(self.consumer):
            is_message = bool(left) and left[0][2] == "committed"
            return is_message and self.can(done, noted, claims, passed + 1, left[0][1], read)
        words = self.consumer[noted]
        if words[0] == "got":
            body = int(words[4]) if len(words) > 4 else 0
            if not left or left[0][2:] != ("committed", int(words[2]), int(words[3]), body):
                return False
            if words[1] not in ("-", str(left[0][0])):
                return False
            return self.can(done, noted + 1, claims, passed + 1, left[0][1], left[0][1])
        are_done = all(count == len(log) for count, log in zip(done, self.logs))
        tail = claims[-1][1] if claims else self.start
        settled = [it for it in left if it[2] != "aborted"]
        if words[0] == "head":
            is_right = int(words[1]) == head
        elif words[0] == "positions":
            is_right = are_done and int(words[1]) == head and int(words[2]) == tail
        else:
            is_right = are_done and (not settled or settled[0][2] == "open")
        return is_right and self.can(done, noted + 1, claims, passed, head, read if words[0] == "empty" else head)


    def noted_head(self, noted, claims):
        """Returns the head that the consumer's lines before this one noted last."""
        shown = 0
        head = self.start
        for words in self.consumer[:noted]:
            if words[0] in ("head", "positions"):
                head = int(words[1])
            elif words[0] == "got":
                head = [it for it in claims if it[2] == "committed"][shown][1]
                shown += 1
        return head

    def read_words(self, done, noted, claims, passed, head, read):
        """Tests whether the lines that are left can be if the next one notes a word, or that the other words are 0. The
        head is where it was noted last: after it, no claim and no padding was passed."""
        noted_head = self.noted_head(noted, claims)
        if noted_head != head or any(count < len(log) for count, log in zip(done, self.logs)):
            return False
        words, end = self.consumer[noted], head + self.capacity
        at = int(words[1]) if words[0] == "word" else end
        known, bodies = headers(head, claims[passed:])
        tail = claims[-1][1] if claims else self.start
        if tail > end or at > end or at < read or any(read <= place < at for place in known):
            return False
        if words[0] == "word":
            if at == end or at % 8 or at not in bodies and int(words[2]) != known.get(at, 0):
                return False
            at += 8
        return self.can(done, noted + 1, claims, passed, head, at)


def first_unexplained(text):
    """Returns the number of the first line that no order explains, or None if one explains all."""
    capacity, start, lines = read(text)
    lines = in_order(lines)
    for count in range(1, len(lines) + 1):
        if not Search(capacity, start, lines[:count]).finds():
            return lines[count - 1][0]
    return None


class Ring:
    """A ring that one thread plays. `lines` has the log of each producer, and that of the consumer under None."""

    def __init__(self, generator, producers, capacity, start):
        self.generator, self.capacity, self.start = generator, capacity, start
        self.head = self.tail = start
        self.claims, self.passed = [], 0
        self.lines = {name: [] for name in [*range(producers), None]}

    def claim(self, producer, is_last=False):
        length = self.generator.choice([0, 1, 8, self.capacity // 16, self.capacity // 8,
                                        self.generator.randrange(self.capacity // 8 + 1)])
        type_id, body = self.generator.choice([1, 7, 2**31 - 1]), self.generator.randrange(2**64)
        place = next_place(self.capacity, self.tail, length)
        if place + span(length) > self.head + self.capacity:
            self.lines[producer].append(f"full {producer} {length}")
            return
        fate = "open" if is_last else self.generator.choice(["committed", "committed", "committed", "aborted"])
        self.claims.append((place, place + span(length), fate, type_id, length, body))
        self.tail = place + span(length)
        self.lines[producer].append(f"{fate} {producer} {place} {type_id} {length}" +
                                    (f" {body}" if fate == "committed" else ""))

    def read_one(self):
        """Passes the next claim, and notes what the consumer sees. Returns False at an open claim, and at the end."""
        if self.passed == len(self.claims) or self.claims[self.passed][2] == "open":
            return False
        place, end, fate, type_id, length, body = self.claims[self.passed]
        self.passed, self.head = self.passed + 1, end
        if fate == "committed":
            noted = place if self.generator.random() < 0.9 else "-"
            self.lines[None].append(f"got {noted} {type_id} {length} {body}")
        if self.generator.random() < 0.2:
            self.lines[None].append(f"head {self.head}")
        return True

    def words(self):
        """Notes the words of the buffer. A body has any words, or none if it is elsewhere."""
        known, bodies = headers(self.head, self.claims[self.passed:])
        are_here = self.generator.random() < 0.7
        for place in range(self.head, self.head + self.capacity, 8):
            word = known.get(place, 0)
            if place in bodies and are_here and self.generator.random() < 0.8:
                word = self.generator.randrange(1, 2**64)
            if word or self.generator.random() < 0.02:
                self.lines[None].append(f"word {place} {word}")
        self.lines[None].append("rest")

    def text(self):
        logs = list(self.lines.values())
        self.generator.shuffle(logs)
        start = f" {self.start}" if self.start or self.generator.random() < 0.5 else ""
        return "\n".join([f"ring {self.capacity}{start}", *sum(logs, [])]) + "\n"


def until_open(claims):
    """Returns the claims before the first open one."""
    fates = [it[2] for it in claims]
    return claims[:fates.index("open")] if "open" in fates else claims


def right_run(generator, most=60):
    """Returns the text of a run that some order explains."""
    producers = generator.randint(1, 4)
    capacity = generator.choice([128, 128, 256, 1024])
    ring = Ring(generator, producers, capacity, generator.choice([0, 0, capacity, 5 * capacity + 8, 2**40]))
    for _ in range(generator.randint(3, most)):
        if generator.random() < 0.6:
            ring.claim(generator.randrange(producers))
        else:
            ring.read_one()
    if generator.random() < 0.5:
        ring.claim(generator.randrange(producers), True)
        ring.claim(generator.randrange(producers))
    if generator.random() < 0.8:
        while generator.random() < 0.95 and ring.read_one():
            pass
        if all(it[2] != "committed" for it in until_open(ring.claims[ring.passed:])):
            ring.lines[None].append("empty")
        ring.lines[None].append(f"positions {ring.head} {ring.tail}")
        if generator.random() < 0.8:
            ring.words()
    return ring.text()


def random_run(generator):
    """Returns the text of a small run that may be right or wrong."""
    first, *lines = right_run(generator, 9).splitlines()
    for _ in range(generator.randrange(3)):
        if not lines:
            break
        place = generator.randrange(len(lines))
        how = generator.randrange(6)
        if how == 0:
            del lines[place]
        elif how == 1:
            lines.insert(generator.randrange(len(lines) + 1), lines[place])
        elif how == 2:
            other = generator.randrange(len(lines))
            lines[place], lines[other] = lines[other], lines[place]
        elif how == 3:
            lines.insert(place, generator.choice(["", "# nothing", "empty", "full 0 8", "full 1 16", "head 0", "rest",
                                                   "word 0 0", "word 16 1"]))
        else:
            change(lines, place, generator)
    return "\n".join([first, *lines]) + "\n"


def change(lines, place, generator):
    """Changes one word of a line."""
    words = lines[place].split()
    if len(words) < 2 or words[0].startswith("#"):
        return
    at = generator.randrange(len(words))
    if at == 0 and words[0] in CLAIMS:
        words = [generator.choice(CLAIMS), *words[1:5]]
    elif at > 0 and words[at] != "-":
        word = max(0, int(words[at]) + generator.choice([-16, -8, -1, 1, 8, 16]))
        is_length = words[0] in CLAIMS and at == 4 or words[0] == "got" and at == 3 or words[0] == "full" and at == 2
        words[at] = str(min(word, 2**32 - 1) if is_length else min(word, 2**31 - 1) if at == 3 or at == 2
                        and words[0] == "got" else word)
    lines[place] = " ".join(words)
