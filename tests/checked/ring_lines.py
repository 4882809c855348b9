"""What the lines of a run of a ring say, for those who plant faults in it."""
from ring_search import CLAIMS, CONSUMER, span


class Run:
    """What the lines of a run say. A claim is the place of its line, its producer, position, length and end."""

    def __init__(self, lines):
        self.lines = lines
        words = lines[0].split()
        self.capacity, self.start = int(words[1]), int(words[2]) if len(words) > 2 else 0
        self.claims = sorted((int(it[2]), int(it[2]) + span(int(it[4])), place, it) for place, it in self.words(CLAIMS))
        self.consumer = self.words(CONSUMER)
        self.got = [it for it in self.consumer if it[1][0] == "got"]
        shown = [it for it in self.claims if it[3][0] == "committed"]
        self.claim_of = dict(zip([place for place, _ in self.got], shown))

    def words(self, kinds):
        split = [(place, line.split()) for place, line in enumerate(self.lines)]
        return [it for it in split if it[1] and it[1][0] in kinds]

    def tail_before(self, index):
        return self.claims[index - 1][1] if index else self.start

    def follows_refusal(self, place):
        """Tests whether the line before this one in its producer's log is a refusal."""
        producer = self.lines[place].split()[1]
        before = [words[0] for at, words in self.words((*CLAIMS, "full")) if at < place and words[1] == producer]
        return before[-1:] == ["full"]

    def replaced(self, place, index, word):
        words = self.lines[place].split()
        words[index] = str(word)
        return [*self.lines[:place], " ".join(words), *self.lines[place + 1:]]

    def inserted(self, place, line):
        return [*self.lines[:place], line, *self.lines[place:]], place + 1

    def removed(self, place):
        return [*self.lines[:place], *self.lines[place + 1:]]

    def known(self):
        """The messages that were shown with their positions."""
        return [it for it in self.got if it[1][1] != "-"]

    def neighbours(self):
        """Each two messages that were shown with nothing noted between them."""
        return [(a, b) for a, b in zip(self.consumer, self.consumer[1:])
                if a[1][0] == b[1][0] == "got" and "-" not in (a[1][1], b[1][1])]

    def first_past(self, position):
        """The first line of the consumer that needs a head beyond this position, or an end of the messages."""
        for place, words in self.consumer:
            if words[0] == "got" and self.claim_of[place][0] > position:
                return place
            if words[0] in ("head", "positions") and int(words[1]) > position or words[0] == "empty":
                return place
        return None


def some(generator, choices):
    return generator.choice(choices) if choices else None
