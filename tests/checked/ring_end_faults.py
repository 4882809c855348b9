"""Faults of the positions and the words of a ring, planted in a run that is right, as those of ring_faults.py."""
from ring_lines import Run, some
from ring_search import header, headers


# ---- positions

def head_too_far(lines, generator):
    """The head passes a message before it is shown."""
    run = Run(lines)
    its = some(generator, run.got)
    return its and run.inserted(its[0], f"head {run.claim_of[its[0]][1]}")


def head_goes_back(lines, generator):
    """The head goes back to the beginning of a message that was shown."""
    run = Run(lines)
    its = some(generator, run.got)
    return its and run.inserted(its[0] + 1, f"head {run.claim_of[its[0]][0]}")


def head_inside_a_record(lines, generator):
    """The head is inside the record of a message."""
    run = Run(lines)
    its = some(generator, run.got)
    return its and run.inserted(its[0] + 1, f"head {run.claim_of[its[0]][1] + 4}")


def other_tail(lines, generator):
    """The tail is not at the end of the last claim."""
    run = Run(lines)
    its = [place for place, words in run.consumer if words[0] == "positions"]
    return (run.replaced(its[0], 2, int(lines[its[0]].split()[2]) + 8), its[0] + 1) if its else None


def other_head(lines, generator):
    """The head is after the last claim."""
    run = Run(lines)
    its = [place for place, words in run.consumer if words[0] == "positions"]
    return (run.replaced(its[0], 1, run.claims[-1][1] + 8), its[0] + 1) if its and run.claims else None


# ---- words

def ends_of(run):
    """The place of the line `rest`, the head, the claims that are left, and the places of words by their positions."""
    rest = [place for place, words in run.consumer if words[0] == "rest"]
    noted = [int(words[1]) for _, words in run.consumer if words[0] == "positions"]
    if not rest or not noted:
        return None
    left = [(place, end, words[0], int(words[3]), int(words[4]), 0)
            for place, end, _, words in run.claims if place >= noted[0]]
    return rest[0], noted[0], left, {int(words[1]): place for place, words in run.consumer if words[0] == "word"}


def not_cleared(lines, generator):
    """The head passed a word that was not cleared."""
    run = Run(lines)
    ends = ends_of(run)
    if ends is None:
        return None
    rest, head, left, _ = ends
    tail = left[-1][1] if left else head
    if tail == head + run.capacity:
        return None
    place = generator.randrange(tail, head + run.capacity, 8)
    lines = [line for line in lines if line.split()[:2] != ["word", str(place)]]
    after = [at for at, words in Run(lines).consumer
             if words[0] == "rest" or words[0] == "word" and int(words[1]) > place]
    return Run(lines).inserted(after[0], f"word {place} {generator.randrange(1, 2**64)}")


def header_lost(lines, generator):
    """The header of a claim or of padding is 0."""
    run = Run(lines)
    ends = ends_of(run)
    known = ends and headers(ends[1], ends[2])[0]
    place = some(generator, sorted(known)) if known else None
    if place is None:
        return None
    return run.removed(ends[3][place]), ends[3][place] + 1


def header_changed(lines, generator):
    """The header of a claim or of padding is another one."""
    run = Run(lines)
    ends = ends_of(run)
    known = ends and headers(ends[1], ends[2])[0]
    place = some(generator, sorted(known)) if known else None
    if place is None:
        return None
    return run.replaced(ends[3][place], 2, (known[place] + 1) % 2**64), ends[3][place] + 1


def open_header_settled(lines, generator):
    """The header of an open claim is that of a committed one."""
    run = Run(lines)
    ends = ends_of(run)
    its = some(generator, [it for it in ends[2] if it[2] == "open"] if ends else [])
    return its and (run.replaced(ends[3][its[0]], 2, header(8 + its[4], its[3])), ends[3][its[0]] + 1)


def word_twice(lines, generator):
    """A word is noted twice."""
    ends = ends_of(Run(lines))
    place = some(generator, sorted(ends[3].values())) if ends else None
    return place and Run(lines).inserted(place + 1, lines[place])


def word_after_the_buffer(lines, generator):
    """A word is noted that is a capacity after the head."""
    run = Run(lines)
    ends = ends_of(run)
    return ends and run.inserted(ends[0], f"word {ends[1] + run.capacity} 0")


def words_before_the_end(lines, generator):
    """The tail is more than a lap after the head when the words are noted."""
    run = Run(lines)
    over = [place for place, _ in run.got if run.claims[-1][1] > run.claim_of[place][0] + run.capacity]
    return run.inserted(over[0], "rest") if over and ends_of(run) is not None else None
