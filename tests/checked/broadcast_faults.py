"""Faults of a broadcast buffer, planted in a run that is right: each function takes the lines of a run and a generator,
and returns the lines with the fault and the number of the line that is wrong then, or None if the run has no place for
it."""
import collections

# a line of a receiver: its place in the file, and its words
Noted = collections.namedtuple("Noted", "place words")


def logs_of(lines):
    """Returns what each receiver noted, by receiver."""
    logs = collections.defaultdict(list)
    for place, line in enumerate(lines):
        words = line.split()
        if words and words[0] in ("received", "lapped", "empty"):
            logs[words[1]].append(Noted(place, words))
    return logs


def chains(lines, *kinds):
    """Returns each few lines of these kinds that one receiver noted one after another."""
    found = []
    for log in logs_of(lines).values():
        for at in range(len(log) - len(kinds) + 1):
            part = log[at:at + len(kinds)]
            if all(it.words[0] in kind for it, kind in zip(part, kinds)):
                found.append(part)
    return found


GOT, LAP, END, ANY = ("received",), ("lapped",), ("empty",), ("received", "empty")


def transmitted(lines):
    return [place for place, line in enumerate(lines) if line.split()[:1] == ["transmitted"]]


def with_words(lines, place, words):
    return [*lines[:place], " ".join(words), *lines[place + 1:]]


def with_word(lines, it, index, word):
    return with_words(lines, it.place, [*it.words[:index], word, *it.words[index + 1:]])


def inserted(lines, place, line):
    return [*lines[:place], line, *lines[place:]]


def chosen(found, generator):
    return generator.choice(found) if found else None


def lost(lines, generator):
    """A receiver is not given a message, and its lapped count does not rise."""
    part = chosen(chains(lines, GOT, GOT, ANY), generator)
    return part and ([*lines[:part[1].place], *lines[part[1].place + 1:]], part[2].place)


def doubled(lines, generator):
    """A receiver is given a message twice."""
    part = chosen(chains(lines, GOT), generator)
    return part and (inserted(lines, part[0].place, lines[part[0].place]), part[0].place + 2)


def swapped(lines, generator):
    """A receiver is given two messages in the other order."""
    part = chosen(chains(lines, GOT, GOT, GOT), generator)
    if part is None:
        return None
    _, first, second = part
    changed = list(lines)
    changed[first.place], changed[second.place] = lines[second.place], lines[first.place]
    return changed, first.place + 1


def stuck(lines, generator):
    """A receiver is given one message in place of the next one."""
    part = chosen(chains(lines, GOT, GOT), generator)
    return part and (with_words(lines, part[1].place, part[0].words), part[1].place + 1)


def torn(lines, generator):
    """A copy has other bytes."""
    part = chosen(chains(lines, GOT), generator)
    return part and (with_word(lines, part[0], 3, str((int(part[0].words[3]) + 1) % 2**64)), part[0].place + 1)


def torn_of_another(lines, generator):
    """A copy has the bytes of the next message."""
    part = chosen([it for it in chains(lines, GOT, GOT) if it[0].words[3] != it[1].words[3]], generator)
    return part and (with_word(lines, part[0], 3, part[1].words[3]), part[0].place + 1)


def invented(lines, generator):
    """A receiver is given a message that was not transmitted."""
    part = chosen(chains(lines, GOT), generator)
    if part is None:
        return None
    words = ["received", part[0].words[1], str(len(transmitted(lines))), part[0].words[3]]
    return inserted(lines, part[0].place, " ".join(words)), part[0].place + 1


def number_changed(lines, generator):
    """A copy has another number."""
    part = chosen(chains(lines, GOT), generator)
    return part and (with_word(lines, part[0], 2, str(int(part[0].words[2]) + 10**9)), part[0].place + 1)


def skipped(lines, generator):
    """A receiver goes on with a later message, and its lapped count does not rise."""
    for first, second in chains(lines, GOT, GOT):
        later = int(second.words[2]) + 1
        if later < len(transmitted(lines)):
            line = lines[transmitted(lines)[later]].replace("transmitted", f"received {second.words[1]}")
            return inserted(lines, second.place, line), second.place + 1
    return None


def lap_not_counted(lines, generator):
    """A receiver misses messages, and its lapped count does not rise."""
    part = chosen(chains(lines, GOT, LAP, ANY), generator)
    return part and ([*lines[:part[1].place], *lines[part[1].place + 1:]], part[2].place)


def lap_without_a_miss(lines, generator):
    """The lapped count of a receiver rises, and it misses no message."""
    part = chosen(chains(lines, GOT, GOT), generator)
    if part is None:
        return None
    laps = [int(it.words[2]) for it in logs_of(lines)[part[0].words[1]]
            if it.words[0] == "lapped" and it.place < part[0].place]
    line = f"lapped {part[0].words[1]} {max(laps, default=0) + 1}"
    # at the end of what was transmitted no message is left to miss, but the lap itself fits up to there
    return inserted(lines, part[1].place, line), part[1].place + 2


def count_too_large(lines, generator):
    """The lapped count of a receiver rises by more than there are messages."""
    part = chosen(chains(lines, LAP), generator)
    return part and (with_word(lines, part[0], 2, str(10**9)), part[0].place + 1)


def count_stays(lines, generator):
    """A lap does not raise the lapped count."""
    part = chosen(chains(lines, LAP), generator)
    return part and (inserted(lines, part[0].place, lines[part[0].place]), part[0].place + 2)


def count_falls(lines, generator):
    """The lapped count of a receiver falls."""
    part = chosen(chains(lines, LAP), generator)
    return part and (with_word(lines, part[0], 2, str(int(part[0].words[2]) - 1)), part[0].place + 1)


def went_back(lines, generator):
    """After a lap a receiver is given the message that it was given last."""
    part = chosen(chains(lines, GOT, LAP), generator)
    return part and (inserted(lines, part[1].place + 1, lines[part[0].place]), part[1].place + 2)


def empty_too_early(lines, generator):
    """A receiver finds nothing, although a message is left."""
    part = chosen(chains(lines, GOT, GOT), generator)
    return part and (inserted(lines, part[1].place, f"empty {part[1].words[1]}"), part[1].place + 1)


def cut_off(lines, generator):
    """A receiver is not given the last message, and finds nothing."""
    part = chosen(chains(lines, GOT, GOT, END), generator)
    return part and ([*lines[:part[1].place], *lines[part[1].place + 1:]], part[2].place)


def received_after_the_end(lines, generator):
    """A receiver that had found nothing is given its last message again."""
    part = chosen(chains(lines, GOT, END), generator)
    return part and (inserted(lines, part[1].place + 1, lines[part[0].place]), part[1].place + 2)


def given_to_another(lines, generator):
    """A receiver that had found nothing is given a message of another receiver."""
    for end, copy in ((end, copy) for _, end in chains(lines, GOT, END) for copy, in chains(lines, GOT)):
        if end.place < copy.place and end.words[1] != copy.words[1]:
            return with_word(lines, copy, 1, end.words[1]), copy.place + 1
    return None


def call_lost(lines, generator):
    """The log of the transmitter lacks its last call, of a message that receivers were given."""
    if not transmitted(lines):
        return None
    last, number = transmitted(lines)[-1], str(len(transmitted(lines)) - 1)
    given = [it.place for it, in chains(lines, GOT) if it.words[2] == number]
    return ([*lines[:last], *lines[last + 1:]], min(given)) if given else None


def other_bytes_transmitted(lines, generator):
    """The transmitter noted other bytes than those that receivers were given."""
    part = chosen(chains(lines, GOT), generator)
    if part is None:
        return None
    number = part[0].words[2]
    place = transmitted(lines)[int(number)]
    words = lines[place].split()
    given = [it.place for it, in chains(lines, GOT) if it.words[2] == number]
    return with_words(lines, place, [*words[:2], str((int(words[2]) + 1) % 2**64)]), min(given) + 1


ALL = {it.__name__: it for it in (
    lost, doubled, swapped, stuck, torn, torn_of_another, invented, number_changed, skipped, lap_not_counted,
    lap_without_a_miss, count_too_large, count_stays, count_falls, went_back, empty_too_early, cut_off,
    received_after_the_end, given_to_another, call_lost, other_bytes_transmitted)}
