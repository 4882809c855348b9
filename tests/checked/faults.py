"""Faults of a queue, planted in a run that is right: each function takes the lines of a run and a generator, and
returns the lines with the fault and the number of the line that is wrong then, or None if the run has no place for it.
"""


def places(lines, word):
    return [place for place, line in enumerate(lines) if line.split()[:1] == [word]]


def words_at(lines, place):
    return lines[place].split()


def shown(lines):
    return places(lines, "got")


def same_producer(lines):
    """Returns the places of each two messages of one producer that were shown with no other of it between them."""
    last, pairs = {}, []
    for place in shown(lines):
        producer = words_at(lines, place)[1]
        if producer in last:
            pairs.append((last[producer], place))
        last[producer] = place
    return pairs


def with_word(lines, place, index, word):
    words = words_at(lines, place)
    words[index] = word
    return [*lines[:place], " ".join(words), *lines[place + 1:]]


def lost(lines, generator):
    """A message is not shown, and a later one of its producer is."""
    pairs = same_producer(lines)
    if not pairs:
        return None
    first, second = generator.choice(pairs)
    return [*lines[:first], *lines[first + 1:]], second


def lost_at_the_end(lines, generator):
    """The last message is not shown, and the consumer finds the queue empty."""
    if not places(lines, "empty") or not shown(lines):
        return None
    place = shown(lines)[-1]
    rest = [*lines[:place], *lines[place + 1:]]
    return rest, places(rest, "empty")[0] + 1


def doubled(lines, generator):
    """A message is shown twice."""
    if not shown(lines):
        return None
    place = generator.choice(shown(lines))
    return [*lines[:place + 1], lines[place], *lines[place + 1:]], place + 2


def doubled_later(lines, generator):
    """The first message is shown again after all others."""
    if not shown(lines):
        return None
    last = shown(lines)[-1]
    return [*lines[:last + 1], lines[shown(lines)[0]], *lines[last + 1:]], last + 2


def swapped(lines, generator):
    """Two messages of one producer are shown in the other order."""
    pairs = same_producer(lines)
    if not pairs:
        return None
    first, second = generator.choice(pairs)
    changed = list(lines)
    changed[first], changed[second] = lines[second], lines[first]
    return changed, first + 1


def torn(lines, generator):
    """A message is shown with other bytes."""
    if not shown(lines):
        return None
    place = generator.choice(shown(lines))
    return with_word(lines, place, 3, str((int(words_at(lines, place)[3]) + 1) % 2**64)), place + 1


def torn_of_another(lines, generator):
    """A message is shown with the bytes of the next one."""
    pairs = [it for it in same_producer(lines) if words_at(lines, it[0])[3] != words_at(lines, it[1])[3]]
    if not pairs:
        return None
    first, second = generator.choice(pairs)
    return with_word(lines, first, 3, words_at(lines, second)[3]), first + 1


def of_another_producer(lines, generator):
    """A message is shown with the name of another producer."""
    for place in shown(lines):
        words = words_at(lines, place)
        names = {words_at(lines, it)[1] for it in shown(lines)} - {words[1]}
        for name in sorted(names):
            if f"sent {name} {words[2]} {words[3]}" not in lines:
                return with_word(lines, place, 1, name), place + 1
    return None


def invented(lines, generator):
    """A message is shown that no producer sent."""
    if not shown(lines):
        return None
    place = generator.choice(shown(lines))
    return [*lines[:place], f"got 65535 0 {generator.randrange(2**64)}", *lines[place:]], place + 1


def refused_shown(lines, generator):
    """A message is shown whose call was refused."""
    for place in shown(lines):
        sent = lines[place].replace("got", "sent", 1)
        if sent in lines:
            at = lines.index(sent)
            changed = [*lines[:at], sent.replace("sent", "refused", 1), *lines[at + 1:]]
            return changed, place + 1
    return None


def number_changed(lines, generator):
    """A message is shown with another number."""
    if not shown(lines):
        return None
    place = generator.choice(shown(lines))
    return with_word(lines, place, 2, str(int(words_at(lines, place)[2]) + 10**9)), place + 1


def empty_too_early(lines, generator):
    """The consumer finds nothing, although a message is left."""
    if not shown(lines):
        return None
    place = generator.choice(shown(lines))
    return [*lines[:place], "empty", *lines[place:]], place + 1


def shown_after_the_end(lines, generator):
    """A message is shown after the consumer had found nothing, and again."""
    if not places(lines, "empty") or not shown(lines):
        return None
    place = places(lines, "empty")[-1]
    return [*lines[:place + 1], lines[shown(lines)[-1]], *lines[place + 1:]], place + 2


def sent_twice_shown_once(lines, generator):
    """A producer's call put its message in twice: the log has it twice, and it is shown once."""
    if not places(lines, "empty") or not shown(lines):
        return None
    sent = lines[shown(lines)[-1]].replace("got", "sent", 1)
    if sent not in lines:
        return None
    at = lines.index(sent)
    changed = [*lines[:at], sent, *lines[at:]]
    return changed, places(changed, "empty")[0] + 1


def overtaken(lines, generator):
    """The last message of a producer is shown before all its others."""
    pairs = same_producer(lines)
    if not pairs:
        return None
    producer = words_at(lines, pairs[0][0])[1]
    its = [place for place in shown(lines) if words_at(lines, place)[1] == producer]
    changed = list(lines)
    moved = changed.pop(its[-1])
    changed.insert(its[0], moved)
    return changed, its[0] + 1


def cut_off(lines, generator):
    """The consumer is shown only the first half of the messages, and finds nothing then."""
    if not places(lines, "empty") or len(shown(lines)) < 2:
        return None
    left_out = set(shown(lines)[len(shown(lines)) // 2:])
    rest = [line for place, line in enumerate(lines) if place not in left_out]
    return rest, places(rest, "empty")[0] + 1


def stuck(lines, generator):
    """The consumer is shown one message again and again."""
    if len(shown(lines)) < 2:
        return None
    place, changed = shown(lines)[0], list(lines)
    for other in shown(lines)[1:]:
        changed[other] = lines[place]
    return changed, shown(lines)[1] + 1


def reversed_order(lines, generator):
    """The consumer is shown everything from the last to the first."""
    pairs = same_producer(lines)
    if not pairs:
        return None
    its, changed = shown(lines), list(lines)
    for place, other in zip(its, reversed(its)):
        changed[place] = lines[other]
    taken = {}
    for place in its:
        producer = words_at(changed, place)[1]
        wanted = [words_at(lines, it) for it in its if words_at(lines, it)[1] == producer][taken.get(producer, 0)]
        if words_at(changed, place) != wanted:
            return changed, place + 1
        taken[producer] = taken.get(producer, 0) + 1
    return None


def call_lost(lines, generator):
    """A producer's log lacks a call whose message was shown."""
    for place in shown(lines):
        sent = lines[place].replace("got", "sent", 1)
        if sent in lines:
            at = lines.index(sent)
            return [*lines[:at], *lines[at + 1:]], place
    return None


def other_bytes_sent(lines, generator):
    """The producer noted other bytes than those that were shown."""
    for place in shown(lines):
        sent = lines[place].replace("got", "sent", 1)
        if sent in lines:
            at = lines.index(sent)
            return with_word(lines, at, 3, str((int(words_at(lines, at)[3]) + 1) % 2**64)), place + 1
    return None


ALL = {it.__name__: it for it in (
    lost, lost_at_the_end, doubled, doubled_later, swapped, torn, torn_of_another, of_another_producer, invented,
    refused_shown, number_changed, empty_too_early, shown_after_the_end, sent_twice_shown_once, overtaken, cut_off,
    stuck, reversed_order, call_lost, other_bytes_sent)}
