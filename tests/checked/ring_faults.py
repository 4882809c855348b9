"""Faults of a ring, planted in a run that is right: each function takes the lines of a run and a generator, and returns
the lines with the fault and the number of the line that is wrong then, or None if the run has no place for it.
"""
import ring_end_faults
from ring_lines import Run, some
from ring_search import next_place, span


# ---- claims

def overlapping(lines, generator):
    """A claim begins inside the one before it."""
    run = Run(lines)
    its = some(generator, [b for a, b in zip(run.claims, run.claims[1:]) if a[1] - a[0] > 8 and b[0] == a[1]])
    return its and (run.replaced(its[2], 2, its[0] - 8), its[2] + 1)


def with_a_gap(lines, generator):
    """The last claim begins eight bytes after the end of the one before it."""
    run = Run(lines)
    if len(run.claims) < 2 or run.claims[-1][0] != run.claims[-2][1]:
        return None
    return run.replaced(run.claims[-1][2], 2, run.claims[-1][0] + 8), run.claims[-1][2] + 1


def not_aligned(lines, generator):
    """A claim begins at a position that is no multiple of 8."""
    run = Run(lines)
    its = some(generator, run.claims)
    return its and (run.replaced(its[2], 2, its[0] + 4), its[2] + 1)


def claim_lost(lines, generator):
    """A producer's log lacks a claim."""
    run, choices = Run(lines), []
    for index, (place, _, at, words) in enumerate(run.claims[:-1]):
        after = run.claims[index + 1]
        wanted = next_place(run.capacity, run.tail_before(index), int(after[3][4]))
        is_clear = not run.follows_refusal(after[2]) and not run.follows_refusal(at)
        if wanted != after[0] and is_clear and index + 2 < len(run.claims):
            choices.append((at, after[2]))
    chosen = some(generator, choices)
    return chosen and (run.removed(chosen[0]), chosen[1] + (chosen[1] < chosen[0]))


def claimed_twice(lines, generator):
    """Two claims have the same place."""
    run = Run(lines)
    its = some(generator, run.claims)
    return its and run.inserted(its[2] + 1, lines[its[2]])


def across_the_end(lines, generator):
    """A claim crosses the end of the buffer, with no padding before it."""
    run = Run(lines)
    its = some(generator, [(a, b) for a, b in zip(run.claims, run.claims[1:]) if b[0] > a[1]])
    return its and (run.replaced(its[1][2], 2, its[0][1]), its[1][2] + 1)


def padded_although_it_fits(lines, generator):
    """The last claim begins with the next lap, although it fits before."""
    run = Run(lines)
    if not run.claims or run.claims[-1][0] % run.capacity == 0:
        return None
    place, _, at, _ = run.claims[-1]
    return run.replaced(at, 2, place + run.capacity - place % run.capacity), at + 1


def type_zero(lines, generator):
    """A claim has the type id 0."""
    run = Run(lines)
    its = some(generator, run.claims)
    return its and (run.replaced(its[2], 3, 0), its[2] + 1)


def too_long(lines, generator):
    """A claim is longer than an eighth of the capacity."""
    run = Run(lines)
    its = some(generator, run.claims)
    return its and (run.replaced(its[2], 4, run.capacity // 8 + 1), its[2] + 1)


def over_an_open_claim(lines, generator):
    """A claim takes room that an open claim has not given back."""
    run, choices = Run(lines), []
    first_open = next((it[0] for it in run.claims if it[3][0] == "open"), None)
    for place, _, at, words in run.claims:
        over = next((it[2] for it in run.claims if it[1] > place + run.capacity), None)
        if over is not None and (first_open is None or place < first_open):
            choices.append((at, words, over))
    chosen = some(generator, choices)
    if chosen is None:
        return None
    at, words, over = chosen
    return [*lines[:at], " ".join(["open", *words[1:5]]), *lines[at + 1:]], over + 1


# ---- refusals

def refused_at_the_beginning(lines, generator):
    """The first claim was refused once, although the ring had room for it."""
    run = Run(lines)
    if not run.claims or run.follows_refusal(run.claims[0][2]):
        return None
    _, _, at, words = run.claims[0]
    return run.inserted(at, f"full {words[1]} {words[4]}")


def refused_with_room(lines, generator):
    """A producer was refused between two of its claims that follow one another, although there was room."""
    run, choices = Run(lines), []
    for a, b in zip(run.claims, run.claims[1:]):
        heads = [run.start, *(head for it in run.claims for head in it[:2] if head <= a[1])]
        least = min(head for head in heads if head + run.capacity >= a[1])
        has_room = next_place(run.capacity, a[1], 0) + span(0) <= least + run.capacity
        if a[3][1] == b[3][1] and has_room and a[2] < b[2] and "open" not in (a[3][0], b[3][0]):
            choices.append(b)
    chosen = some(generator, choices)
    return chosen and run.inserted(chosen[2], f"full {chosen[3][1]} 0")


def refused_as_too_long(lines, generator):
    """A message that is too long for the ring was refused for lack of room."""
    run = Run(lines)
    its = some(generator, run.claims)
    return its and run.inserted(its[2] + 1, f"full {its[3][1]} {run.capacity // 8 + 1}")


# ---- messages that are shown

def lost(lines, generator):
    """A message is not shown, and the next one is."""
    run = Run(lines)
    pair = some(generator, run.neighbours())
    return pair and (run.removed(pair[0][0]), pair[1][0])


def lost_at_the_end(lines, generator):
    """The last message is not shown, and the consumer finds nothing."""
    run = Run(lines)
    pairs = [(a, b) for a, b in zip(run.consumer, run.consumer[1:]) if a[1][0] == "got" and b[1][0] == "empty"]
    return (run.removed(pairs[0][0][0]), pairs[0][1][0]) if pairs else None


def doubled(lines, generator):
    """A message is shown twice."""
    its = some(generator, Run(lines).known())
    return its and Run(lines).inserted(its[0] + 1, lines[its[0]])


def swapped(lines, generator):
    """Two messages are shown in the other order."""
    pair = some(generator, Run(lines).neighbours())
    if pair is None:
        return None
    (first, _), (second, _) = pair
    changed = list(lines)
    changed[first], changed[second] = lines[second], lines[first]
    return changed, first + 1


def torn(lines, generator):
    """A message is shown with other bytes."""
    its = some(generator, Run(lines).got)
    return its and (Run(lines).replaced(its[0], 4, (int(its[1][4]) + 1) % 2**64), its[0] + 1)


def of_another_type(lines, generator):
    """A message is shown with another type id."""
    its = some(generator, Run(lines).got)
    return its and (Run(lines).replaced(its[0], 2, int(its[1][2]) % (2**31 - 1) + 1), its[0] + 1)


def of_another_length(lines, generator):
    """A message is shown with another length."""
    its = some(generator, Run(lines).got)
    return its and (Run(lines).replaced(its[0], 3, int(its[1][3]) + 1), its[0] + 1)


def at_another_place(lines, generator):
    """A message is shown at another position."""
    its = some(generator, Run(lines).known())
    return its and (Run(lines).replaced(its[0], 1, int(its[1][1]) + 8), its[0] + 1)


def aborted_shown(lines, generator):
    """An aborted claim is shown."""
    run, choices = Run(lines), []
    for place, _, _, words in run.claims:
        after = next((at for at, _ in run.got if run.claim_of[at][0] > place), None)
        if words[0] == "aborted" and after is not None:
            choices.append((after, f"got {place} {words[3]} {words[4]} 0"))
    chosen = some(generator, choices)
    return chosen and run.inserted(*chosen)


def shown_and_aborted(lines, generator):
    """The claim of a message that was shown was aborted."""
    run = Run(lines)
    its = some(generator, run.known())
    if its is None:
        return None
    _, _, at, words = run.claim_of[its[0]]
    wrong = run.first_past(int(words[2]))
    wrong = its[0] if wrong is None else min(its[0], wrong)
    return [*lines[:at], " ".join(["aborted", *words[1:5]]), *lines[at + 1:]], wrong + 1


def committed_and_passed(lines, generator):
    """A committed claim is not shown, and the consumer goes on."""
    run, choices = Run(lines), []
    for place, _, at, words in run.claims:
        if words[0] == "open":
            break
        wrong = run.first_past(place)
        if words[0] == "aborted" and wrong is not None:
            choices.append((at, words, wrong))
    chosen = some(generator, choices)
    if chosen is None:
        return None
    at, words, wrong = chosen
    return [*lines[:at], " ".join(["committed", *words[1:5], "1"]), *lines[at + 1:]], wrong + 1


def past_an_open_claim(lines, generator):
    """The consumer is shown a message whose claim is open."""
    run = Run(lines)
    known = [it for it in run.known() if run.claims[-1][1] <= run.claim_of[it[0]][0] + run.capacity]
    its = some(generator, known)
    if its is None:
        return None
    _, _, at, words = run.claim_of[its[0]]
    return [*lines[:at], " ".join(["open", *words[1:5]]), *lines[at + 1:]], its[0] + 1


def padding_shown(lines, generator):
    """Padding is shown as a message."""
    run, choices = Run(lines), []
    for a, b in zip(run.claims, run.claims[1:]):
        after = next((at for at, _ in run.got if run.claim_of[at][0] >= b[0]), None)
        if b[0] > a[1] and after is not None:
            choices.append((after, f"got {a[1]} 1 {b[0] - a[1] - 8} 0"))
    chosen = some(generator, choices)
    return chosen and run.inserted(*chosen)


def empty_too_early(lines, generator):
    """The consumer finds nothing, although a message is left."""
    its = some(generator, Run(lines).got)
    return its and Run(lines).inserted(its[0], "empty")


def shown_after_the_end(lines, generator):
    """A message is shown after the consumer found nothing, and again."""
    run = Run(lines)
    places = [place for place, words in run.consumer if words[0] == "empty"]
    if not places or not run.known():
        return None
    return run.inserted(places[-1] + 1, lines[run.known()[-1][0]])


ALL = {it.__name__: it for it in (
    overlapping, with_a_gap, not_aligned, claim_lost, claimed_twice, across_the_end, padded_although_it_fits,
    type_zero, too_long, over_an_open_claim, refused_at_the_beginning, refused_with_room, refused_as_too_long, lost,
    lost_at_the_end, doubled, swapped, torn, of_another_type, of_another_length, at_another_place, aborted_shown,
    shown_and_aborted, committed_and_passed, past_an_open_claim, padding_shown, empty_too_early, shown_after_the_end,
    ring_end_faults.head_too_far, ring_end_faults.head_goes_back, ring_end_faults.head_inside_a_record,
    ring_end_faults.other_tail, ring_end_faults.other_head, ring_end_faults.not_cleared, ring_end_faults.header_lost,
    ring_end_faults.header_changed, ring_end_faults.open_header_settled, ring_end_faults.word_twice,
    ring_end_faults.word_after_the_buffer, ring_end_faults.words_before_the_end)}
