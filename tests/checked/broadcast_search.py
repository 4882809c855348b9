"""What a run of a broadcast buffer is, by a search through every message that each receiver can have next. It is
written from docs/CHECKING.md, and shares nothing with the judge."""


def read(text):
    """Returns the words of each line of a run after the first, with the number of the line."""
    lines = enumerate(text.splitlines(), 1)
    return [(number, line.split()) for number, line in lines
            if line and not line.startswith("#") and line != "broadcast"]


def body(words, place):
    return int(words[place]) if len(words) > place else 0


def can_note(bodies, following, laps, events):
    """Tests whether a receiver whose next message is `following`, and that was lapped `laps` times, can note these."""
    if not events:
        return True
    words, *rest = events
    if words[0] == "received":
        number = int(words[2])
        return (number == following and following < len(bodies) and bodies[following] == body(words, 3)
                and can_note(bodies, following + 1, laps, rest))
    if words[0] == "lapped":
        count = int(words[2])
        return count > laps and any(can_note(bodies, later, count, rest) for later in range(len(bodies) + 1)
                                    if later - following >= count - laps)
    return following == len(bodies) and can_note(bodies, following, laps, rest)


def first_unexplained(text):
    """Returns the number of the first line that nothing explains, or None if everything is explained."""
    lines = read(text)
    bodies = [body(words, 2) for _, words in lines if words[0] == "transmitted"]
    noted = {}
    for number, words in lines:
        if words[0] == "transmitted":
            continue
        events = noted.setdefault(int(words[1]), [])
        events.append(words)
        if not any(can_note(bodies, first, 0, events) for first in range(len(bodies) + 1)):
            return number
    return None


def right_run(generator, most=150):
    """Returns the text of a run that is explained: a broadcast buffer that one thread plays."""
    room = generator.randint(1, 4)
    bodies, sent, logs, following, laps = [], [], {}, {}, {}
    for _ in range(generator.randint(3, most)):
        receiver = generator.randrange(4)
        if generator.random() < 0.5:
            bodies.append(generator.randrange(2**64))
            sent.append(f"transmitted {len(bodies) - 1} {bodies[-1]}")
        elif receiver not in logs:
            logs[receiver], laps[receiver] = [], 0
            following[receiver] = generator.randint(max(0, len(bodies) - 1), len(bodies))
        elif following[receiver] < len(bodies) - room:
            laps[receiver] += 1
            following[receiver] = len(bodies) - 1
            logs[receiver].append(f"lapped {receiver} {laps[receiver]}")
        elif following[receiver] < len(bodies):
            number = following[receiver]
            logs[receiver].append(f"received {receiver} {number} {bodies[number]}")
            following[receiver] += 1
    for receiver, log in logs.items():
        is_drained = generator.random() < 0.7
        if is_drained and following[receiver] < len(bodies) - room:
            following[receiver] = len(bodies) - 1
            log.append(f"lapped {receiver} {laps[receiver] + 1}")
        if is_drained:
            log += [f"received {receiver} {number} {bodies[number]}"
                    for number in range(following[receiver], len(bodies))]
            log.append(f"empty {receiver}")
    return "\n".join(["broadcast", *sent, *sum(logs.values(), [])]) + "\n"


def random_run(generator):
    """Returns the text of a small run that may be right or wrong."""
    lines = right_run(generator, 22).splitlines()[1:]
    sent = [line for line in lines if line.startswith("t")]
    noted = [line for line in lines if not line.startswith("t")]
    for _ in range(generator.randrange(3)):
        if not noted:
            break
        place = generator.randrange(len(noted))
        how = generator.randrange(6)
        if how == 0:
            del noted[place]
        elif how == 1:
            noted.insert(generator.randrange(len(noted) + 1), noted[place])
        elif how == 2:
            other = generator.randrange(len(noted))
            noted[place], noted[other] = noted[other], noted[place]
        elif how == 3:
            receiver = generator.randrange(4)
            noted.insert(place, generator.choice(
                ["", "# nothing", f"empty {receiver}", f"lapped {receiver} {generator.randrange(4)}"]))
        elif how == 4 and sent:
            del sent[-1]
        elif noted[place].startswith(("r", "l", "e")):
            words = noted[place].split()
            words[generator.randrange(1, len(words))] = str(generator.randrange(5))
            noted[place] = " ".join(words)
    merged = []
    while sent and noted:
        merged.append((sent if generator.random() < 0.7 else noted).pop(0))
    return "\n".join(["broadcast", *merged, *sent, *noted]) + "\n"
