"""What a run of a queue is, by a search through every order of its messages. It shares nothing with the judge."""


def read(text):
    """Returns the words of each line of a run after the first, with the number of the line."""
    lines = enumerate(text.splitlines(), 1)
    return [(number, line.split()) for number, line in lines if line and not line.startswith("#") and line != "queue"]


def message(words):
    return tuple(int(word) for word in words[1:3]) + (int(words[3]) if len(words) > 3 else 0,)


def orders(logs):
    """Yields every list that has the messages of each log in their order."""
    if not any(logs):
        yield []
        return
    for place, log in enumerate(logs):
        if log:
            rest = [*logs[:place], log[1:], *logs[place + 1:]]
            for order in orders(rest):
                yield [log[0], *order]


def explains(order, consumer):
    """Tests whether an order of the messages explains what the consumer recorded."""
    shown = 0
    for _, words in consumer:
        if words[0] == "empty":
            if shown != len(order):
                return False
        elif shown == len(order) or order[shown] != message(words):
            return False
        else:
            shown += 1
    return True


def first_unexplained(text):
    """Returns the number of the first line that no order explains, or None if one explains all."""
    lines = read(text)
    logs = {}
    for _, words in lines:
        if words[0] == "sent":
            logs.setdefault(int(words[1]), []).append(message(words))
    every = list(orders(list(logs.values())))
    consumer = [it for it in lines if it[1][0] in ("got", "empty")]
    for count in range(len(consumer) + 1):
        if not any(explains(order, consumer[:count]) for order in every):
            return consumer[count - 1][0]
    return None


def right_run(generator, most=40):
    """Returns the text of a run that some order explains: a queue that one thread plays."""
    producers = generator.randint(1, 4)
    logs, shown, queue, next_number = [[] for _ in range(producers)], [], [], [0] * producers
    for _ in range(generator.randint(3, most)):
        producer = generator.randrange(producers)
        body = generator.randrange(2**64)
        if generator.random() < 0.2:
            logs[producer].append(f"refused {producer} {next_number[producer]} {body}")
        elif generator.random() < 0.5:
            logs[producer].append(f"sent {producer} {next_number[producer]} {body}")
            queue.append(f"got {producer} {next_number[producer]} {body}")
            next_number[producer] += 1
        elif queue:
            shown.append(queue.pop(0))
    if generator.random() < 0.7:
        shown += [*queue, "empty"]
    return "\n".join(["queue", *sum(logs, []), *shown]) + "\n"


def random_run(generator):
    """Returns the text of a small run that may be right or wrong."""
    lines = right_run(generator, 14).splitlines()[1:]
    for _ in range(generator.randrange(3)):
        if not lines:
            break
        place = generator.randrange(len(lines))
        how = generator.randrange(5)
        if how == 0:
            del lines[place]
        elif how == 1:
            lines.insert(generator.randrange(len(lines) + 1), lines[place])
        elif how == 2:
            other = generator.randrange(len(lines))
            lines[place], lines[other] = lines[other], lines[place]
        elif how == 3:
            lines.insert(place, generator.choice(["", "# nothing", "empty"]))
        elif lines[place].startswith(("s", "r", "g")):
            words = lines[place].split()
            words[generator.randrange(1, 4)] = str(generator.randrange(3))
            lines[place] = " ".join(words)
    return "\n".join(["queue", *lines]) + "\n"
