"""Which figures the page, its pictures and README show."""
import points

# A row names its ring and the form of it: no name has two figures in one document.
RINGS = (("one owner, bodies in words", "ours-solo"), ("plain one-to-one", "plain-o2o"),
         ("plain many-to-one", "plain-m2o"), ("one-to-one, bodies in words", "ours-o2o"),
         ("many-to-one, bodies in words", "ours-m2o"))
SIZES = (8, 32, 128, 1024)
COMMAND = points.COMMAND


# The same plain rings, into which 16 messages are written by one call of `write_batch`.
BATCH_RINGS = (("plain one-to-one", "plain-o2o-batch"), ("plain many-to-one", "plain-m2o-batch"))


def twin_of(contender):
    """The first part of the name of the twin that a contender of ours is compared with."""
    kind = contender.split("-")[1]
    return "o2o" if kind == "solo" else kind


def of_sizes(rings, workload, sizes):
    return [(f"{name}, {size:,} bytes", workload, ours, size, 1, "ns") for name, ours in rings for size in sizes]


# Title, and for each row: label, workload, contender, bytes, threads, metric. Rows without a figure are left out.
SECTIONS = (
    ("One thread, batches of 16 written and read: ns a message", of_sizes(RINGS, "batches", SIZES)),
    ("The same with bodies of which every other word is 0: ns a message", of_sizes(RINGS, "sparse", SIZES[1:])),
    ("One producer thread, one consumer thread: ns a message", of_sizes(RINGS[1:], "pair", SIZES)),
    ("Several producers, one consumer: ns a message",
     [(f"{name}, {threads} producers, {size} bytes", "producers", ours, size, threads, "ns")
      for name, ours in (RINGS[2], RINGS[4]) for threads in (2, 4) for size in (8, 64)]),
    ("One thread, batches of 16, each written by one call: ns a message", of_sizes(BATCH_RINGS, "batches", SIZES)),
    ("One producer thread in batches of 16, one consumer thread: ns a message", of_sizes(BATCH_RINGS, "pair", SIZES)),
    ("Several producers in batches of 16, one consumer: ns a message",
     [(f"{BATCH_RINGS[1][0]}, {threads} producers, {size} bytes", "producers", BATCH_RINGS[1][1], size, threads, "ns")
      for threads in (2, 4) for size in (8, 64)]),
    ("A command to the conductor and its reply back: ns",
     [(f"{name}, {said}", "trips", ours, COMMAND, 1, metric) for name, ours in RINGS[1:]
      for said, metric in (("mean", "mean"), *((f"p{part:g}", metric) for metric, part in points.PERCENTILES))]),
    ("One transmitter, two receivers: ns a transmission",
     [(f"broadcast buffer, {size:,} bytes", "broadcast", "ours-board", size, 2, "ns") for size in (64, 1024)]),
    ("Counters: ns",
     [(said, "counters", "ours-counters", 8, 2, metric) for said, metric in (
         ("allocate and free", "alloc_free"), ("get", "get"), ("set", "set"),
         ("set while two threads read the value", "set_watched"))]),
    ("Storms: ns a command",
     [(f"{n} client{'' if n == 1 else 's'}{said}", "storm", "ours-storm", COMMAND, n, metric)
      for said, metric in (("", "ns"), (", whole call", "whole")) for n in (1, 2, 4, 16, 64)]),
)

# The rings whose bodies are in plain memory, by length: against acquire and release, and against the same orders in C.
FORM_ROWS = tuple((f"plain {said}, {threads}: times `{twin}`", workload, ours, f"{twin_of(ours)}-{twin}", SIZES)
                  for threads, workload in (("one thread", "batches"), ("two threads", "pair"))
                  for twin in ("ar", "pb")
                  for said, ours in (("one-to-one", "plain-o2o"), ("many-to-one", "plain-m2o")))

# Batches of plain rings that one call writes: label, workload, ours, bytes, threads. Each is compared with `ar`, which
# writes the same messages one by one, and with `pb` and `ta`, which publish them together too.
BATCH_ROWS = (
    *((f"{name.removeprefix('plain ')}, {said}, {size:,} bytes", workload, ours, size, 1)
      for name, ours in BATCH_RINGS for said, workload in (("one thread", "batches"), ("two threads", "pair"))
      for size in (8, 128)),
    *((f"many-to-one, 4 producers, {size} bytes", "producers", "plain-m2o-batch", size, 4) for size in (8, 64)),
)

# What has its bodies in words, against the same orders in C: by length, and then all others.
LENGTH_ROWS = (
    ("one owner, one thread", "batches", "ours-solo", SIZES),
    ("one-to-one, one thread", "batches", "ours-o2o", SIZES),
    ("many-to-one, one thread", "batches", "ours-m2o", SIZES),
    ("one-to-one, two threads", "pair", "ours-o2o", SIZES),
    ("many-to-one, two threads", "pair", "ours-m2o", SIZES),
)
OTHER_ROWS = (
    *((f"many-to-one, 4 producers, {size:,} bytes", "producers", "ours-m2o", size, 4, "ns") for size in (8, 64)),
    *((f"many-to-one, command and reply, {said}", "trips", "ours-m2o", COMMAND, 1, metric)
      for said, metric in (("p50", "p50"), ("p99.9", "p999"))),
    ("counter: allocate and free", "counters", "ours-counters", 8, 2, "alloc_free"),
    ("counter: get", "counters", "ours-counters", 8, 2, "get"),
    ("counter: set", "counters", "ours-counters", 8, 2, "set"),
    ("counter: set while two threads read the value", "counters", "ours-counters", 8, 2, "set_watched"),
    *((f"storm of {n} client{'' if n == 1 else 's'}", "storm", "ours-storm", COMMAND, n, "ns") for n in (1, 4, 16, 64)),
)

# What users would pick: a column for each, by the names that a row gives.
USER_QUEUES = (("boost", "boost spsc"), ("ck", "ck ring"), ("moody", "moodycamel"), ("rtrb", "rtrb's way"),
               ("array", "ArrayQueue"), ("channel", "channel"), ("jctools", "JCTools"), ("disruptor", "Disruptor"))
OF_ONE = {"array": ["crossbeam-array"], "channel": ["crossbeam-chan"], "boost": ["boost-spsc"], "ck": ["ck-spsc"],
          "moody": ["moody-spsc"], "rtrb": ["o2o-ta"], "jctools": ["jctools-spsc"], "disruptor": ["disruptor-sp"]}
OF_MANY = {"array": ["crossbeam-array"], "channel": ["crossbeam-chan"], "ck": ["ck-mpsc"], "moody": ["moody-mpmc"],
           "jctools": ["jctools-mpsc"], "disruptor": ["disruptor-mp"]}
BROADCAST = {"disruptor": ["disruptor-lossless"], "tokio": ["tokio-broadcast"]}
# Label, (workload, bytes, threads, metric), ours, and the contenders of each column.
USER_ROWS = (
    *((f"one-to-one, one thread, {size:,} bytes", ("batches", size, 1, "ns"), "plain-o2o", OF_ONE)
      for size in (8, 128, 1024)),
    *((f"one-to-one, two threads, {size:,} bytes", ("pair", size, 1, "ns"), "plain-o2o", OF_ONE)
      for size in (8, 128, 1024)),
    *((f"many-to-one, 4 producers, {size} bytes", ("producers", size, 4, "ns"), "plain-m2o", OF_MANY)
      for size in (8, 64)),
    *((f"one-to-one, command and reply, {said}", ("trips", COMMAND, 1, metric), "plain-o2o", OF_ONE)
      for said, metric in (("p50", "p50"), ("p99", "p99"), ("p99.9", "p999"))),
)
# A broadcast to two receivers: label, contender, bytes.
BROADCAST_ROWS = tuple((f"{name}, {size:,} bytes", who, size) for size in (64, 1024) for name, who in (
    ("ours", "ours-board"), ("`sc`", "board-sc"), ("`ar`", "board-ar"), ("tokio", "tokio-broadcast"),
    ("Disruptor", "disruptor-lossless")))
# README's columns and rows: our fastest form of each structure beside what is fastest of the others.
README_QUEUES = (("boost", "boost spsc"), ("array", "ArrayQueue"), ("jctools", "JCTools"), ("tokio", "tokio"),
                 ("disruptor", "Disruptor"))
README_ROWS = (
    ("plain one-to-one ring, one thread, 8 bytes", ("batches", 8, 1, "ns"), "plain-o2o", OF_ONE),
    *((f"plain one-to-one ring, two threads, {size:,} bytes", ("pair", size, 1, "ns"), "plain-o2o", OF_ONE)
      for size in (8, 1024)),
    ("plain one-to-one ring, two threads, 8 bytes, in batches of 16", ("pair", 8, 1, "ns"), "plain-o2o-batch", {}),
    ("plain many-to-one ring, four producers, 64 bytes", ("producers", 64, 4, "ns"), "plain-m2o", OF_MANY),
    ("plain one-to-one ring, a command and its reply, median", ("trips", COMMAND, 1, "p50"), "plain-o2o", OF_ONE),
    ("broadcast buffer, two receivers, 64 bytes", ("broadcast", 64, 2, "ns"), "ours-board", BROADCAST),
)

# Through felter.h: label, workload, contender, the plain calls, bytes, threads, metric. Both read one message by each
# call, or both read up to 64.
C_READS = (("one message in each read", "", "-single"), ("read in batches", "-batch", ""))
C_RINGS = tuple((f"plain {name}, {said}", f"felter-{ring}{ending}", f"plain-{ring}{same}")
                for name, ring in (("one-to-one", "o2o"), ("many-to-one", "m2o")) for said, ending, same in C_READS)
C_ROWS = (
    *((f"{name}, {threads}, {size:,} bytes", workload, c, plain, size, 1, "ns")
      for threads, workload in (("one thread", "batches"), ("two threads", "pair")) for name, c, plain in C_RINGS
      for size in SIZES),
    *((f"{name}, 4 producers, {size:,} bytes", "producers", c, plain, size, 4, "ns") for name, c, plain in C_RINGS[2:]
      for size in (8, 64)),
    *((f"plain many-to-one, a command and its reply, {said}", "trips", "felter-m2o", "plain-m2o", COMMAND, 1, said)
      for said in ("mean", "p50", "p99")),
)
# The same in a table by length.
C_LENGTH_ROWS = tuple((f"plain many-to-one, {threads}, {said}", workload, f"felter-m2o{ending}", f"plain-m2o{same}",
                       SIZES) for threads, workload in (("one thread", "batches"), ("two threads", "pair"))
                      for said, ending, same in C_READS)

# The rings of felter.jar against Agrona's algorithm in Java: label, workload, ours, theirs, bytes.
JAVA_ROWS = tuple((f"{name}, {said}, {size:,} bytes", workload, f"felter-java-{ring}", f"agrona-java-{ring}", size)
                  for said, workload in (("one thread, batches of 16", "batches"), ("two threads", "pair"))
                  for name, ring in (("many-to-one", "m2o"), ("one-to-one", "o2o")) for size in (8, 128, 1024))

# Curves: of each picture what it shows, and its panels, (title, what x is, ticks, lines), a line being (name, colour,
# dash, [(x, key)]).
PERCENTILES = points.PERCENTILES
WHO = (("ours, plain", "ours", "plain-m2o"), ("ours, bodies in words", "C", "ours-m2o"), ("sc", "sc", "m2o-sc"),
       ("pb", "pb", "m2o-pb"), ("ar", "ar", "m2o-ar"))
STORMS = (("ours, bodies in words", "C", "ours-storm"), ("sc", "sc", "storm-sc"), ("pb", "pb", "storm-pb"),
          ("ar", "ar", "storm-ar"))


def by_size(workload):
    return [(name, colour, "", [(size, (workload, who, size, 1, "ns")) for size in points.LENGTHS])
            for name, colour, who in WHO]


def by_producers(size):
    return [(name, colour, "", [(1, ("pair", who, size, 1, "ns"))]
             + [(n, ("producers", who, size, n, "ns")) for n in points.PRODUCERS]) for name, colour, who in WHO]


def ticks(numbers):
    return [(it, f"{it // 1024}K" if it % 1024 == 0 else str(it)) for it in numbers]


# Percentiles are as far apart as their tails grow: one of ten, of a hundred and so on.
TAILS = [(100 / (100 - part), f"p{part:g}") for _, part in PERCENTILES]
CURVES = {
    "round-trips": ("Nanoseconds from a command to its reply, by percentile.", [
        ("Many-to-one ring\na command and its reply: ns", "percentile", TAILS,
         [(name, colour, "", [(x, ("trips", who, COMMAND, 1, metric)) for (x, _), (metric, _) in zip(TAILS, PERCENTILES)])
          for name, colour, who in WHO])]),
    "lengths": ("Nanoseconds a message, by the length of its body.", [
        ("Many-to-one ring, one thread\nns a message", "bytes of a message", ticks(points.LENGTHS), by_size("batches")),
        ("Many-to-one ring, two threads\nns a message", "bytes of a message", ticks(points.LENGTHS), by_size("pair"))]),
    "threads": ("Nanoseconds a message by the number of producers, and a command of a storm by the number of clients.", [
        ("Many-to-one ring, messages of 8 bytes\nns a message", "producers", ticks((1, *points.PRODUCERS)),
         by_producers(8)),
        ("Storms\nns a command", "clients", ticks(points.CLIENTS),
         [(name, colour, "", [(n, ("storm", who, COMMAND, n, "ns")) for n in points.CLIENTS])
          for name, colour, who in STORMS])]),
}

# Pictures of ratios: a title, the twins with the same bodies and Agrona's orders, and which contenders they have.
RATIOS = {
    "ratios-plain": ("Plain rings, in times of a twin", ("pb", "ar"), ("plain-",)),
    "ratios-words": ("Rings with bodies in words, in times of a twin", ("sc", "ar"), ("ours-o2o", "ours-m2o", "ours-solo")),
    "ratios-others": ("Broadcast buffer, counters and storms, in times of a twin", ("sc", "ar"),
                      ("ours-board", "ours-counters", "ours-storm")),
}
