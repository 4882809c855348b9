"""What is measured: workloads, and the points of each."""
import collections

Point = collections.namedtuple("Point", "workload size capacity threads ms")

# Of each workload: what it is, and the contender to which the others are compared.
WORKLOADS = {
    "batches": ("one thread, batches of 16 written and read: ns a message", "m2o-ar"),
    "sparse": ("the same, every other word of a body 0: ns a message", "m2o-ar"),
    "pair": ("one producer thread, one consumer thread: ns a message", "m2o-ar"),
    "producers": ("several producers, one consumer: ns a message", "m2o-ar"),
    "trips": ("a command to the conductor and its reply back: ns", "m2o-ar"),
    "broadcast": ("one transmitter at full speed, two receivers: ns a transmission", "board-ar"),
    "counters": ("counters: ns", "counters-ar"),
    "storm": ("storms, clients that wait for each reply: ns a command", "storm-ar"),
}

RING = 65536  # bytes of a ring or a broadcast buffer
STORM_RING = 1024
COMMAND = 20  # bytes of the command Set
SLICES = 7  # of a measurement of these workloads
SLICED = ("batches", "sparse", "pair")
LENGTHS = (8, 16, 32, 64, 128, 256, 512, 1024, 2048, 4096)
PRODUCERS = (2, 3, 4, 6, 8)
CLIENTS = (1, 2, 4, 8, 16, 32, 64)
# Why a row has no figure.
WHY = {"slow": "a processor was slow in each try", "others": "other programs used too much in each try"}
# The figures of trips are percentiles of one list, and those of counters four jobs.
PERCENTILES = (("p50", 50), ("p90", 90), ("p99", 99), ("p999", 99.9), ("p9999", 99.99))


def points(quick):
    """All points, or those of a quick run."""
    lengths = (8, 128, 1024) if quick else LENGTHS
    for size in lengths:
        yield Point("batches", size, RING, 1, 15)
    for size in (128,) if quick else (32, 128, 1024):
        yield Point("sparse", size, RING, 1, 15)
    for size in lengths:
        yield Point("pair", size, RING, 1, 30)
    for size in (8, 64):
        for threads in (2, 4) if quick else PRODUCERS:
            yield Point("producers", size, RING, threads, 30)
    yield Point("trips", COMMAND, RING, 1, 40)
    for size in (64, 1024):
        yield Point("broadcast", size, RING, 2, 30)
    yield Point("counters", 8, 4096, 2, 10)
    for threads in (1, 4) if quick else CLIENTS:
        yield Point("storm", COMMAND, STORM_RING, threads, 30)


def threads_of(point):
    """The threads that run at once: those of the point, and the consumer, transmitter or conductor."""
    if point.workload in ("batches", "sparse"):
        return 1
    return 2 if point.workload in ("pair", "trips") else point.threads + 1


def slices_of(point):
    """How many slices a measurement is cut into. A percentile of a slice would leave out rare delays."""
    return SLICES if point.workload in SLICED else 1


def label(key):
    """How a point's metric is called in a table: key is (size, threads, metric) of a workload."""
    workload, size, threads, metric = key
    if workload in ("trips", "counters"):
        return metric
    if workload == "storm":
        return f"{threads} client{'s' if threads > 1 else ''}{', whole call' if metric == 'whole' else ''}"
    said = f"{size} bytes"
    if workload == "producers":
        said += f", {threads} producers"
    return said if metric == "ns" else f"{said}, {metric}"
