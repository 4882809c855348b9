"""The sections of PERFORMANCE.md, RESULTS.md and README that show figures, line by line."""
import statistics
import textwrap

from results import PARTS
from rows import (BATCH_ROWS, BROADCAST_ROWS, C_LENGTH_ROWS, C_ROWS, FORM_ROWS, JAVA_ROWS, LENGTH_ROWS, OTHER_ROWS,
                  README_QUEUES, README_ROWS, SECTIONS, USER_QUEUES, USER_ROWS, twin_of)

NONE = "–"
SLOW = 1.10  # times `sc`, above which a row is named as slow


def number(value):
    if value is None:
        return NONE
    return f"{value:,.0f}" if value >= 1000 else f"{value:.3g}"


def nanos(run, *key):
    """A figure in nanoseconds, with the least and the greatest median of a set."""
    spread = run.spread(*key)
    return number(run.ns(*key)) + (f" ({number(spread[0])}–{number(spread[1])})" if spread else "")


def times(found):
    """A ratio with its spread: the median of the sets, and of these the least and the greatest."""
    if not found:
        return NONE
    every = found["sets"]
    middle = statistics.median(every)
    if len(every) == 1:
        return f"{middle:.2f} ({found['low']:.2f}–{found['high']:.2f})"
    return f"{middle:.2f} ({min(every):.2f}–{max(every):.2f})"


def table(head, lines):
    yield "| " + " | ".join(head) + " |"
    yield "|" + "---|" * len(head)
    for cells in lines:
        yield "| " + " | ".join(cells) + " |"


def used_columns(head, lines):
    """A table without the columns that have no figure in any line."""
    kept = [k for k in range(len(head)) if k == 0 or any(cells[k] != NONE for cells in lines)]
    return table([head[k] for k in kept], [[cells[k] for k in kept] for cells in lines])


def gated(it, has_two=True):
    """How sets were gated, or that they were not. `has_two` says whether two threads ran in them."""
    if not it.get("gated"):
        return (" The sets were not gated. This means that every measurement counts, even if a processor was slow at "
                "that time. So a row may be off by a third or more.")
    best, two = ", ".join(f"{best:.3f}" for best in it["best"]), it["processors"][:2]
    shares = any(set(two) <= set(core) for core in it["shared_cores"])
    where = "which share a core" if shares else "on cores of their own"
    said = f" Two threads had the processors {two[0]} and {two[1]}, {where}." if has_two else ""
    return (f"{said} An add took {best} ns at best in each set. Beside each measurement an add took at most "
            f"{it['margin']:.0%} more. {sum(it['repeated']):,} tries did not count.")


def about(run, what):
    """On which machine and how `what` was measured, and what else the machine did meanwhile."""
    it = run.about
    sets = f"{it['sets']} sets" if it["sets"] > 1 else "one set"
    fifo = " The option `--fifo` gave the programs priority over all ordinary programs." if it["fifo"] else ""
    short = " The rounds were short, since the option `--quick` was given." if it.get("short") else ""
    two = (" The ratio of two sets is their mean, and says little about how far a figure may vary."
           if it["sets"] == 2 else "")
    said = (f"{what} measured on a virtual machine with {it['cores']} processors ({it['cpu']}) and Linux "
            f"{it['kernel']}, in {sets} of {it['reps']} rounds.{short}{two}{fifo} The twins were {it['twins']}."
            + gated(it, any(row["workload"] not in ("batches", "sparse") for row in run.rows)))
    yield from textwrap.fill(said, 120).split("\n")
    yield ""
    yield "During the measurements, other programs and the host of the machine used this many processors:"
    yield ""
    rows = [("other programs, median", "others", 0), ("other programs, at worst", "others", 1),
            ("the host, median", "steal", 0), ("the host, at worst", "steal", 1)]
    yield from table(["", *(f"set {number}" for number in range(1, it["sets"] + 1))],
                     [[label] + [f"{found[at]:g}" for found in it[name]] for label, name, at in rows])


def measured(run, rows):
    """The rows that have a figure."""
    return [row for row in rows if run.ns(row[1], row[2], *row[-3:]) is not None]


def of_queue(runs, twin, *keys):
    """A queue against a twin, from the same sets as ours if it took part in them."""
    found = [runs[name].against(twin, *key) for name in ("sets", "queues") if name in runs for key in keys]
    return next((it for it in found if it), None)


def user_cells(runs, row):
    """A row of what users would pick: ours, and each queue, all in times `ar`."""
    label, point, ours, queues = row
    workload, size, threads, metric = point
    twin = twin_of(ours) + "-ar"
    cells = [label, nanos(runs["sets"], workload, ours, size, threads, metric),
             times(runs["sets"].against(twin, workload, ours, size, threads, metric))]
    in_words = ours.replace("plain", "ours")
    found = in_words != ours and runs["sets"].against(twin, workload, in_words, size, threads, metric)
    cells.append(times(found))
    for name, _ in USER_QUEUES:
        keys = [(workload, queue, size, threads, metric) for queue in queues.get(name, ())]
        cells.append(times(of_queue(runs, twin, *keys)))
    return cells


def about_all(runs, what):
    """How the sets were measured, and how the parts of them that were measured apart."""
    parts = [name for name in PARTS if name in runs]
    for name in parts:
        yield from about(runs[name], f"In the rows {PARTS[name]}, {what}")
        yield ""
    yield from about(runs["sets"], f"In all other rows, {what}" if parts else what[0].upper() + what[1:])


def users(runs):
    yield from about_all(runs, "our programs and the twins were" if "queues" in runs else "all programs were")
    yield ""
    if "queues" in runs:
        yield from about(runs["queues"], "The queues were")
        yield ""
    head = ["times `ar`", "ours, ns", "ours", "ours, bodies in words", *(title for _, title in USER_QUEUES)]
    lines = [user_cells(runs, row) for row in USER_ROWS]
    if all(cells[head.index("rtrb's way")] == NONE for cells in lines):
        yield "rtrb was not measured."
    else:
        yield "`rtrb's way` is a twin in C that does what rtrb does. rtrb itself was not measured."
    yield ""
    yield from used_columns(head, lines)


def broadcast_cells(runs, row):
    """A contender of a broadcast: its time, and which part of what was transmitted a receiver copied."""
    label, who, size = row
    key = ("broadcast", who, size, 2, "ns")
    run = next((it for it in (runs["sets"], runs.get("queues")) if it and it.ns(*key) is not None), runs["sets"])
    copied = run.ns("broadcast", who, size, 2, "copied")
    return [label, nanos(run, *key), *(times(run.against(f"board-{twin}", *key)) for twin in ("sc", "ar")),
            NONE if copied is None else f"{copied:.2f}"]


def broadcasts(runs):
    lines = [broadcast_cells(runs, row) for row in BROADCAST_ROWS]
    yield from table(["", "ns", "times `sc`", "times `ar`", "copied"], [it for it in lines if it[1] != NONE])


def by_length(run, rows):
    """Rows of label, workload, ours, what it is compared with, and lengths."""
    for label, workload, ours, twin, sizes in rows:
        yield [label] + [times(run.against(twin, workload, ours, size, 1, "ns")) if size in sizes else NONE
                         for size in (8, 32, 128, 1024)]


def forms(runs):
    yield from used_columns(["", "8 bytes", "32", "128", "1,024"], list(by_length(runs["sets"], FORM_ROWS)))


def batch_cells(run, row):
    """A row of batches: ours, and the twins that publish a batch at once."""
    label, workload, ours, size, threads = row
    key, kind = (workload, ours, size, threads, "ns"), twin_of(ours)
    queue = run.against(f"{kind}-ar", workload, f"{kind}-ta-batch", size, threads, "ns")
    return [label, nanos(run, *key), *(times(run.against(f"{kind}-{twin}", *key)) for twin in ("ar", "pb-batch")),
            times(queue)]


def batches(runs):
    """What a message costs if `write_batch` writes 16 of them."""
    lines = [batch_cells(runs["sets"], row) for row in BATCH_ROWS]
    lines = [cells for cells in lines if cells[1] != NONE]
    if lines:
        head = ["", "ours, ns", "times `ar`", "times `pb`", "`rtrb's way`, times `ar`"]
        yield from used_columns(head, lines)
    else:
        yield "`write_batch` was not measured in these sets."


def length_rows():
    """The rows of `words` by length, each with the twin `sc`."""
    return [(label, workload, ours, twin_of(ours) + "-sc", sizes) for label, workload, ours, sizes in LENGTH_ROWS]


def words(runs):
    run = runs["sets"]
    yield from used_columns(["times `sc`", "8 bytes", "32", "128", "1,024"], list(by_length(run, length_rows())))
    yield ""
    lines = []
    for label, workload, ours, size, threads, metric in measured(run, OTHER_ROWS):
        key = (workload, ours, size, threads, metric)
        lines.append([label, nanos(run, *key), *(times(run.against(f"{twin_of(ours)}-{twin}", *key))
                                                     for twin in ("sc", "ar"))])
    yield from table(["", "ours, ns", "times `sc`", "times `ar`"], lines)


def slow_labels(run):
    """The rows of `words` and of broadcasts whose ratio to `sc` is above SLOW."""
    keys = [(f"{label}, {size:,} bytes", twin, (workload, ours, size, 1, "ns"))
            for label, workload, ours, twin, sizes in length_rows() for size in sizes]
    keys += [(row[0], twin_of(row[2]) + "-sc", row[1:]) for row in OTHER_ROWS]
    keys += [(f"broadcast, {size:,} bytes", "board-sc", ("broadcast", who, size, 2, "ns"))
             for _, who, size in BROADCAST_ROWS if who == "ours-board"]
    for label, twin, key in keys:
        found = run.against(twin, *key)
        if found and round(statistics.median(found["sets"]), 2) > SLOW:
            yield label


def slower(runs):
    labels = list(slow_labels(runs["sets"]))
    if not labels:
        yield f"In no row of the tables above our time is more than {SLOW:.2f} times the time of `sc`."
        return
    yield f"In these rows our time is more than {SLOW:.2f} times the time of `sc`:"
    yield ""
    yield from (f"- {label}{';' if k < len(labels) else '.'}" for k, label in enumerate(labels, 1))


def run_with(runs, other, rows):
    """The run that the figures of rows come from: the sets if they have one of these rows, or another run."""
    return runs["sets"] if measured(runs["sets"], rows) else runs.get(other, runs["sets"])


def from_c(runs):
    """Calls of felter.h in times the plain calls, by the length of a body."""
    run = run_with(runs, "felter", C_ROWS)
    rows = [row for row in C_LENGTH_ROWS if any(run.against(row[3], row[1], row[2], size, 1, "ns") for size in row[4])]
    if run is not runs["sets"]:
        yield "The figures of this table were measured separately. [bench/RESULTS.md](../bench/RESULTS.md) says how."
        yield ""
    head = ["times the calls in Rattle", "8 bytes", "32", "128", "1,024"]
    yield from used_columns(head, list(by_length(run, rows)))


def from_java(runs):
    """The rings of felter.jar against Agrona's algorithm in Java; None if they were not measured."""
    run = runs["sets"]
    found = [(label, run.against(theirs, *key), key) for label, workload, mine, theirs, size in JAVA_ROWS
             for key in [(workload, mine, size, 1, "ns")]]
    found = [it for it in found if it[1]]
    if not found:
        return None
    return list(table(["", "ours, ns", "times `AgronaRing`"],
                      [[label, nanos(run, *key), times(ratio)] for label, ratio, key in found]))


def are_older(runs):
    """Whether some rows are of earlier plain rings."""
    return bool(runs["sets"].older)


def readme_label(runs, label, workload, contenders):
    """The label of a row, which names a plain ring that is an earlier one, and the fraction that receivers copied."""
    if workload == "broadcast":
        parts = [runs["sets"].ns(workload, who, 64, 2, "copied") for who in contenders]
        return label + "; a receiver copied {:.2f} of the messages (with `ar` {:.2f})".format(*parts)
    return label + (" (an earlier ring)" if workload in runs["sets"].older else "")


def readme(runs):
    lines = []
    for label, point, ours, queues in README_ROWS:
        workload, size, threads, metric = point
        twin = twin_of(ours) + "-ar"
        key = (workload, ours, size, threads, metric)
        cells = [readme_label(runs, label, workload, (ours, twin)), nanos(runs["sets"], *key),
                 times(runs["sets"].against(twin, *key))]
        for name, _ in README_QUEUES:
            keys = [(workload, queue, size, threads, metric) for queue in queues.get(name, ())]
            cells.append(times(of_queue(runs, twin, *keys)))
        lines.append(cells)
    yield from table(["", "ours, ns", "ours", *(title for _, title in README_QUEUES)], lines)


def all_rows(runs):
    """RESULTS.md: every row, set by set."""
    yield "# All rows"
    yield ""
    yield "`bench/page.py` writes this page from `bench/results.json`."
    yield "[PERFORMANCE.md](../docs/PERFORMANCE.md) says what the figures mean."
    yield ""
    yield from about_all(runs, "the programs were")
    yield ""
    for title, rows in [(title, measured(runs["sets"], rows)) for title, rows in SECTIONS]:
        if not rows:
            continue
        yield "## " + title
        yield ""
        yield from table(["", "ours", "`sc`", "ours / `sc`, set by set", "`ar`", "ours / `ar`, set by set"],
                         [row_cells(runs["sets"], row) for row in rows])
        yield ""
    yield "## From C, through felter.h"
    yield ""
    run = run_with(runs, "felter", C_ROWS)
    if run is not runs["sets"]:
        yield from about(run, "These rows were")
        yield ""
    yield from table(["", "from C", "in Rattle", "from C / in Rattle", "from C / `sc`", "from C / `ar`"],
                     [c_cells(run, row) for row in measured(run, C_ROWS)])


def set_by_set(found):
    return ", ".join(f"{it:.2f}" for it in found["sets"]) if found else NONE


def row_cells(run, row):
    label, workload, ours, size, threads, metric = row
    key, cells = (workload, ours, size, threads, metric), []
    for twin in ("sc", "ar"):
        other = f"{twin_of(ours)}-{twin}"
        cells += [number(run.ns(workload, other, size, threads, metric)), set_by_set(run.against(other, *key))]
    return [label, number(run.ns(*key)), *cells]


def c_cells(run, row):
    label, workload, mine, plain, size, threads, metric = row
    key = (workload, mine, size, threads, metric)
    others = (plain, twin_of(plain) + "-sc", twin_of(plain) + "-ar")
    return [label, number(run.ns(*key)), number(run.ns(workload, plain, size, threads, metric)),
            *(set_by_set(run.against(other, *key)) for other in others)]
