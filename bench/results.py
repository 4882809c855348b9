"""What was measured and is kept, in results.json: of each run where and how, and a row for each figure.

A row has the median over the sets in nanoseconds, the median of each set, and against each twin the ratio set by set,
with the least and the greatest of all rounds. A run has three gated sets or more."""
import json
import os
import statistics

FILE = os.path.join(os.path.dirname(os.path.abspath(__file__)), "results.json")
TWINS = ("-ar", "-sc", "-pb", "-pb-batch")
SETS = 3  # that a figure needs
# Runs whose rows are shown in place of those of the sets, and what they measured.
PARTS = {"alone": "on one thread", "pair": "of plain rings with two threads"}


class Refused(Exception):
    """Sets that are no figures, and why."""


def earlier(rows):
    """The workloads of a run whose plain rings have no `write_batch`."""
    has_batches = any(it["contender"] in ("plain-o2o-batch", "plain-m2o-batch") for it in rows)
    return set() if has_batches else {it["workload"] for it in rows}


class Run:
    """One run: its sets, taken one after another in one way."""

    def __init__(self, about, rows, older=None):
        self.about, self.rows = about, rows
        # (the workloads whose plain rings are earlier ones, without `write_batch`)
        self.older = earlier(rows) if older is None else older
        self.found = {(it["workload"], it["contender"], it["size"], it["threads"], it["metric"]): it for it in rows}

    def ns(self, *key):
        """The median of a figure, or None."""
        row = self.found.get(key)
        return row and row["ns"]

    def spread(self, *key):
        """The least and the greatest median of a set, or None if they are not known."""
        row = self.found.get(key)
        return (min(row["sets"]), max(row["sets"])) if row and "sets" in row else None

    def against(self, twin, *key):
        """What a figure is against a twin, or None: its ratios set by set, and those of all rounds."""
        row = self.found.get(key)
        return row and row["against"].get(twin)


def load(path=FILE):
    with open(path, encoding="utf-8") as file:
        return {name: Run(run["about"], run["rows"]) for name, run in json.load(file).items()}


def has_words(contender):
    """Whether a contender is one of our structures with bodies in words, or the twin `sc` of one."""
    return contender.startswith("ours-") or contender.endswith("-sc")


def shown(runs):
    """The runs as pages show them. Of the workloads of a part the sets have only what the part lacks of bodies in words."""
    parts = [runs[name] for name in PARTS if name in runs]
    measured = {it["workload"] for part in parts for it in part.rows}
    has = {(it["workload"], it["contender"]) for part in parts for it in part.rows}
    sets = runs["sets"]
    rows = [it for it in sets.rows if it["workload"] not in measured
            or (has_words(it["contender"]) and (it["workload"], it["contender"]) not in has)]
    rows += [it for part in parts for it in part.rows]
    return {**runs, "sets": Run(sets.about, rows, sets.older - measured)}


def save(runs, path=FILE):
    """A line for each row, so that changes can be read."""
    parts = []
    for name, run in sorted(runs.items()):
        rows = ",\n".join(json.dumps(it) for it in run.rows)
        parts.append(f'"{name}": {{"about": {json.dumps(run.about)}, "rows": [\n{rows}\n]}}')
    with open(path, "w", encoding="utf-8") as file:
        file.write("{\n" + ",\n".join(parts) + "\n}\n")


def ratios(sets, key, other):
    """A figure by another's, round by round, of each set that has both."""
    every = []
    for values in sets:
        mine, its = values.get(key), values.get(other)
        if mine and its and all(its):
            every.append([a / b for a, b in zip(mine, its)])
    return every


def are_compared(contender, other):
    """Whether the figures of a contender are kept against those of another one: each twin and ours, of a twin only `ar`
    and ours, and of the rings of felter.jar also Agrona's algorithm in Java."""
    if other.startswith("agrona-java"):
        return contender.startswith("felter-java")
    return other.endswith(("-ar",) if contender.endswith(TWINS) else TWINS) or other.startswith(("ours", "plain"))


def against_twins(sets, key):
    """A figure against each contender that it is compared with, at the same point."""
    workload, contender, size, threads, metric = key
    found = {}
    for other in {it[1] for values in sets for it in values if it[0] == workload}:
        if other == contender or not are_compared(contender, other):
            continue
        every = ratios(sets, key, (workload, other, size, threads, metric))
        rounds = [ratio for it in every for ratio in it]
        if rounds:
            found[other] = {"sets": [round(statistics.median(it), 2) for it in every],
                            "low": round(min(rounds), 2), "high": round(max(rounds), 2)}
    return dict(sorted(found.items()))


def faults_of(abouts):
    """Why sets are no figures, a line for each reason."""
    if len(abouts) < SETS:
        yield f"there are {len(abouts)} sets, and a figure needs {SETS}"
    counts = {count for it in abouts if it["gated"] for count in it["best"]}
    best = {count: min(it["best"][count] for it in abouts if it["gated"] and count in it["best"]) for count in counts}
    for number, it in enumerate(abouts, 1):
        if not it["gated"]:
            yield f"set {number} is not gated"
            continue
        for count, nanos in sorted(it["best"].items()):
            if nanos > best[count] * (1 + it["margin"]):
                yield (f"set {number} ran slower: an add took {nanos:.3f} ns at best on {count} processors, and "
                       f"{best[count]:.3f} in another set")


def read_sets(paths):
    """The sets of files that `bench/run --json` wrote. Raises `Refused` if they are no figures."""
    sets = []
    for path in paths:
        with open(path, encoding="utf-8") as file:
            sets += json.load(file)["sets"]
    faults = list(faults_of([it["about"] for it in sets]))
    if faults:
        raise Refused("; ".join(faults))
    return sets


def about_sets(abouts, twins):
    """How sets were taken; `twins` says which twins they were measured with."""
    first = abouts[0]
    short = any(it.get("quick") for it in abouts)
    same = ("cpu", "cores", "kernel", "reps", "fifo", "gated", "margin", "processors", "shared_cores")
    return {**{name: first[name] for name in same},
            "sets": len(abouts), "short": short, "twins": twins,
            "best": [round(min(it["best"].values()), 3) for it in abouts],
            "repeated": [it["repeated"] for it in abouts],
            "others": [[it["others_median"], it["others_worst"]] for it in abouts],
            "steal": [[it["steal_median"], it["steal_worst"]] for it in abouts]}


def run_of_sets(paths, twins):
    """The run that sets came to, and the keys of rows that some set has not, which are no figures."""
    read = read_sets(paths)
    sets = [{(it["workload"], it["contender"], it["size"], it["threads"], it["metric"]): it["values"]
             for it in one["results"]} for one in read]
    every = {key for values in sets for key in values}
    rows, lost = [], sorted(key for key in every if any(key not in values for values in sets))
    for key in sorted(every - set(lost)):
        medians = [float(f"{statistics.median(values[key]):.4g}") for values in sets]
        rows.append(dict(zip(("workload", "contender", "size", "threads", "metric"), key),
                         ns=statistics.median(medians), sets=medians, against=against_twins(sets, key)))
    return Run(about_sets([it["about"] for it in read], twins), rows), lost
