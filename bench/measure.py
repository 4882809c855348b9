#!/usr/bin/env python3
"""Runs the workloads over all contenders of the workers, in rounds, and prints a table: bench/run starts it.

Each round asks every contender for one measurement of a point, in another order, so that noise meets all alike. A round
before the first finds how much fills the time. A figure is the median of the rounds, with the least and the greatest; a
ratio is the median, over the rounds, of a contender's figure by that of the reference in the same round.

A measurement counts only if the processors that it used ran at full speed before it and after it, and a round only if
other programs used little meanwhile. On one and two threads a measurement is cut into slices, each of which has to
count. The rest is repeated for as long as --patience says. A row of which a round could
not be measured so has no figure. Each set begins with fresh programs.
"""
import argparse
import json
import os
import random
import re
import selectors
import statistics
import subprocess
import sys
import time

sys.dont_write_bytecode = True
import cores
import gate
import points as listed

TICK = os.sysconf("SC_CLK_TCK")
LIMIT = 60  # seconds that one measurement may take
SETS = 3  # that a figure of the page needs
# workers that use all processors: the compiler of a JVM runs beside the program
UNPINNED = ("java", "felter-java", "agrona-java")


class Worker:
    """A program that speaks the line protocol."""

    def __init__(self, name, words):
        self.name, self.words, self.is_pinned = name, words, name not in UNPINNED
        self.start()
        self.entries = []
        for line in self.ask("list"):
            words = line.split()
            if len(words) == 3 and words[0] == "has":
                contender, _, size = words[2].partition("/")
                self.entries.append((words[1], contender, int(size) if size else None))

    def start(self):
        self.child = subprocess.Popen(self.words, stdin=subprocess.PIPE, stdout=subprocess.PIPE, bufsize=0)
        self.waiting = selectors.DefaultSelector()
        self.waiting.register(self.child.stdout, selectors.EVENT_READ)
        self.rest = b""

    def stop(self):
        self.child.kill()
        self.child.wait()

    def ask(self, line):
        """The lines of an answer, without the last one, `end`."""
        self.child.stdin.write(line.encode() + b"\n")
        end, lines = time.monotonic() + LIMIT, []
        while True:
            while b"\n" in self.rest:
                head, _, self.rest = self.rest.partition(b"\n")
                if head.strip() == b"end":
                    return lines
                lines.append(head.decode().strip())
            if not self.waiting.select(max(0, end - time.monotonic())):
                raise TimeoutError(f"no answer in {LIMIT} s")
            got = os.read(self.child.stdout.fileno(), 65536)
            if not got:
                raise EOFError(f"{self.name} ended with status {self.child.wait()}")
            self.rest += got

    def takes_part(self, point):
        """The contenders that it has at a point."""
        for workload, contender, size in self.entries:
            if workload == point.workload and size in (None, point.size):
                yield contender

    def measure(self, contender, point, ms):
        """The metrics of one measurement; none if the contender does not have the point."""
        line = f"run {point.workload} {contender} {point.size} {point.capacity} {point.threads} {ms:g}"
        found = {}
        for answer in self.ask(line):
            metric, _, value = answer.partition(" ")
            if metric == "error":
                return {}
            found[metric] = float(value)
        return found



def ticks(pids):
    """For how many ticks processes have used a processor."""
    used = 0
    for pid in pids:
        with open(f"/proc/{pid}/stat", encoding="ascii") as file:
            after = file.read().rpartition(")")[2].split()
        used += int(after[11]) + int(after[12])
    return used


def busy():
    """For how many ticks processors were used, and were taken by the host."""
    with open("/proc/stat", encoding="ascii") as file:
        ticks = list(map(int, file.readline().split()[1:]))
    return ticks[0] + ticks[1] + ticks[2] + ticks[5] + ticks[6], ticks[7]


class Round:
    """One round of a point: the values by contender and metric, the slowest time of an add beside a contender's
    measurement and on how many processors, and the processors that others and the host used."""

    def __init__(self):
        self.values, self.adds, self.processors = {}, {}, {}
        self.others = self.steal = 0.0


class Setting:
    """How it is measured: what counts, the processors in the order of use, and the processes that only look on."""

    def __init__(self, guard, order, helpers):
        self.guard, self.order, self.helpers = guard, order, helpers

    def ungated(self):
        return Setting(gate.Gate(None, time.monotonic, time.sleep), self.order, self.helpers)

    def used(self, worker, point):
        """The processors that a worker uses at a point."""
        return self.order[:listed.threads_of(point)] if worker.is_pinned else self.order

    def measure(self, worker, contender, point, ms):
        """What one measurement found, and the slowest time of an add beside it; None if a slice of it did not count.

        A value is the median of the slices.
        """
        used, count, slices = self.used(worker, point), listed.slices_of(point), []
        if worker.is_pinned:
            gate.pin(worker.child.pid, used)
        for _ in range(count):
            found = self.guard.measure(used, lambda: worker.measure(contender, point, ms / count))
            if found is None or not found[0]:
                return found
            slices.append(found)
        values = {it: statistics.median(found[it] for found, _ in slices) for it in slices[0][0]}
        return values, max((add for _, add in slices if add is not None), default=None)


def measure_round(setting, entries, failed, point, ms):
    """One round of a point. A contender that cannot be measured, or not at full speed, goes into `failed` with why."""
    pids = [*setting.helpers, *{worker.child.pid for worker, _ in entries}]
    (before, stolen), own = busy(), ticks(pids)
    began, it = time.monotonic(), Round()
    for worker, contender in entries:
        if contender in failed:
            continue
        try:
            found = setting.measure(worker, contender, point, ms)
        except (TimeoutError, EOFError, BrokenPipeError, ValueError) as why:
            print(f"bench: {contender}, {point}: {why}", file=sys.stderr)
            pids.remove(worker.child.pid)
            worker.stop()
            worker.start()
            pids.append(worker.child.pid)
            found, own = ({}, None), 0
        if found is None or not found[0]:
            failed[contender] = "slow" if found is None else "none"
            continue
        it.adds[contender], it.processors[contender] = found[1], len(setting.used(worker, point))
        it.values.update({(contender, metric): value for metric, value in found[0].items()})
    took = max(time.monotonic() - began, 0.01)
    after, stolen_after = busy()
    used = ticks(pids) - own
    it.others = max(0.0, (after - before - used) / TICK / took)
    it.steal = (stolen_after - stolen) / TICK / took
    return it


def measure_point(setting, workers, point, options):
    """The rounds of a point that count, and by contender why it has none."""
    match = re.compile(options.contenders)
    reference = listed.WORKLOADS[point.workload][1]
    entries = [(worker, contender) for worker in workers for contender in worker.takes_part(point)
               if contender == reference or match.search(contender)]
    ms = point.ms * (0.4 if options.quick else 1)
    rounds, failed = [], {}
    measure_round(setting.ungated(), entries, failed, point, ms)
    while len(rounds) < options.reps:
        random.shuffle(entries)
        began = time.monotonic()
        found = measure_round(setting, entries, failed, point, ms)
        if setting.guard.is_quiet(found.others):
            rounds.append(found)
        elif not setting.guard.may_repeat(began):
            failed.update({contender: "others" for _, contender in entries if contender not in failed})
            return [], failed
    return rounds, failed


def ratio(values, base):
    """The median, round by round; None without a base."""
    return statistics.median(a / b for a, b in zip(values, base)) if base and all(base) else None


def results_of(point, rounds):
    """A row for each contender and metric that has a value in all rounds."""
    samples = {}
    for key in {key for it in rounds for key in it.values}:
        if all(key in it.values for it in rounds):
            samples[key] = [it.values[key] for it in rounds]
    reference = listed.WORKLOADS[point.workload][1]
    for (contender, metric), values in sorted(samples.items(), key=lambda it: (it[0][1], statistics.median(it[1]))):
        yield {"workload": point.workload, "contender": contender, "size": point.size, "threads": point.threads,
               "metric": metric, "median": statistics.median(values), "low": min(values), "high": max(values),
               "ratio": ratio(values, samples.get((reference, metric))), "values": values,
               "processors": rounds[0].processors[contender], "adds": [it.adds[contender] for it in rounds]}


def tables(results):
    """A table for each workload: a line for each contender, a column for each point's metric."""
    for workload, (title, reference) in listed.WORKLOADS.items():
        rows = [it for it in results if it["workload"] == workload]
        if not rows:
            continue
        keys = list(dict.fromkeys((it["workload"], it["size"], it["threads"], it["metric"]) for it in rows))
        cells = {}
        for it in rows:
            said = f"{it['median']:.4g}"
            if it["ratio"] is not None and it["contender"] != reference:
                said += f" x{it['ratio']:.2f}"
            cells.setdefault(it["contender"], {})[it["workload"], it["size"], it["threads"], it["metric"]] = said
        lines = [["", *map(listed.label, keys)]]
        lines += [[who, *(has.get(key, "") for key in keys)] for who, has in cells.items()]
        widths = [max(len(line[k]) for line in lines) for k in range(len(keys) + 1)]
        yield f"\n{workload}: {title} (x: times {reference})\n"
        for line in lines:
            yield "  ".join(cell.ljust(width) for cell, width in zip(line, widths)).rstrip()


def machine():
    with open("/proc/cpuinfo", encoding="utf-8") as file:
        names = [line.split(":")[1].strip() for line in file if line.startswith("model name")]
    return {"cpu": names[0] if names else os.uname().machine, "cores": os.cpu_count(), "kernel": os.uname().release}


def arguments():
    ask = argparse.ArgumentParser(prog="bench/run", description=__doc__,
                                  formatter_class=argparse.RawDescriptionHelpFormatter)
    ask.add_argument("--quick", action="store_true", help="one set of fewer points, 5 rounds, short measurements")
    ask.add_argument("--only", default="", metavar="batches,pair..", help="these workloads alone")
    ask.add_argument("--sizes", default="", metavar="8,32..", help="messages of these sizes alone, in bytes")
    ask.add_argument("--contenders", default="", metavar="REGEX", help="those whose name it matches, and the reference")
    ask.add_argument("--sets", type=int, default=0, metavar="N", help=f"sets, one after another; {SETS} without it")
    ask.add_argument("--reps", type=int, default=0, metavar="N", help="rounds of a set, 7 if it is not given")
    ask.add_argument("--json", default="", metavar="FILE", help="where all values are written, for bench/page.py")
    ask.add_argument("--fifo", action="store_true", help="as root: before all ordinary programs, which wait meanwhile")
    ask.add_argument("--pause", type=float, default=0, metavar="S", help="seconds between two points, for the others")
    ask.add_argument("--patience", type=float, default=600, metavar="S",
                     help="seconds that a set may take to repeat what does not count, 600 if it is not given")
    ask.add_argument("--ungated", action="store_true", help="let all count; the page takes no such set")
    ask.add_argument("--seed", type=int, default=1, help="of the order within a round")
    ask.add_argument("--worker", action="append", default=[], metavar="NAME=COMMAND", help="one more worker")
    ask.add_argument("--speed", default="", help=argparse.SUPPRESS)  # (the program speed.c, which bench/run builds)
    ask.add_argument("--parse", action="store_true", help=argparse.SUPPRESS)  # (bench/run, before it builds anything)
    options = ask.parse_args()
    for name in filter(None, options.only.split(",")):
        if name not in listed.WORKLOADS:
            ask.error(f"there is no workload {name}")
    try:
        options.sizes = {int(it) for it in filter(None, options.sizes.split(","))}
    except ValueError:
        ask.error("--sizes takes numbers of bytes, such as 8,32")
    options.reps = options.reps or (5 if options.quick else 7)
    options.sets = options.sets or (1 if options.quick else SETS)
    return options


def measure_all(setting, workers, options):
    """The rows of a set, by point and contender why it has no row, and the rounds."""
    wanted, results, refused, rounds = set(filter(None, options.only.split(","))), [], [], []
    for point in listed.points(options.quick):
        if (wanted and point.workload not in wanted) or (options.sizes and point.size not in options.sizes):
            continue
        time.sleep(options.pause)
        found, failed = measure_point(setting, workers, point, options)
        rounds += found
        results += results_of(point, found)
        refused += [[point.workload, contender, point.size, point.threads, why]
                    for contender, why in sorted(failed.items()) if why != "none"]
        print(f"bench: {point.workload}, {point.size} bytes, {point.threads} threads: measured", file=sys.stderr)
    return results, refused, rounds


def full_speed(guard, results):
    """The rows whose rounds all count by the best time of an add that the set came to, and the others as refused."""
    kept, refused = [], []
    for it in results:
        if guard.look and not all(guard.is_full(nanos, it["processors"]) for nanos in it["adds"]):
            refused.append([it["workload"], it["contender"], it["size"], it["threads"], "slow"])
        else:
            kept.append(it)
    return kept, [list(it) for it in dict.fromkeys(map(tuple, refused))]


def measure_set(setting, options, shared_cores):
    """One set, with programs that start again: what it came to, as it is written."""
    guard, began, workers = setting.guard, time.monotonic(), []
    guard.start(options.patience)
    for it in options.worker:
        name, _, command = it.partition("=")
        workers.append(Worker(name, command.split("\t")))
    results, refused, rounds = measure_all(setting, workers, options)
    for worker in workers:
        worker.stop()
    results, late = full_speed(guard, results)
    about = dict(machine(), quick=options.quick, reps=options.reps, fifo=options.fifo, gated=bool(guard.look),
                 processors=setting.order, shared_cores=shared_cores,
                 seconds=round(time.monotonic() - began, 1))
    if guard.look:
        about.update(margin=guard.margin, best=dict(guard.best), repeated=guard.repeated)
    for name in ("others", "steal"):
        used = sorted(getattr(it, name) for it in rounds) or [0.0]
        about.update({f"{name}_median": round(used[len(used) // 2], 2), f"{name}_worst": round(used[-1], 2)})
    return {"about": about, "results": results, "refused": refused + late}


def print_set(one):
    """The tables of a set, how it was measured, and what has no figure."""
    about = one["about"]
    for line in tables(one["results"]):
        print(line)
    print("\n{cpu}, {cores} processors, Linux {kernel}; {reps} rounds, medians, in {seconds:.0f} s. Other programs "
          "used {others_median} processors (worst {others_worst}), the host took {steal_median} (worst {steal_worst})."
          .format(**about))
    if about["gated"]:
        best = ", ".join(f"{nanos:.3f} on {count} at once" for count, nanos in sorted(about["best"].items()))
        print(f"Gated: an add took at most {about['margin']:.0%} more than at best beside each measurement.")
        print(f"At best it took, in ns, {best}. {about['repeated']} tries did not count.")
    else:
        print("Not gated: the processors may have run slower at times, so these are no figures for the page.")
    if one["refused"]:
        print(f"{len(one['refused'])} rows have no figure, since the machine was too busy or too slow:")
        for workload, contender, size, threads, why in one["refused"]:
            print(f"    {workload} {contender}, {size} bytes, {threads} threads: {listed.WHY[why]}")


def main():
    options = arguments()
    if options.parse:
        return
    random.seed(options.seed)
    if options.fifo:
        try:
            os.sched_setscheduler(0, os.SCHED_FIFO, os.sched_param(1))
        except OSError as why:
            sys.exit(f"bench/run: --fifo: {why.strerror}")
    speed = gate.Speed(options.speed) if options.speed and not options.ungated else None
    guard = gate.Gate(speed and speed.adds, time.monotonic, time.sleep)
    found, sets = cores.Cores(speed), []
    guard.learn(found.order)
    setting = Setting(guard, found.order, [os.getpid(), *([speed.child.pid] if speed else [])])
    print("bench: processors are used in this order:", *found.order, file=sys.stderr)
    for number in range(options.sets):
        sets.append(measure_set(setting, options, [core for core in found.cores if len(core) > 1]))
        if options.sets > 1:
            print(f"\nSet {number + 1} of {options.sets}")
        print_set(sets[-1])
        if options.json:
            with open(options.json, "w", encoding="utf-8") as file:
                json.dump({"sets": sets}, file)


if __name__ == "__main__":
    main()
