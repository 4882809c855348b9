#!/usr/bin/env python3
"""Reports which processors share a core, and which ones are measured on: bench/run pairs

A processor alone on its core is slowed by no other one that is measured. A virtual machine may not know its cores. So
if the system names no processors that share one, two processors are taken to share a core if a loop of dependent adds
is slower on both at once than on each alone, in the best of many tries."""
import argparse
import itertools
import os
import sys

sys.dont_write_bytecode = True
import gate

TRIES = 25
MOST = 16  # processors of which each pair is timed
SHARED = 1.4  # times the time alone from which two processors share a core


def read(path):
    try:
        with open(path, encoding="ascii") as file:
            return file.read().strip()
    except OSError:
        return ""


def numbers(text):
    """The numbers of a list such as 0-2,5."""
    parts = [part.partition("-") for part in text.split(",") if part]
    return {it for first, _, last in parts for it in range(int(first), int(last or first) + 1)}


def said_to_share(processors, folder="/sys/devices/system/cpu"):
    """The pairs that share a core as the system says; None if it says nothing."""
    pairs = set()
    for it in processors:
        topology = f"{folder}/cpu{it}/topology"
        text = read(f"{topology}/core_cpus_list") or read(f"{topology}/thread_siblings_list")
        if not text:
            return None
        pairs |= {(min(it, other), max(it, other)) for other in numbers(text) & set(processors) if other != it}
    return pairs


def slowing(speed, one, other):
    """How many times slower the loop is on two processors at once than on each alone, in the best of many tries."""
    alone, beside = [], []
    for _ in range(TRIES):
        alone.append(max(speed.adds((one,)) + speed.adds((other,))))
        beside.append(max(speed.adds((one, other))))
    return min(beside) / min(alone)


def slowings(speed, processors):
    return {pair: slowing(speed, *pair) for pair in itertools.combinations(sorted(processors), 2)}


def cores(processors, pairs):
    """The processors of each core, if these pairs share one."""
    core = {it: {it} for it in processors}
    for one, other in pairs:
        together = core[one] | core[other]
        core.update({it: together for it in together})
    return sorted({tuple(sorted(it)) for it in core.values()})


def in_order(of_cores):
    """The processors in the order in which they are used: one of each core first. The core of processor 0, which serves
    most interrupts, comes last."""
    by_core = sorted((sorted(core, reverse=True) for core in of_cores), key=lambda it: -min(it))
    return [core[turn] for turn in range(max(map(len, by_core))) for core in by_core if turn < len(core)]


class Cores:
    """What is known of the processors that this process may use."""

    def __init__(self, speed):
        self.processors = sorted(os.sched_getaffinity(0))
        self.said = said_to_share(self.processors)
        is_timed = speed and not self.said and len(self.processors) <= MOST
        self.times = slowings(speed, self.processors) if is_timed else {}
        slow = {pair for pair, times in self.times.items() if times >= SHARED}
        self.cores = cores(self.processors, (self.said or set()) | slow)
        self.order = in_order(self.cores)


def main():
    ask = argparse.ArgumentParser(prog="bench/run pairs", description=__doc__,
                                  formatter_class=argparse.RawDescriptionHelpFormatter)
    ask.add_argument("--speed", required=True, help=argparse.SUPPRESS)
    speed = gate.Speed(ask.parse_args().speed)
    found = Cores(speed)
    print("pair    the system says  times slower at once  one way, ns")
    for pair in itertools.combinations(found.processors[:MOST], 2):
        said = "nothing" if found.said is None else "one core" if pair in found.said else "two cores"
        times = f"{found.times[pair]:.2f}" if pair in found.times else "not timed"
        one_way = min(speed.one_way(*pair) for _ in range(5))
        print(f"{pair[0]:2} {pair[1]:2}   {said:15}  {times:>20}  {one_way:11.1f}")
    print("cores:", ", ".join("+".join(map(str, core)) for core in found.cores))
    print("used in this order:", *found.order)
    if len(found.cores) == 1:
        print("All share one core, or were slowed in each try: two threads cannot be measured on two cores.")
    speed.stop()


if __name__ == "__main__":
    main()
