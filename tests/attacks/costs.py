"""Whether four times as much work takes at most ten times as long: of the C library, ring_run and ring_show. Of the
library the instructions are counted, and of the programs the time."""
import math
import os
import resource
import struct
import tempfile
import time

from .shared import Finding, NotRun, compiled, program, run_program

# Times as long for four times as much, the shortest time that is compared, and how often it is measured at most.
MOST, SHORTEST, TRIES = 10, 0.05, 10
# The place of the tail in the trailer of a ring, in bytes.
TAIL = 128


def seconds_of(words, data, ending):
    """The time of a program, of the processor. What it prints must end in this."""
    before = resource.getrusage(resource.RUSAGE_CHILDREN)
    done = run_program(words, input=data)
    after = resource.getrusage(resource.RUSAGE_CHILDREN)
    if done.returncode or not done.stdout.endswith(ending):
        said = (done.stderr or done.stdout)[-300:].decode(errors="replace")
        raise Finding(f"{words[0]} ended with status {done.returncode}: {said}")
    return after.ru_utime + after.ru_stime - before.ru_utime - before.ru_stime


def lines(n):
    """A scenario of n messages, of which each is read."""
    return b"".join(b"write 7 68656c6c6f\nread 1\n" for _ in range(n // 2)) + b"end\n"


def records(n):
    """The memory of a ring with n bytes: messages of no body, one after another, and then the trailer."""
    ring = struct.pack("<ii", 8, 7) * (n // 8)
    trailer = bytearray(768)
    struct.pack_into("<Q", trailer, TAIL, n)
    return ring + bytes(trailer)


def compare(name, less, more):
    """Runs a program for some work, and for four times as much. The least times of a few tries count, since other
    programs can use the caches meanwhile."""
    one = four = math.inf
    for _ in range(TRIES):
        one, four = min(one, seconds_of(*less)), min(four, seconds_of(*more))
        if four <= SHORTEST or four <= MOST * one:
            return f"{name} {four / max(one, 0.001):.1f}"
    raise Finding(f"{name}: {one:.3f} s, and of four times as much {four:.3f} s")


def of_library(folder):
    path = compiled(os.path.join(folder, "costs"), ("costs.c",), "-O1")
    done = run_program([path])
    said = done.stdout.decode()
    if done.returncode == 1:
        raise Finding("\n" + said)
    if done.returncode:
        raise Finding(f"costs ended with status {done.returncode}: {done.stderr.decode()}")
    return f"{len(said.splitlines())} rows of the library"


def of_scenarios(_folder):
    path = program("ring_run", "RING_RUN")
    runs = [([path, "--ring", "1024"], lines(n), b"end messages %d left 0\n" % (n // 2)) for n in (18000, 72000)]
    return compare("lines of a scenario", *runs)


def of_snapshots(folder):
    path, runs = program("ring_show", "RING_SHOW"), []
    for n in (1 << 18, 1 << 20):
        name = os.path.join(folder, f"snapshot-{n}")
        with open(name, "wb") as file:
            file.write(records(n))
        ending = b"%d committed, 0 open, 0 aborted or padding; 0 of %d bytes free\n" % (n // 8, n)
        runs.append(([path, "ring", name], b"", ending))
    return compare("records of a snapshot", *runs)


def run(_seconds, _seed):
    began, said = time.monotonic(), []
    with tempfile.TemporaryDirectory() as folder:
        for part in of_library, of_scenarios, of_snapshots:
            try:
                said.append(part(folder))
            except NotRun as why:
                said.append(f"not run: {why}")
    return f"{', '.join(said)}, in {time.monotonic() - began:.0f} s"
