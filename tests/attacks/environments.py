"""Programs under limits of memory, stack, descriptors and threads, with streams that are closed or full."""
import os
import random
import resource
import subprocess
import tempfile

from model import scenario

from .shared import Clock, Finding, program

MEBI = 1 << 20
TEXT = b"storm 4 50\nclaim 1 8\ncommit 1\nread 9\nlisten\nallocate 5 - 61\nwork 0 9\nhear 1\ncounters\nend\n"
NOBODY = 65534


def limited(kind, amount):
    def apply():
        resource.setrlimit(kind, (amount, amount))
    return apply


def as_nobody(threads):
    """Root has no limit of threads."""
    def apply():
        resource.setrlimit(resource.RLIMIT_NPROC, (threads, threads))
        if os.geteuid() == 0:
            os.setgid(NOBODY)
            os.setuid(NOBODY)
    return apply


def closed(number):
    return lambda: os.close(number)


def run_limited(path, words, apply, data=TEXT, stdout=subprocess.PIPE):
    return subprocess.run([path, *words], input=data, stdout=stdout, stderr=subprocess.PIPE, preexec_fn=apply,
                          timeout=120)


def check(what, done, wanted):
    """Its output is what the model has, up to the first refusal for memory."""
    out, err = (done.stdout or b"").decode(errors="replace"), done.stderr.decode(errors="replace")
    if done.returncode < 0:
        raise Finding(f"{what}: ended by signal {-done.returncode} after {out!r}, {err!r}")
    lines, right = out.split("\n"), wanted.split("\n")
    at = next((k for k, (a, b) in enumerate(zip(lines, right)) if a != b), None)
    is_refused = at is not None and (lines[at] == "refused 3 OutOfMemory" or lines[at:] == [""])
    if at is not None and not is_refused and not right[at].startswith(lines[at]):
        raise Finding(f"{what}: {lines[at]!r} and not {right[at]!r}")
    if done.returncode == 0 and at is None and out != wanted:
        raise Finding(f"{what}: status 0 with {out!r}")
    if done.returncode not in (0, 1, 2) and not (done.returncode == 127 and not out):
        raise Finding(f"{what}: status {done.returncode}, {err!r}")


def streams(path, wanted):
    """Closed and full streams."""
    for number, name in enumerate(("input", "output", "errors")):
        check(f"closed {name}", run_limited(path, [], closed(number)), wanted)
    with open("/dev/full", "wb") as full:
        done = run_limited(path, [], None, stdout=full)
    if done.returncode != 1 or b"output cannot be written" not in done.stderr:
        raise Finding(f"/dev/full: status {done.returncode}, {done.stderr!r}")
    with tempfile.TemporaryDirectory() as folder:
        with_folder = subprocess.run(["sh", "-c", 'exec "$0" <"$1"', path, folder], stdout=subprocess.PIPE,
                                     stderr=subprocess.PIPE)
    if with_folder.returncode != 1 or b"input cannot be read" not in with_folder.stderr:
        raise Finding(f"a folder as input: status {with_folder.returncode}, {with_folder.stderr!r}")
    return 5


def run(seconds, seed):
    path, clock, dice = program("ring_run", "RING_RUN"), Clock(seconds), random.Random(seed)
    wanted, runs = scenario.run(TEXT)[1], streams(path, scenario.run(TEXT)[1])
    runs += 1
    check("descriptors", run_limited(path, [], limited(resource.RLIMIT_NOFILE, 3)), wanted)
    while clock.runs():
        words = dice.choice(([], ["--ring", "1048576"], ["--counters", "4096"], ["--board", "1048576"]))
        memory, stack = dice.randint(16, 400) * MEBI, dice.choice((512, 1024, 8192)) * 1024
        done = run_limited(path, words, limited(resource.RLIMIT_AS, memory))
        check(f"{memory} bytes of memory, {words}", done, wanted)
        check(f"{stack} bytes of stack", run_limited(path, words, limited(resource.RLIMIT_STACK, stack)), wanted)
        threads = dice.randint(1, 8)
        try:
            check(f"{threads} threads", run_limited(path, words, as_nobody(threads)), wanted)
        except (PermissionError, subprocess.SubprocessError):
            runs -= 1  # (another user may not run the program here)
        runs += 3
    return f"{runs} runs under limits"
