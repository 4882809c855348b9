"""Storms of which single threads are stopped and let on again, on 4, 2 and 1 processors."""
import ctypes
import os
import random
import subprocess
import time

from model import scenario

from .shared import Clock, Finding, NotRun, program
from .threads import processors_of

SEIZE, INTERRUPT, CONTINUE = 0x4206, 0x4207, 7
ALL_THREADS = 0x40000000  # __WALL
SECONDS = 120
SIZES = ((1, 3000), (2, 2000), (4, 1000), (16, 100), (64, 30))
LIBC = ctypes.CDLL(None, use_errno=True)
LIBC.ptrace.restype = ctypes.c_long
LIBC.ptrace.argtypes = [ctypes.c_long, ctypes.c_long, ctypes.c_void_p, ctypes.c_void_p]


def trace(request, thread):
    """Whether the thread was there."""
    return LIBC.ptrace(request, thread, None, None) == 0


def has_ended(child):
    """Whether it ended; its status stays for later (a stop of its first thread is no end)."""
    return os.waitid(os.P_PID, child.pid, os.WEXITED | os.WNOHANG | os.WNOWAIT) is not None


def stop(thread):
    """Whether the thread stopped."""
    if not trace(INTERRUPT, thread):
        return False
    try:
        _, status = os.waitpid(thread, ALL_THREADS)
    except ChildProcessError:
        return False
    return os.WIFSTOPPED(status)


def disturb(child, dice):
    """Stops one thread, or some at once, over and over until the storm is over: how often."""
    seized, stops, end = set(), 0, time.monotonic() + SECONDS
    while not has_ended(child):
        if time.monotonic() > end:
            raise Finding(f"a storm did not end in {SECONDS} s")
        try:
            threads = [int(name) for name in os.listdir(f"/proc/{child.pid}/task")]
        except FileNotFoundError:
            break
        for thread in threads:
            if thread not in seized and trace(SEIZE, thread):
                seized.add(thread)
        chosen = [thread for thread in dice.sample(threads, min(len(threads), dice.choice((1, 1, 1, 2, 3))))
                  if thread in seized and thread != child.pid]
        stopped = [thread for thread in chosen if stop(thread)]
        stops += len(stopped)
        time.sleep(dice.choice((0, 0, 0.00005, 0.0002, 0.002)))
        for thread in stopped:
            trace(CONTINUE, thread)
    return stops


def storm(path, dice, processors, turn):
    """One storm: how many commands, and how many stops."""
    clients, commands = SIZES[turn % len(SIZES)]
    ring = dice.choice((256, 512, 4096))
    text = f"storm {clients} {commands}\nend\n".encode()
    with subprocess.Popen([path, "--commands", str(ring)], stdin=subprocess.PIPE, stdout=subprocess.PIPE,
                          stderr=subprocess.PIPE, preexec_fn=lambda: os.sched_setaffinity(0, processors)) as child:
        try:
            child.stdin.write(text)
            child.stdin.close()
            stops = disturb(child, dice)
            out, err = child.stdout.read().decode(), child.stderr.read().decode()
            status = child.wait()
        finally:
            if child.returncode is None:
                child.kill()
    if (status, out, err) != scenario.run(text, commands=ring):
        raise Finding(f"{clients} clients, {commands} commands, a ring of {ring}, {len(processors)} processors: "
                      f"status {status}, {out!r} {err!r}")
    return clients * commands, stops


def run(seconds, seed):
    path, clock, dice = program("ring_run", "RING_RUN"), Clock(seconds), random.Random(seed)
    if os.uname().sysname != "Linux":
        raise NotRun("threads are stopped by the ptrace of Linux")
    sets, storms, commands, stops, turn = processors_of((4, 2, 1)), 0, 0, 0, 0
    while clock.runs():
        for processors in sets:
            more = storm(path, dice, processors, turn)
            storms, commands, stops = storms + 1, commands + more[0], stops + more[1]
        turn += 1
    if stops == 0:
        raise NotRun("no thread could be stopped (ptrace is not allowed)")
    return f"{storms} storms of {commands} commands, on up to {len(sets[0])} processors, under {stops} stops"
