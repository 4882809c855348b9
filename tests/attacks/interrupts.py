"""Ctrl-C at any place of a program in Python."""
import os
import random
import signal
import subprocess
import sys
import tempfile
import time

from .shared import ATTACKS, TOP, Clock, Finding, NotRun, library


def said(errors):
    """The end of what went to standard error."""
    errors.seek(0)
    return errors.read().decode(errors="replace")[-700:].strip()


def run(seconds, seed):
    folder, dice = library(), random.Random(seed)
    if not os.path.exists(os.path.join(folder, "libfelter.so")):
        raise NotRun(f"there is no libfelter.so in {folder}")
    ways = {"by ctypes": "1"}
    if any(name.startswith("_fast.") for name in os.listdir(folder)):
        ways["by the extension"] = "0"
    return "; ".join(f"{way}: {interrupted(seconds / len(ways), dice, folder, pure)}" for way, pure in ways.items())


def interrupted(seconds, dice, folder, pure):
    """Interrupts a program of which each call goes one way."""
    environment = dict(os.environ, FELTER_DIR=folder, FELTER_PURE=pure, PYTHONPATH=os.path.join(TOP, "python"))
    words = [sys.executable, "-B", os.path.join(ATTACKS, "interrupted.py"), str(max(0.5, seconds - 1))]
    # (what Python says of a Ctrl-C in a destructor would fill a pipe)
    with tempfile.TemporaryFile() as errors, \
            subprocess.Popen(words, stdout=subprocess.PIPE, stderr=errors, env=environment) as child:
        if child.stdout.readline() != b"ready\n":
            child.wait()
            if "of another version" in said(errors):
                raise NotRun(f"the library in {folder} is not that of these sources")
            raise Finding(f"the program did not start: {said(errors)}")
        clock = Clock(seconds + 60)
        while child.poll() is None and clock.runs():
            time.sleep(dice.choice((0.0001, 0.0003, 0.001, 0.003)))
            if child.poll() is None:
                os.kill(child.pid, signal.SIGINT)
        if child.poll() is None:
            child.kill()
            raise Finding("the program did not end")
        out = child.stdout.read().decode().strip()
        if child.returncode:
            raise Finding(f"status {child.returncode}: {said(errors)}")
    return out
