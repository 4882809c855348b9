"""Runs checks in copies of the crates, so that nothing in the repository changes but what was built."""
import collections
import os
import re
import shutil
import signal
import subprocess
import sys
import tempfile
import threading
import time

from .builds import SOURCES, TOP, Built, Crates, keep, source_sum
from .copies import Trial
from .edits import Edit, grouped, read
from .log import Log

# What a check takes of the memory at most, in kB, with something to spare for those that run.
NEEDS = 4_000_000


def free_memory():
    return int(re.search(r"^MemAvailable:\s+(\d+)", read("/proc/meminfo"), re.M)[1])


class Run(Crates):
    """The crates, and what the checks of this run took.

    is_random: the edits were written at random, and many do not compile. Those that the front end names are bad.
    proofs: an rt ci that runs beside this, over whose libraries edits are tried. They get what it leaves of the
    processors.
    """

    def __init__(self, logs=None, is_random=False, proofs=None):
        super().__init__()
        self.logs, self.is_random, self.seconds = logs, is_random, collections.Counter()
        self.is_beside, self.built = bool(proofs), proofs or Built()
        self.starting, self.running, self.builds_left = {True: threading.Lock(), False: threading.Lock()}, 0, 0
        self.keeping = threading.Lock()

    def copy(self, trial, room):
        """Copies a crate and the work that was kept of it, and writes a trial into the copy. Returns its folder."""
        own = f"{room}/crates/{trial.crate}"
        for part in SOURCES:
            if os.path.isdir(f"{TOP}/crates/{trial.crate}/{part}"):
                shutil.copytree(f"{TOP}/crates/{trial.crate}/{part}", f"{own}/{part}")
        if os.path.isdir(self.built.work(trial.crate)):
            shutil.copytree(self.built.work(trial.crate), f"{own}/out/incremental")
        trial.put(own)
        return own

    def copy_to_build(self, crate, room):
        """Copies a crate with all below it, and what was built of those. Returns its folder."""
        for it in self.all_below(crate):
            for part in (*SOURCES, "out/incremental" if it == crate else "out/rlib"):
                if os.path.isdir(f"{TOP}/crates/{it}/{part}"):
                    shutil.copytree(f"{TOP}/crates/{it}/{part}", f"{room}/crates/{it}/{part}")
        with open(f"{room}/crates.txt", "w", encoding="utf-8") as it:
            it.writelines(self.lines[name] for name in sorted(self.all_below(crate)))
        return f"{room}/crates/{crate}"

    def wait_for_memory(self, is_build):
        """Returns once there is memory for one more check, or no other check of this run is left to wait for.

        A check of edits also leaves memory for a build, as long as one is to come.
        """
        with self.starting[is_build]:
            while self.running and free_memory() < NEEDS * (2 if self.builds_left and not is_build else 1):
                time.sleep(2)
            self.running += 1

    def build(self, crate):
        """Builds a library from its sources, in a copy, since rt holds a crate and all below it meanwhile."""
        self.wait_for_memory(is_build=True)
        try:
            with tempfile.TemporaryDirectory(prefix="wrong-bodies-") as room:
                total, own = source_sum(crate), self.copy_to_build(crate, room)
                log = self.timed(crate, ["rt", "lib", "--jobs", "1"], own, "build", "")
                if log.status:
                    sys.exit(f"{sys.argv[0]}: rt lib of {crate} ended with status {log.status}: {log.text[-600:]}")
                keep(crate, own, total)
        finally:
            self.running -= 1
            self.builds_left -= 1

    def check(self, trial, label):
        """Checks a crate with a trial written into it. The first check of a crate keeps its work for the others."""
        crate = trial.crate
        self.wait_for_memory(is_build=False)
        try:
            with tempfile.TemporaryDirectory(prefix="wrong-bodies-") as room:
                own, work = self.copy(trial, room), self.built.work(crate)
                only = [] if os.path.isdir(work) else trial.modules_alone(own)
                words = ["nice", "-n", "19"] if self.is_beside else []
                words += ["rattle", "check", *self.words(crate, self.built), "--incremental", "out/incremental"]
                words += [word for it in only for word in ("--only", it)]
                log = self.timed(crate, words, own, label, f"{len(trial.its)} tried, ")
                with self.keeping:
                    if not only and log.is_verdict and not os.path.isdir(work):
                        os.makedirs(os.path.dirname(work), exist_ok=True)
                        shutil.move(f"{own}/out/incremental", work)
        finally:
            self.running -= 1
        if not log.is_verdict and not re.search(r"\berror(\[|:)", log.text):
            sys.exit(f"{sys.argv[0]}: a check of {crate} ended with status {log.status}: {log.text[-600:]}")
        return log

    def timed(self, crate, words, own, label, what):
        """Runs a command in a copy of a crate, once more if it was killed, and prints the seconds that it took."""
        began, path = time.time(), f"{self.logs or os.path.dirname(os.path.dirname(own))}/{crate}-{label}"
        log, seconds = self.ran(crate, words, own, f"{path}.log")
        if log.status in (-signal.SIGKILL, 256 - signal.SIGKILL):
            # most likely for memory, which the others give back
            log, more = self.ran(crate, words, own, f"{path}-again.log")
            seconds += more
        self.seconds[crate] += seconds
        print(f"{crate}: {label}: {what}{seconds:.0f} s of processor, {time.time() - began:.0f} s", flush=True)
        return log

    def ran(self, crate, words, folder, path):
        """Runs rt in a folder. Returns what it said, and its seconds of processor."""
        with open(path, "w+", errors="replace", encoding="utf-8") as said:
            streams = {"stdin": subprocess.DEVNULL, "stdout": said, "stderr": subprocess.STDOUT}
            done = subprocess.Popen(words, cwd=folder, **streams)
            _, ended, used = os.wait4(done.pid, 0)
            said.seek(0)
            return Log(crate, said.read(), os.waitstatus_to_exitcode(ended)), used.ru_utime + used.ru_stime

    def judge(self, crate, its, label):
        """Settles these edits and attacks by as few checks as it takes."""
        trial = Trial(crate, its)
        log = self.check(trial, label)
        if len(its) == 1 and isinstance(its[0], Edit) and not trial.copies:
            its[0].settle(*log.verdict_alone(its[0]))
            return
        for number, part in enumerate(self.parts_left(trial, log, label)):
            self.judge(crate, part, f"{label}.{number}")

    def parts_left(self, trial, log, label):
        """Settles what a check decides, and returns the rest as it is tried next."""
        if not log.is_verdict:
            return self.parts_of_unread(trial, log)
        targets = [target for it in trial.its for target in trial.targets(it)]
        leaks = {*log.own} - {log.find(it) for it in targets}
        if leaks:
            why = f"{' '.join(sorted(leaks))}: {log.own[min(leaks)][0][:200]}"
            print(f"{trial.crate}: {label}: no edit changes what fails: {why}", flush=True)
            return halves(trial)
        again = {"undecided"} if self.is_random else {"undecided", "bad"}
        for it in trial.its:
            it.settle(*trial.verdict(it, log))
            if it in trial.copies and it.verdict in again:
                it.apart(has_others=any(other.keys() for other in trial.its))
        left = [it for it in trial.its if it.verdict in ("undecided", None)]
        same, rest = ([it for it in left if it.is_unchanged == is_same] for is_same in (True, False))
        # (the functions that they call are whole again, but for their own edits)
        is_smaller = len(left) < len(trial.its) or trial.copies
        return [*([same] if same else []), *(grouped(rest) if is_smaller else [[it] for it in rest])]

    def parts_of_unread(self, trial, log):
        """Returns the parts of a trial that the front end refuses: apart what it names, if it names any."""
        lines = log.lines_refused()
        named = [it for it in trial.its if any(trial.has_line(it, *line) for line in lines)]
        others = [it for it in trial.its if it not in named]
        if not named or not others and len(named) > 1 and not self.is_random:
            return halves(trial)
        for it in named:
            it.apart()
            if self.is_random:
                it.settle("bad", "it does not compile")
        return [*([it] for it in named if not it.verdict), *([others] if others else [])]


def halves(trial):
    """Returns both halves of a trial, or what it has alone, in its place if that was a copy."""
    if len(trial.its) > 1:
        return [trial.its[::2], trial.its[1::2]]
    alone = trial.its[0]
    if trial.copies:
        alone.apart()
    else:
        alone.settle("undecided", "its check gives no verdict")
    return [] if alone.verdict else [trial.its]
