"""When a measurement counts: only if each processor that it uses ran at full speed just before and just after it, and
only in a round in which other programs used little. What does not count is repeated."""
import os
import subprocess

MARGIN = 0.1  # by how much of the best time of an add a processor at full speed may be slower
LOWER = 1.3  # how many times slower processors at full speed may be if more of them run at once
OTHERS = 0.25  # processors that other programs may use during a round
TRIES = 10000  # how often a measurement or a slice of one is tried at most
REST = 0.003  # seconds until a slow processor is asked again
LEARN = 3  # seconds in which the best time of an add is looked for at first


class Speed:
    """The program speed.c, which says how fast processors run."""

    def __init__(self, program):
        self.child = subprocess.Popen([program], stdin=subprocess.PIPE, stdout=subprocess.PIPE, text=True, bufsize=1)

    def ask(self, word, processors):
        print(word, *processors, file=self.child.stdin, flush=True)
        figures = []
        for line in iter(self.child.stdout.readline, "end\n"):
            if not line or line.startswith("error"):
                raise OSError(f"{word} {processors}: {line.strip() or 'the program speed has ended'}")
            figures.append(float(line))
        return figures

    def adds(self, processors):
        """The nanoseconds of an add on each of these processors, while all of them run."""
        return self.ask("adds", processors)

    def one_way(self, one, other):
        """The nanoseconds that a word takes from one processor to the other."""
        return self.ask("pass", (one, other))[0]

    def stop(self):
        self.child.kill()
        self.child.wait()


class Gate:
    """Repeats what does not count, until the seconds that this may take in all are used up.

    `look` returns the nanoseconds of an add on each of some processors, `clock` the time in seconds, and `pause` waits
    for some seconds. Without `look` all counts. The best time of an add is kept for each number of processors that run
    at once, since a processor may have a lower frequency while others run too."""

    def __init__(self, look, clock, pause, margin=MARGIN, others=OTHERS, tries=TRIES):
        self.look, self.clock, self.pause = look, clock, pause
        self.margin, self.others, self.tries = margin, others, tries
        self.best = {}
        self.start(0)

    def start(self, patience):
        """Begins a set, in which repeating may take this many seconds. The best time stays known."""
        self.patience, self.repeated = patience, 0

    def learn(self, processors):
        """Looks for the best time of an add on each of these processors, before anything is measured."""
        began = self.clock()
        while self.look and self.clock() - began < LEARN:
            for processor in processors:
                self.slowest((processor,))

    def slowest(self, processors):
        """The time of an add on the slowest of these processors. It may show a better best time."""
        states, count = self.look(processors), len(processors)
        self.best[count] = min(self.best.get(count, states[0]), *states)
        return max(states)

    def is_full(self, nanos, count):
        """Whether a processor with this time of an add, one of this many, ran at full speed, as far as is known."""
        best = min(self.best[count], LOWER * min(self.best.values()))
        return nanos <= best * (1 + self.margin)

    def is_quiet(self, others):
        return not self.look or others <= self.others

    def may_repeat(self, began):
        """Counts a try that did not count and took the time since `began`: whether there may be another one."""
        self.repeated += 1
        self.patience -= self.clock() - began
        return self.patience > 0

    def measure(self, processors, call):
        """What a call returns, and the slowest time of an add before and after it; None if no try counts."""
        if not self.look:
            return call(), None
        count = len(processors)
        for _ in range(self.tries):
            began = self.clock()
            slowest = self.slowest(processors)
            if self.is_full(slowest, count):
                value = call()
                slowest = max(slowest, self.slowest(processors))
                if self.is_full(slowest, count):
                    return value, slowest
            else:
                self.pause(REST)
            if not self.may_repeat(began):
                break
        return None


def pin(pid, processors):
    """Lets all threads of a process run on these processors alone, and the threads that they start."""
    for thread in os.listdir(f"/proc/{pid}/task"):
        try:
            os.sched_setaffinity(int(thread), processors)
        except ProcessLookupError:  # (it has ended since)
            pass
