"""Which check runs when: each after those that it waits for, and several at once."""
import concurrent.futures
import os
import time

from .builds import is_built, seconds_of
from .edits import grouped


def tasks_of(run, crate, its, judge):
    """Returns a task for each group of edits of a crate that is to be tried, by a call of judge.

    A task is the keys that it waits for, its seconds as far as they are known, a function and its arguments.
    """
    tasks, has_work = {}, os.path.isdir(run.built.work(crate))
    for number, group in enumerate(grouped(its)):
        # (what other functions can see is proved again with all that sees it, and the first check keeps its work)
        is_first = number == 0 and not has_work
        seconds = 30 + 3 * len(group) + (seconds_of(crate) if is_first or group[0].is_shared else 0)
        waits = [(it, "build") for it in sorted(run.all_below(crate) - {crate})]
        waits += [(crate, 0)] if number and not has_work else []
        tasks[crate, number] = waits, seconds, judge, crate, group, str(number)
    return tasks


def builds(run, crates):
    """Returns a task for each library below these crates that builds it, if it is not built."""
    tasks = {}
    for crate in {below for it in crates for below in run.all_below(it) - {it}}:
        stands = is_built(crate)
        run.builds_left += not stands
        call = (lambda: None,) if stands else (run.build, crate)
        waits = [(it, "build") for it in run.deps(crate)]
        tasks[crate, "build"] = waits, 0 if stands else seconds_of(crate), *call
    return tasks


def in_turn(tasks, jobs, proofs=None):
    """Makes the calls of tasks, up to `jobs` at once, and first those that the most waits for.

    proofs: they build the libraries, beside this run. Returns the keys of the tasks that could not begin, since a
    library below was not proved.
    """
    def after(key):
        return tasks[key][1] + max((after(it) for it in tasks if key in tasks[it][0]), default=0)

    left, running, ended = sorted(tasks, key=after, reverse=True), {}, set()
    with concurrent.futures.ThreadPoolExecutor(jobs) as pool:
        while left or running or proofs:
            # (asked first: what they proved last is taken after that)
            have_ended = not proofs or proofs.has_ended()
            ended.update((it, "build") for it in (proofs.take() if proofs else ()))
            # (what takes no time goes first: so the verdicts of a crate are printed and kept as soon as it ends)
            ready = [it for it in left if ended.issuperset(tasks[it][0])]
            for key in sorted(ready, key=lambda it: tasks[it][1] > 0)[: jobs - len(running)]:
                left.remove(key)
                running[pool.submit(*tasks[key][2:])] = key
            if not running and have_ended:
                return left
            if not running:
                time.sleep(1)
            for it in concurrent.futures.wait(running, 1 if proofs else None, concurrent.futures.FIRST_COMPLETED).done:
                it.result()
                ended.add(running.pop(it))
    return left
