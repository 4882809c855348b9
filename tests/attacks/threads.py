"""Programs in C whose threads meet in calls of the library, on 4, 2 and 1 processors.

`threads` frees what it holds under load, and `lanes` sends messages of all kinds through rings whose handles go from
thread to thread. `meetings` has the other calls that can meet: receivers with a transmitter, readers with the owner of
counters, adders with each other, clients with a conductor, and loads of positions, heartbeats and ids with writes and
reads.
"""
import os
import tempfile

from .shared import Finding, compiled, ended, run_program
from .uncalled import unmet

MEETINGS = ("meetings.c", "meetings_boards.c", "meetings_counters.c", "meetings_adders.c", "meetings_rings.c",
            "meetings_conductor.c", "meetings_callers.c", "meetings_fold.c", "model.c")
PROGRAMS = {"threads": ("threads.c",), "lanes": ("lanes.c",), "meetings": MEETINGS}


def processors_of(counts):
    """Sets of processors, of as many as there are."""
    mine = sorted(os.sched_getaffinity(0))
    return [set(mine[:count]) for count in counts if count <= len(mine)]


def run(seconds, seed):
    if unmet():
        raise Finding(f"no thread attack calls {', '.join(unmet())}")
    said, sets = [], processors_of((4, 2, 1))
    with tempfile.TemporaryDirectory() as folder:
        for name, sources in PROGRAMS.items():
            program = compiled(os.path.join(folder, name), sources, "-O1")
            for processors in sets:
                done = run_program([program, str(max(0.1, (seconds - 4) / len(sets) / len(PROGRAMS))), str(seed)],
                                   preexec_fn=lambda mine=processors: os.sched_setaffinity(0, mine))
                said.append(f"{name} on {len(processors)}: {ended(done, name)}")
    return "; ".join(said)
