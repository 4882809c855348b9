"""Random calls of the C library against a model in C."""
import os
import tempfile

from .shared import Finding, compiled, ended, run_program
from .uncalled import uncalled

SOURCES = ("calls.c", "calls_rings.c", "calls_reads.c", "calls_recovered.c", "calls_boards.c", "calls_counters.c",
           "calls_adders.c", "calls_conductor.c", "calls_conducted.c", "calls_memory.c", "model.c")
WRAPPED = ("malloc", "calloc", "realloc", "aligned_alloc", "posix_memalign", "free")
OPTIONS = ("-O1", "-Wno-misleading-indentation", *(f"-Wl,--wrap={it}" for it in WRAPPED))


def run(seconds, seed):
    if uncalled():
        raise Finding(f"no random call is one of {', '.join(uncalled())}")
    with tempfile.TemporaryDirectory() as folder:
        program = compiled(os.path.join(folder, "calls"), SOURCES, *OPTIONS)
        return ended(run_program([program, str(max(0.1, seconds - 2)), str(seed)]), "calls")
