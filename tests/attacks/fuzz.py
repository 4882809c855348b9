"""The random calls as a target of libFuzzer, with AddressSanitizer."""
import os
import re
import tempfile

from .calls import OPTIONS, SOURCES
from .shared import Finding, NotRun, compiled, library, run_program, tool


def run(seconds, seed):
    tool("clang")
    library()
    with tempfile.TemporaryDirectory() as folder:
        try:
            program = compiled(os.path.join(folder, "fuzz"), SOURCES, *OPTIONS, "-DFUZZ", "-fsanitize=fuzzer,address",
                               compiler="clang")
        except NotRun as why:
            raise NotRun(f"clang has no libFuzzer here ({str(why)[-80:].strip()})") from why
        done = run_program([program, f"-max_total_time={max(1, int(seconds) - 3)}", f"-seed={seed % 2**32}",
                            "-max_len=4096", "-len_control=0", f"-artifact_prefix={folder}/"], cwd=folder)
        said = done.stderr.decode(errors="replace")
        if done.returncode:
            raise Finding(f"the target ended with status {done.returncode}: {said[-1500:]}")
        found = re.search(r"Done (\d+) runs", said)
        return f"{found.group(1) if found else 'some'} inputs by libFuzzer"
