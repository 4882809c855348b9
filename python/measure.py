"""Measures a write and a read of 8 bytes, by the extension in C and by ctypes: python3 python/measure.py

Each figure is the time of a call in microseconds: the least of 2,000 rounds of 50 calls, with the loop around them.
"""

import os
import pathlib
import subprocess
import sys
import time


def least(rounds=2000, calls=50):
    import felter

    producer, consumer = felter.many_to_one(65536)
    writes, reads, body = [], [], b"8 bytes."
    for _ in range(rounds):
        began = time.perf_counter()
        for _ in range(calls):
            producer.write(7, body)
        wrote = time.perf_counter()
        for _ in range(calls):
            consumer.read()
        writes.append(wrote - began)
        reads.append(time.perf_counter() - wrote)
    return min(writes) / calls * 1e6, min(reads) / calls * 1e6


def main():
    if sys.argv[1:] == ["one"]:
        from felter import _library

        print("%-9s write %.2f, read %.2f" % ("extension" if _library.fast else "ctypes", *least()))
        return
    if sys.argv[1:]:
        print(__doc__.strip())
        sys.exit(0 if sys.argv[1:] in (["-h"], ["--help"]) else 2)
    here = pathlib.Path(__file__).resolve()
    for pure in "0", "1":
        environment = {**os.environ, "FELTER_PURE": pure, "PYTHONPATH": str(here.parent)}
        subprocess.run([sys.executable, "-B", str(here), "one"], env=environment, check=True)


main()
