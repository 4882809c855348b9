"""What the attacks share: where programs and the library are, and how an attack ends."""
import os
import shutil
import subprocess
import time

TESTS = os.path.dirname(os.path.dirname(os.path.realpath(__file__)))
TOP = os.path.dirname(TESTS)
ATTACKS = os.path.join(TESTS, "attacks")


class NotRun(Exception):
    """The attack lacks something."""


class Finding(Exception):
    """The attack found something; the text says what."""


def program(name, variable):
    """A built program, or the one that a variable names."""
    path = os.environ.get(variable) or os.path.join(TOP, "crates", name, "out", name)
    if not os.access(path, os.X_OK):
        raise NotRun(f"{name} is not built, and {variable} names no other (./build {name})")
    return path


def library():
    """The folder of libfelter.a and felter.h."""
    folder = os.path.abspath(os.environ.get("FELTER") or os.path.join(TOP, "c", "out"))
    if not os.path.exists(os.path.join(folder, "libfelter.a")):
        raise NotRun("the C library is not built, and FELTER names no other folder (c/build)")
    return folder


def tool(name):
    """Where a tool is."""
    found = shutil.which(name)
    if not found:
        raise NotRun(f"there is no {name}")
    return found


def compiled(to, sources, *options, compiler="cc"):
    """Compiles files of this folder, and objects, with the library, and returns the program."""
    folder = library()
    words = [tool(compiler), "-std=gnu11", "-g", "-Wall", "-Wextra", "-pthread", f"-I{folder}", "-o", to]
    words += [*(os.path.join(ATTACKS, it) for it in sources), *options]
    words += [] if "-c" in options or "-r" in options else [os.path.join(folder, "libfelter.a")]
    done = subprocess.run(words, stdout=subprocess.PIPE, stderr=subprocess.STDOUT)
    if done.returncode:
        raise NotRun(f"{sources[0]} cannot be compiled: {done.stdout.decode()[-600:]}")
    return to


def run_program(words, **options):
    """Runs a program, and keeps what it says."""
    return subprocess.run(words, stdout=subprocess.PIPE, stderr=subprocess.PIPE, **options)


def ended(done, what):
    """The output of a program of this folder, whose status is 0 unless it found something."""
    if done.returncode:
        said = (done.stderr or b"").decode(errors="replace")[-1500:]
        raise Finding(f"{what} ended with status {done.returncode}: {said}")
    return done.stdout.decode().strip()


class Clock:
    """Whether the time of an attack is over."""

    def __init__(self, seconds):
        self.end = time.monotonic() + seconds

    def left(self):
        return max(0.0, self.end - time.monotonic())

    def runs(self):
        return time.monotonic() < self.end
