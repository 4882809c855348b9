"""The crates, and what a check of one begins with: the libraries below it, and the work that an earlier check kept."""
import os
import re
import shutil
import subprocess

from .edits import read

TOP = os.path.dirname(os.path.dirname(os.path.dirname(os.path.realpath(__file__))))
SOURCES = ("src", "specs", "proofs")


def kit():
    """Returns the folder of the kit."""
    return os.path.dirname(os.path.dirname(os.path.realpath(shutil.which("rt"))))


class Crates:
    """The crates of crates.txt."""

    def __init__(self):
        rows = [line for line in read(f"{TOP}/crates.txt").splitlines(True) if re.match(r"\w", line)]
        self.lines = {re.match(r"\w+", line)[0]: line for line in rows}

    def libraries(self, crate):
        """Returns the libraries that the line of a crate names, also those of the kit."""
        return self.lines[crate].partition(":")[2].split()

    def deps(self, crate):
        return [it for it in self.libraries(crate) if it in self.lines]

    def all_below(self, crate):
        """Returns the crate and all that it depends on."""
        return {crate, *(it for dep in self.deps(crate) for it in self.all_below(dep))}

    def words(self, crate, built):
        """Returns the words that tell the prover what a crate is, and which libraries it depends on."""
        root = "src/main.rt" if os.path.isfile(f"{TOP}/crates/{crate}/src/main.rt") else "src/lib.rt"
        words = ["--crate-name", crate, root, "-L", f"dependency={kit()}/rlibs"]
        for it in ("std", *self.libraries(crate)):
            words += ["--extern", f"{it}={built.library(it) if it in self.lines else f'{kit()}/rlibs/{it}.rlib'}"]
        for it in sorted(self.all_below(crate) - {crate}):
            words += ["-L", f"dependency={os.path.dirname(built.library(it))}"]
        if " staticlib" in self.lines[crate].partition(":")[0]:
            words += ["--crate-type", "staticlib"]
        words += ["--antt-project", f"{kit()}/rattle/logic/antt-project.json", "--logic-built", f"{kit()}/logic_built"]
        return [*words, "--jobs", "1"]


class Built:
    """What the repository has in out/: libraries that rt lib built, and the work that checks kept."""

    def library(self, crate):
        return f"{TOP}/crates/{crate}/out/rlib/{crate}.rlib"

    def work(self, crate):
        return f"{TOP}/crates/{crate}/out/incremental"


class Proofs:
    """What an rt ci beside this run builds, taken as soon as it has proved a crate.

    That empties each out/ when it begins and may put back what was there when it ends, so each library gets a second
    name in a folder. log: the file that has what rt ci prints; log.end is there once it has ended.
    """

    def __init__(self, log, folder):
        self.log, self.folder, self.taken = log, folder, set()
        os.makedirs(folder, exist_ok=True)

    def library(self, crate):
        return f"{self.folder}/{crate}.rlib"

    def work(self, crate):
        return f"{self.folder}/{crate}.incremental"

    def has_ended(self):
        return os.path.exists(f"{self.log}.end")

    def take(self):
        """Takes what was proved since the last call, and returns the crates that were proved so far."""
        said = read(self.log) if os.path.isfile(self.log) else ""
        for crate in {*re.findall(r"^rt: (\w+) (?:proved$|is kept: )", said, re.M)} - self.taken:
            if os.path.isdir(Built().library(crate)):
                shutil.copytree(Built().library(crate), self.library(crate), copy_function=link_or_copy)
            self.taken.add(crate)
        return self.taken


def link_or_copy(one, other):
    """Gives a file of a library a second name: rt removes such a file before it makes it again."""
    try:
        os.link(one, other)
    except OSError:
        shutil.copyfile(one, other)


def is_built(crate):
    """Tests whether ./build or this script built a crate from its sources as they are."""
    return subprocess.run([f"{TOP}/build", "--stands", crate], stdout=subprocess.DEVNULL, check=False).returncode == 0


def source_sum(crate):
    """Returns the checksum by which ./build knows that a crate is built from its sources."""
    return subprocess.run([f"{TOP}/build", "--sum", crate], stdout=subprocess.PIPE, check=True, text=True).stdout


def keep(crate, own, total):
    """Moves what a build made of sources with this checksum into the repository's out/."""
    for it in ("incremental", "rlib"):
        made, to = f"{own}/out/{it}", f"{TOP}/crates/{crate}/out/{it}"
        if os.path.exists(made):
            os.makedirs(os.path.dirname(to), exist_ok=True)
            shutil.rmtree(to, ignore_errors=True)
            shutil.move(made, to)
    with open(f"{TOP}/crates/{crate}/out/built_from", "w", encoding="utf-8") as it:
        it.write(total)


def seconds_of(crate):
    """Returns about how long a check of a crate from nothing takes, by the length of its sources."""
    files = [f"{at}/{it}" for at, _, names in os.walk(f"{TOP}/crates/{crate}/src") for it in names]
    return sum(len(read(it)) for it in files) / 300
