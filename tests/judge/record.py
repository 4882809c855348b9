"""What is known of a crate's edits and attacks before they are tried: a sum of all that their verdicts depend on.

tests/refused.sums has a line `CRATE KIT SUM` for each crate whose edits and attacks were all refused by a kit, and a
folder of this machine has a file for each such crate and sum. Both are written by tests/wrong-bodies alone, after it
judged.
"""
import hashlib
import os
import re
import subprocess
import threading

from .builds import SOURCES, TOP
from .copies import PROOFS
from .edits import read, replaced
from .functions import functions_of
from .stored import ATTACKS, EDITS

RECORD = f"{TOP}/tests/refused.sums"
KEPT = os.path.join(os.environ.get("XDG_CACHE_HOME") or os.path.expanduser("~/.cache"), "felter-wrong-bodies")
HEADER = "# The crates whose wrong bodies were all refused, written by tests/wrong-bodies --record: CRATE KIT SUM\n"
# The scripts on which no verdict depends.
OTHERS = ("coverage.py", "mutants.py")
# How a crate begins.
NEW, SAMPLED, RECORDED, BY_THIS_MACHINE = "new", "sampled", "recorded", "kept on this machine"


def kit_version():
    return subprocess.run(["rt", "version"], stdout=subprocess.PIPE, check=True, text=True).stdout


def files_of(part):
    """Returns a file, or the files of a folder in a fixed order, or nothing if there is neither."""
    walked = sorted((at, sorted(names)) for at, _, names in os.walk(part) if not at.endswith("__pycache__"))
    return [part] if os.path.isfile(part) else [f"{at}/{it}" for at, names in walked for it in names]


def without_comments(path, text):
    """Returns a source, a definition or a proof without the lines that are comments, and another file as it is."""
    mark = {".rt": "//", ".antt": "--"}.get(os.path.splitext(path)[1])
    return re.sub(rf"^\s*{mark}.*\n", "", text, flags=re.M) if mark else text


def seen_above(path, text):
    """Returns what the crates above can see of a file: no body of a plain function, no comment, no private proof."""
    name, bodies, place = os.path.basename(path), [], 0
    if name in PROOFS:
        return ""
    if not name.endswith(".rt"):
        return without_comments(path, text)
    for it in functions_of("", "", text):
        is_constant = "const " in text[it.item : it.named].rpartition("\n")[2]
        # (a function within another goes with that)
        if it.is_copyable and not is_constant and it.begin >= place:
            bodies.append((it.begin, it.end, ""))
            place = it.end
    return without_comments(path, replaced(text, bodies))


def sum_of(crates, crate, version, text_of=read):
    """Returns a sum of all that the verdicts on a crate's edits and attacks depend on.

    Proofs are modular: of the crates below that is what they state, and no body or proof of a function. No verdict
    depends on a comment.
    """
    below = sorted(crates.all_below(crate))
    parts = [f"{TOP}/tests/wrong-bodies", f"{TOP}/tests/judge"]
    parts += [f"{TOP}/crates/{crate}/{it}" for it in (*SOURCES, EDITS, ATTACKS)]
    files = [it for part in parts for it in files_of(part) if os.path.basename(it) not in OTHERS]
    texts = [(it, without_comments(it, text_of(it))) for it in files]
    parts = [f"{TOP}/crates/{it}/{part}" for it in below if it != crate for part in SOURCES]
    texts += [(it, seen_above(it, text_of(it))) for part in parts for it in files_of(part)]
    total = hashlib.sha256(repr((version, [crates.lines[it] for it in below])).encode())
    for path, text in texts:
        total.update(repr((os.path.relpath(path, TOP), text)).encode() if text else b"")
    return total.hexdigest()


def is_in_sample(crate, commit):
    """Tests whether the sample of a commit has a crate. Each crate is in a tenth of all samples."""
    return int(hashlib.sha256(f"{commit} {crate}".encode()).hexdigest(), 16) % 10 == 0


class Record:
    """The sums of crates whose edits and attacks were all refused, as a commit holds them."""

    def __init__(self, path=RECORD):
        self.path, self.writing = path, threading.Lock()

    def sums(self):
        """Returns the sums by crate and kit. A crate has a sum for each kit that judged it."""
        text = read(self.path) if os.path.isfile(self.path) else ""
        return {(crate, kit): it for crate, kit, it in re.findall(r"^(\w+) (\S+) ([0-9a-f]{64})$", text, re.M)}

    def beginning(self, crate, total, commit=None):
        """Returns how a crate begins: recorded, or to be judged, in the sample of a commit if one is given.

        total: its sum, or None if less or more than its edits and attacks is to be tried.
        """
        # (a sum covers the kit too)
        if not total or total not in {it for (name, _), it in self.sums().items() if name == crate}:
            return NEW
        return SAMPLED if commit and is_in_sample(crate, commit) else RECORDED

    def add(self, crate, version, total, verdicts):
        """Records what a kit came to: a crate whose edits and attacks were all refused, with these verdicts.

        If one was not refused, the crate has no line of this kit afterwards. The lines of other kits stay.
        """
        kit = version.split()[0]
        with self.writing:
            sums = self.sums()
            sums.pop((crate, kit), None)
            if verdicts and set(verdicts) == {"refused"}:
                sums[crate, kit] = total
            with open(self.path, "w", encoding="utf-8") as it:
                it.writelines([HEADER, *(f"{' '.join(key)} {total}\n" for key, total in sorted(sums.items()))])


def kept_path(crate, total, has_copy):
    """Returns the file of this machine that says that all of a crate was refused, and that a copy was proved."""
    return f"{KEPT}/{crate}-{total}{'-with-copy' if has_copy else ''}"
