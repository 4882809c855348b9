"""Records that are false, old or not there, and whether each is noticed."""
import os
import tempfile

from .builds import TOP
from .copies import PROOFS
from .edits import read
from .functions import functions_of
from .record import NEW, RECORDED, SAMPLED, Record, files_of, is_in_sample, sum_of
from .stored import EDITS

COMMITS = [f"{it:040x}" for it in range(1000)]


def begin_of_plain(text):
    """Returns where the body of a source's first plain function begins, or None if it has none."""
    return next((it.begin for it in functions_of("", "", text) if it.is_copyable), None)


def has_plain_function(path):
    return begin_of_plain(read(path)) is not None


def in_a_body(text):
    """Returns a source with a statement more in its first plain function."""
    place = begin_of_plain(text)
    return f"{text[:place]}    let _ = 0;\n{text[place:]}"


def in_a_contract(text):
    """Returns a source with another clause at its first plain function."""
    place = text.rindex("\n", 0, begin_of_plain(text) - 1)
    return f"{text[:place]}\n    ensures more {{ ⊤ }}{text[place:]}"


def changes_in(crates, crate):
    """Returns changes of a crate or the lowest one below it: a file, what is made of its text, how the crate begins."""
    lowest = min(crates.all_below(crate), key=lambda it: len(crates.all_below(it)))
    source = {it: next(filter(has_plain_function, files_of(f"{TOP}/crates/{it}/src"))) for it in (crate, lowest)}
    changes = {
        "other edits": (f"{TOP}/crates/{crate}/{EDITS}", lambda text: text + "\n", NEW),
        "another judge": (f"{TOP}/tests/judge/log.py", lambda text: text + "\n", NEW),
        "another body": (source[crate], in_a_body, NEW),
        "another comment": (source[crate], lambda text: f"// More.\n{text}", RECORDED),
        "another contract below": (source[lowest], in_a_contract, NEW),
    }
    if lowest != crate:
        proofs = files_of(f"{TOP}/crates/{lowest}/proofs")
        lemmas = next(it for it in proofs if os.path.basename(it) not in PROOFS)
        private = next(it for it in proofs if os.path.basename(it) in PROOFS)
        changes.update({
            "another lemma below": (lemmas, lambda text: text + "\n", NEW),
            "another body below": (source[lowest], in_a_body, RECORDED),
            "another comment below": (source[lowest], lambda text: f"// More.\n{text}", RECORDED),
            "another comment of a lemma below": (lemmas, lambda text: f"-- More.\n{text}", RECORDED),
            "another proof of a function below": (private, lambda text: text + "\n", RECORDED),
        })
    return changes


def planted_records(crates, crate, version):
    """Tries records of a crate. Returns what each of them is, how the crate has to begin by it, and how it begins."""
    right, kit = sum_of(crates, crate, version), version.split()[0]
    inside = next(it for it in COMMITS if is_in_sample(crate, it))
    outside = next(it for it in COMMITS if not is_in_sample(crate, it))
    other = sum_of(crates, crate, f"{kit}x")
    records = {
        "none": ("", NEW),
        "a line without a sum": (f"{crate} {kit}\n", NEW),
        "a line without a kit": (f"{crate} {right}\n", NEW),
        "another digit": (f"{crate} {kit} {right[:-1]}{'0' if right[-1] != '0' else '1'}\n", NEW),
        "the sum of another crate's name": (f"{crate}_tests {kit} {right}\n", NEW),
        "another kit": (f"{crate} {kit} {other}\n", NEW),
        "two kits": (f"{crate} {kit}x {other}\n{crate} {kit} {right}\n", RECORDED),
    }
    for name, (path, change, wanted) in changes_in(crates, crate).items():
        old = sum_of(crates, crate, version, lambda it: change(read(it)) if it == path else read(it))
        records[name] = f"{crate} {kit} {old}\n", wanted
    with tempfile.TemporaryDirectory(prefix="wrong-bodies-") as room:
        record = Record(f"{room}/sums")
        tried = [("no file", NEW, record.beginning(crate, right, outside))]
        tried.append(("no file and no sum", NEW, record.beginning(crate, None, outside)))
        for name, (text, wanted) in records.items():
            with open(record.path, "w", encoding="utf-8") as it:
                it.write(text)
            tried.append((name, wanted, record.beginning(crate, right, outside)))
        record.add(crate, f"{kit}x", other, ["refused"])
        record.add(crate, version, right, ["refused", "refused"])
        tried.append(("written after all were refused", RECORDED, record.beginning(crate, right, outside)))
        tried.append(("a sample of it", SAMPLED, record.beginning(crate, right, inside)))
        for verdicts in (["refused", "ACCEPTED"], ["bad"], ["undecided", "refused"], []):
            record.add(crate, version, right, ["refused"])
            record.add(crate, version, right, verdicts)
            tried.append((f"written after {verdicts}", NEW, record.beginning(crate, right, outside)))
        tried.append(("what another kit came to", RECORDED, record.beginning(crate, other, outside)))
    share = sum(is_in_sample(crate, it) for it in COMMITS) / len(COMMITS)
    return [*tried, ("samples have about a tenth", True, 0.07 < share < 0.13)]
