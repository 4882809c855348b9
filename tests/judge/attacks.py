"""An attack on a definition: a lemma that makes an instance of a record by trivial choices. None may be proved."""
import os
import re

from .log import LIMIT

# A message that names what is not there, or says that the text cannot be read: it tells nothing of the record.
UNREAD = re.compile(
    r"has no field|is not in scope|has no `|was not found|is no name|operand is missing|expected the end|"
    r"cannot continue|unsolved|was not determined|cannot infer"
)
ERROR = r"^(?:\./)?proofs/%s\.antt:(\d+):\d+: error: (.*(?:\n .*)*)"


class Attack:
    """The text of a proof file whose lemma `attack` ends in a record, and the field of it that has no proof."""

    changes = additions = spans = targets = ()  # it changes no file of the crate
    is_shared = is_unchanged = False

    def __init__(self, crate, name, text):
        self.crate, self.name, self.text = crate, name, text
        self.verdict, self.why = None, ""
        self.record, self.field = self.head("record"), self.head("fails")
        type_is = re.search(r"^pub attack : ((?:.*\n)+?)^attack\b", text, re.M)
        if not self.record or not type_is or not re.search(rf"\b{self.record}\b", type_is[1]):
            self.settle("bad", f"it has no lemma `attack` of the record {self.record}")
        elif self.field and len(self.lines_of_field()) == 0:
            self.settle("bad", f"its record has no field {self.field}, or several")

    def head(self, word):
        found = re.search(rf"^{word}: (\w+)$", self.text, re.M)
        return found and found[1]

    def settle(self, verdict, why):
        self.verdict, self.why = verdict, why

    def is_copied(self):
        return False

    def keys(self):
        return set()

    def module(self):
        return f"attack_{self.name}"

    def source(self):
        """Returns the proof file: the text with its head as comments, so that the lines stay."""
        return re.sub(r"^(record|fails|verdict): ", r"-- \1: ", self.text, flags=re.M)

    def lines_of_field(self):
        """Returns the lines of the field that has no proof: from its name up to the next one, or the end."""
        lines = self.text.split("\n")
        begins = [at for at, line in enumerate(lines) if re.match(rf"  {self.field} =", line)]
        if len(begins) != 1:
            return range(0)
        ends = (at for at in range(begins[0] + 1, len(lines)) if re.match(r"  \w+ =|\}|$", lines[at]))
        return range(begins[0] + 1, next(ends) + 1)

    def verdict_of(self, log):
        """Returns the verdict by a check in which this proof file was, and why."""
        errors = [(int(line), said) for line, said in re.findall(ERROR % self.module(), log.text, re.M)]
        firsts = [said.split("\n")[0] for _line, said in errors]
        for (line, said), first in zip(errors, firsts):
            if not re.match(r"(in )?`attack`", said) or UNREAD.search(re.sub(r"`[^`]*`", "", first)):
                return "bad", f"line {line}: {first}"
            if LIMIT.search(said):
                return "bad", f"line {line}, only by a limit of the prover: {first}"
            if self.field and line not in self.lines_of_field():
                return "bad", f"line {line}, and not at the field {self.field}: {first}"
        if errors:
            return "refused", f"{self.record}.{self.field or 'attack'}: {firsts[0][:180]}"
        if not log.is_verdict:
            return "undecided", "the check gives no verdict"
        return "ACCEPTED", f"an instance of {self.record} is proved"


def put_attacks(folder, attacks):
    """Adds the proof files of these attacks to a copy of the crate."""
    if not attacks:
        return
    os.makedirs(f"{folder}/proofs", exist_ok=True)
    for it in attacks:
        with open(f"{folder}/proofs/{it.module()}.antt", "w", encoding="utf-8") as file:
            file.write(it.source())
    with open(f"{folder}/proofs/Lib.antt", "a", encoding="utf-8") as file:
        file.writelines(f"pub mod {it.module()}\n" for it in attacks)
