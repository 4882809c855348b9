"""What a check said of each function, and the verdict on an edit of it."""
import collections
import re

GOAL = re.compile(r"note: (src/\S+ .*\(`[^`]*`\).*)")
ERROR = re.compile(r"(?:\./)?proofs/(\S+)/\w+\.antt:(\d+:\d+: error: .*)")
ITEM = re.compile(r"(?:fn|impl|struct|enum|trait) (\S+): (.*)")
# A proof file names what the edit took away.
GONE = re.compile(r"has no field|is not in scope|has no `|was not found")
# What a message names goes on in its next line, if the message is long.
NEXT_LINE = re.compile(r"\n {2}(?=has no |is not in scope|was not found)")
# Something depends on a declaration that was refused.
FOLLOWS = re.compile(r"declarations? that depends? on `|was not admitted")
# A name that is declared in a copy's answers and has no definition. An answer that is refused keeps a check, which has
# tried all goals, from a search for what it can offer to whoever proves the function, which takes as long again.
MARK = "never_defined"
LIMIT = re.compile(r"antt ran out of|outgrew the memory limit|stopped at the step limit")


class Log:
    """The output of a check, by function: its status, the goals of its own that failed, and names that are gone."""

    def __init__(self, crate, text, status):
        text = NEXT_LINE.sub(" ", text)
        self.text, self.status, self.functions = text, status, {}
        self.own, self.gone = collections.defaultdict(list), collections.defaultdict(list)
        self.is_verdict = status == 3 or bool(re.search(r"^(logic=(not-)?proved|only=\d+ proved=)", text, re.M))
        errors = self.read_lines(text)
        names = {it.removeprefix(f"{crate}::").replace("::", "/"): it for it in self.functions}
        marked = {names[path] for path, said in errors if path in names and f"`{MARK}`" in said}
        for path, said in errors:
            if path in names and f"`{MARK}`" not in said:
                (self.gone if GONE.search(said) else self.own)[names[path]].append(said)
        self.join_closures()
        self.own, self.gone = ({name: said for name, said in kept.items() if said} for kept in (self.own, self.gone))
        for name in marked - {*self.own, *self.gone}:
            # (nothing else kept it from being proved)
            self.functions[name] = self.functions[name].replace("not proved", "proved, but for the mark")

    def read_lines(self, text):
        """Sorts the goals that failed by function, and returns the errors in proof files."""
        goals, errors = [], []
        for line in text.split("\n"):
            if goal := GOAL.match(line):
                goals.append(goal[1])
            elif error := ERROR.match(line):
                errors += [error.groups()] if not FOLLOWS.search(error[2]) else []
            elif item := ITEM.match(line):
                # (goals are printed right above their function)
                if line.startswith("fn "):
                    self.functions[item[1]] = item[2]
                    self.own[item[1]] += goals or [item[2]] * ("did not prove `" in item[2])
                goals = []
        return errors

    def join_closures(self):
        """Counts a closure, which a check names `M::fn::F::CLOSURE`, as part of `M::F`."""
        for name in [it for it in self.functions if "::fn::" in it]:
            plain = name.replace("::fn::", "::", 1)
            of = max((it for it in self.functions if plain.startswith(f"{it}::")), key=len, default=name)
            for kept in (self.own, self.gone):
                kept[of] += kept.pop(name, [])

    def lines_refused(self):
        """Returns the lines that the front end refuses, each with its file."""
        return {(file, int(line)) for file, line in re.findall(r"\b(src/\S+?):(\d+):\d+: error", self.text)}

    def find(self, target):
        """Returns the check's name of a function, or None if the check does not name exactly one."""
        found = target.among(self.functions)
        return found[0] if len(found) == 1 else None

    def verdict(self, targets):
        """Returns the verdict on an edit by the functions that it changes, and why."""
        found = [self.find(it) for it in targets]
        for name in found:
            if name in self.own:
                also = "; its proof file also names what is gone" if name in self.gone else ""
                return "refused", f"{name}: {self.own[name][0][:180]}{also}"
        if None in found or not found:
            return "undecided", "the check does not name its function"
        if all(self.functions[it].startswith("proved") for it in found):
            return "ACCEPTED", f"{' '.join(found)}: proved"
        gone = [said for name in found for said in self.gone.get(name, ())]
        if gone:
            return "bad", f"only a proof file names what is gone: {gone[0]}"
        return "undecided", f"{found[0]}: {self.functions[found[0]]}"

    def verdict_alone(self, edit):
        """Returns the verdict on an edit that was tried alone: a goal of any function counts."""
        verdict, why = self.verdict(edit.targets)
        if not self.is_verdict:
            return "bad", "; ".join(["it does not compile", *re.findall(r"^.*error(?:\[|:).*", self.text, re.M)[:1]])
        if self.status == 0:
            return "ACCEPTED", "the crate is proved"
        if verdict != "undecided":
            return verdict, why
        if self.own:
            return "refused", f"by {min(self.own)}: {self.own[min(self.own)][0]}"
        if self.status == 3 and LIMIT.search(self.text):
            return "refused", "only by a limit of the prover"
        errors = [it for it in re.findall(r"^.*\.antt:\d+:\d+: error.*", self.text, re.M) if not GONE.search(it)]
        return ("refused", f"by no function: {errors[0]}") if errors else ("bad", f"only names are gone: {why}")
