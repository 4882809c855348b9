"""What tests/show has of running programs: those of show.c, and others that have nothing."""
import json
import os
import re
import shutil
import subprocess
import time

from shown import TOP, Checks, prometheus_fault


class Live(Checks):
    """A running program that leaves a claim open, and what ring-show finds in it."""

    def printed(self, *words):
        return subprocess.run([self.program, *words], capture_output=True, text=True, timeout=60, check=False)

    def show(self, *words):
        run = self.printed(*words)
        return run.returncode, run.stdout + run.stderr

    def found(self, name):
        """What is found in a process or a file, by kind and capacity: the words that show it, and its summary."""
        _, text = self.show("find", name)
        lines, found = text.splitlines(), {}
        for first, summary, shows in zip(lines[::3], lines[1::3], lines[2::3]):
            kind, capacity = re.match(r"(\w+) at 0x[0-9a-f]+  capacity (\d+)( or \d+)*  \(", first).groups()[:2]
            # (words that are left of something older can look like another one, and are said to be less sure)
            if first.endswith("(sure)") or (kind, int(capacity)) not in found:
                found[kind, int(capacity)] = (shows.split()[1:], summary.strip())
        return found

    def look_at_copy(self, pid, words, stop):
        """A copy of the region of memory in which a ring is has no addresses, so the places of the ring are given."""
        at, bodies_at = (int(words[words.index(it) + 1], 0) for it in ("--at", "--bodies-at"))
        with open(f"/proc/{pid}/maps", encoding="utf-8") as maps:
            for line in maps:
                low, high = (int(end, 16) for end in line.split()[0].split("-"))
                if low <= at < high:
                    break
        path = os.path.join(self.folder, "copy")
        with open(f"/proc/{pid}/mem", "rb") as memory, open(path, "wb") as file:
            memory.seek(low)
            file.write(memory.read(high - low))
        self.check("a plain ring is not found by its words", ("ring", 1024) not in self.found(path))
        self.check("both parts are in the region", low <= bodies_at < high, words)
        places = {"--at": at - low, "--bodies-at": bodies_at - low}
        moved = [str(places.get(before, it)) for before, it in zip(["", *words], words)]
        status, text = self.show("ring", path, *moved[2:], "--limit", "0")
        self.check("a copy of its memory has the same", status == 0 and text.strip().endswith(stop), text)

    def tail(self, pid, words):
        """The tail of a ring in memory, and the moment at which it was read."""
        address = int(words[words.index("--at") + 1], 0) + int(words[words.index("--length") + 1]) - 768 + 128
        with open(f"/proc/{pid}/mem", "rb", 0) as memory:
            memory.seek(address)
            return int.from_bytes(memory.read(8), "little"), time.monotonic()

    def look_at_rates(self, pid, words):
        """Compares the mean of the rates with that of the tails before and after."""
        before, begin = self.tail(pid, words)
        status, text = self.show(*words, "--every", "500", "--times", "5", "--limit", "0")
        after, end = self.tail(pid, words)
        mean = (after - before) / (end - begin)
        rates = [int(it) for it in re.findall(r"per second  bytes written (\d+)", text)]
        self.check("there are four rates", status == 0 and len(rates) == 4, text)
        self.check("the rates are right", mean > 0 and abs(sum(rates) / 4 / mean - 1) < 0.2, f"{rates}, not {mean}")
        about = [int(it) for it in re.findall(r"messages about (\d+)", text)]
        self.check("messages are counted", about and all(it * 72 <= rate for it, rate in zip(about, rates)), text)

    def look_at_core(self, pid, found):
        """Compares what a core file has."""
        if not shutil.which("gcore"):
            print("no gcore, so no core file is looked into")
            return
        path = os.path.join(self.folder, "core")
        subprocess.run(["gcore", "-o", path, str(pid)], capture_output=True, timeout=120, check=True)
        cored = self.found(f"{path}.{pid}")
        for key in (("ring", 256), ("board", 2048), ("counters", 2048)):
            self.check(f"a core file has {key}", cored.get(key, ("", ""))[1] == found[key][1], cored)
        summary = cored.get(("ring", 1024), ("", ""))[1]
        self.check("a core file is one look", summary.endswith("a read stops at 16 (open, type 5, length 28)"), summary)
        words = cored.get(("ring", 1024), ([], ""))[0]
        status, text = self.show(*words, "--bodies", "text")
        self.check("it shows the open claim", status == 0 and re.search(r"^ +16 +16 +open +5 +28", text, re.M), text)

    def look_at_the_claim(self, words, summary):
        """The open claim, which blocks its consumer: two looks say so, and how long it has been there."""
        claim = re.compile(r"blocked for at least (\d+) ms at 16 \(open, type 5, length 28\)$")
        self.check("find says that it is blocked", claim.search(summary), summary)
        status, text = self.show(*words, "--bodies", "text")
        self.check("the open claim is shown", status == 0 and re.search(r"^ +16 +16 +open +5 +28", text, re.M), text)
        self.check("a single look is two", claim.search(text.strip()), text)
        self.check("it is no finding", self.show(*words, "--format", "prometheus")[0] == 0)
        status, _ = self.show(*words, "--fail-if-blocked")
        self.check("it fails if it is to", status == 1, status)
        _, text = self.show(*words, "--every", "300", "--times", "3", "--limit", "0")
        times = [int(it.group(1)) for it in map(claim.search, text.splitlines()) if it]
        grows = len(times) == 3 and all(b >= a + 300 for a, b in zip(times, times[1:]))
        self.check("the time grows", grows and times[0] >= 250, text)

    def look_at_the_counters(self, words, summary):
        """Counters of a running program have their values, and the command that is printed shows them."""
        wanted = "2 in use, 0 freed, of 4 ids:  0 messages sent 1234  1 bytes on disk -5"
        self.check("the counters have labels and values", summary == wanted, summary)
        status, text = self.show(*words)
        rows = re.findall(r"^ *(\d) +in use +(\d) +(-?\d+) +0 +0 +([a-z ]+?)  ", text, re.M)
        wanted = [("0", "1", "1234", "messages sent"), ("1", "2", "-5", "bytes on disk")]
        self.check("the command shows the values", status == 0 and rows == wanted, text)

    def look_at_the_restless(self, words):
        """A ring that changes all the time is unsettled, which is no finding."""
        run = self.printed(*words, "--limit", "0")
        is_unsettled = "positions changed during each of 3 reads" in run.stdout
        self.check("what changes all the time is unsettled", is_unsettled, run.stdout)
        self.check("it has no finding", run.returncode == 0 and not run.stderr, run)
        status, text = self.show(*words, "--limit", "0", "--format", "prometheus")
        numbers = {it.split("{")[0]: it.rsplit(" ", 1)[1] for it in text.splitlines() if it[0] != "#"}
        wanted = {"felter_ring_settled": "0", "felter_ring_blocked": "0", "felter_findings": "0"}
        self.check("its metrics say so", status == 0 and wanted.items() <= numbers.items(), text)

    def look_at_all(self, pid, known):
        """`watch` shows all that `find` finds, and `find` prints JSON whose commands work."""
        run = self.printed("watch", str(pid), "--times", "2", "--every", "20", "--format", "json")
        lines = [json.loads(it) for it in run.stdout.splitlines()]
        self.check("watch looks twice", run.returncode == 0 and len(lines) == 2 * len(known), run)
        self.check("each is named", all(it["pid"] == str(pid) and it["address"] for it in lines), run)
        run = self.printed("watch", str(pid), "--times", "1", "--format", "prometheus")
        fault = prometheus_fault(run.stdout)
        self.check("its metrics are right", not fault and run.stdout.count("felter_ring_blocked{") == 4, fault)
        status, text = self.show("watch", str(pid), "--times", "1", "--fail-if-blocked")
        self.check("watch fails if it is to", status == 1 and "blocked for at least" in text, text)
        for it in map(json.loads, self.printed("find", str(pid), "--format", "json").stdout.splitlines()):
            shown, table = self.show(*it["command"].split()[1:], "--limit", "0")
            self.check("a command of find works", shown == 0 and table.startswith(it["kind"]), table)

    def look(self, pid):
        known = {("ring", 256), ("ring", 1024), ("ring", 4096), ("ring", 1 << 24), ("board", 2048), ("counters", 2048)}
        found = self.found(str(pid))
        self.check("all is found at once", known == set(found), found)
        if self.wrong:
            return
        words, summary = found["ring", 1024]
        self.look_at_the_claim(words, summary)
        self.look_at_the_counters(*found["counters", 2048])
        board = found["board", 2048][1]
        self.check("the messages are counted", board == "3 valid, 0 lapped, 0 padding", board)
        self.look_at_rates(pid, found["ring", 4096][0])
        self.look_at_the_restless(found["ring", 1 << 24][0])
        self.look_at_all(pid, known)
        stop = "a read stops at 16 (open, type 5, length 28)"
        self.look_at_copy(pid, words, stop)
        self.look_at_core(pid, found)

    def look_at_busy(self, pid):
        """A ring at full speed is always found, with its capacity, and neither blocked nor a finding."""
        for k in range(20):
            run = self.printed("find", str(pid))
            is_found = re.search(r"^ring at 0x[0-9a-f]+  capacity 65536  \(sure\)$", run.stdout, re.M)
            self.check(f"look {k} finds the busy ring", is_found and run.returncode == 0, run)
        words = self.found(str(pid)).get(("ring", 65536), ([], ""))[0]
        for k in range(30):
            status, text = self.show(*words, "--format", "prometheus")
            numbers = {it.split("{")[0]: it.rsplit(" ", 1)[1] for it in text.splitlines() if it[0] != "#"}
            is_calm = numbers.get("felter_ring_blocked") == "0" and numbers.get("felter_findings") == "0"
            self.check(f"look {k} alarms nobody", status == 0 and is_calm, text)

    def look_at_torn(self, pid):
        """A ring is found although four reads show positions that do not belong together."""
        torn = os.path.join(self.folder, "torn.so")
        subprocess.run(["cc", "-std=gnu11", "-shared", "-fPIC", f"{TOP}/tests/torn.c", "-o", torn, "-ldl"], check=True)
        run = subprocess.run([self.program, "find", str(pid)], capture_output=True, text=True, timeout=60, check=False,
                             env=dict(os.environ, LD_PRELOAD=torn, TORN="4"))
        self.check("torn reads hide no ring", "  capacity 65536  (sure)" in run.stdout and run.returncode == 0, run)

    def look_at_others(self):
        """Processes that have nothing, and one that may not be read."""
        with subprocess.Popen(["sleep", "60"]) as other:
            run = self.printed("find", str(other.pid))
            is_said = "nothing found; " in run.stderr and "kill -STOP" in run.stderr
            self.check("nothing is said to be nothing", run.returncode == 1 and not run.stdout and is_said, run)
            if os.geteuid() == 0:
                program = shutil.copy(self.program, os.path.join(self.folder, "ring_show"))
                os.chmod(self.folder, 0o755)
                run = subprocess.run([program, "find", str(other.pid)], capture_output=True, text=True, timeout=60,
                                     check=False, user=65534, group=65534, extra_groups=[])
                self.check("what may not be read", run.returncode == 2 and "CAP_SYS_PTRACE" in run.stderr, run)
            other.terminate()

    def run(self, look, *arguments):
        """Starts the program, looks into it, and ends it."""
        pipe = subprocess.PIPE
        with subprocess.Popen([self.target, *arguments], stdin=pipe, stdout=pipe, text=True) as running:
            look(int(running.stdout.readline()))
            running.stdin.close()
        self.check("it ends well", running.returncode == 0, running.returncode)

    def try_all(self):
        """Starts the programs, looks into them, and returns how much was wrong."""
        self.look_at_others()
        archive = os.path.join(os.environ.get("FELTER", os.path.join(TOP, "c/out")), "libfelter.a")
        if not os.path.exists(archive):
            print("no archive for C (c/build makes it), so no running program is looked into")
            return self.wrong
        self.target = os.path.join(self.folder, "target")
        sources = [f"-I{TOP}/c", f"{TOP}/tests/show.c", archive]
        subprocess.run(["cc", "-std=gnu11", "-O1", *sources, "-pthread", "-o", self.target], check=True)
        self.run(self.look)
        self.run(self.look_at_busy, "busy")
        self.run(self.look_at_torn, "busy")
        print(f"running programs: {self.wrong} wrong")
        return self.wrong
