#!/usr/bin/env python3
"""Writes what is in bench/results.json into the documents.

  bench/page.py                        docs/PERFORMANCE.md, its pictures, bench/RESULTS.md and the rows in README.md
  bench/page.py --check                writes nothing: says what would change, with status 1 if anything would
  bench/page.py --keep RUN FILE.. [--twins TEXT]
                                       first keeps the sets of `bench/run --json FILE` as the run RUN: `sets`, or
                                       `alone` or `pair` if only rows on one thread or with two were measured, or
                                       `queues` or `felter` if other queues or the calls of felter.h were measured
                                       apart. Three gated sets are needed; a row that one of them has not is left out.
                                       Rows of `alone` and `pair` are shown in place of those of `sets`. New sets
                                       replace both, and `queues` and `felter` if they have such rows
  bench/page.py --forget RUN           first drops what was kept as alone, pair, queues or felter
"""
import argparse
import os
import statistics
import sys

sys.dont_write_bytecode = True
sys.path.insert(0, os.path.dirname(os.path.abspath(__file__)))
import pictures
import results
import sections
from rows import C_ROWS, CURVES, RATIOS, SECTIONS, USER_ROWS, twin_of

TOP = os.path.dirname(os.path.dirname(os.path.abspath(__file__)))


def ratio_picture(runs, title, twins, contenders):
    """The rows of these contenders, section by section, against these twins."""
    parts = []
    for heading, rows in SECTIONS:
        drawn = []
        for label, workload, ours, size, threads, metric in sections.measured(runs["sets"], rows):
            key, bars = (workload, ours, size, threads, metric), []
            for twin in twins if ours.startswith(contenders) else ():
                found = runs["sets"].against(f"{twin_of(ours)}-{twin}", *key)
                if found:
                    bars.append((twin, statistics.median(found["sets"]), found["low"], found["high"]))
            drawn += [(label, bars)] if bars else []
        parts += [(heading, drawn)] if drawn else []
    return pictures.ratios(parts, [(twin, f"ours / {twin}") for twin in twins], title)


def curve(run, title, below, ticks, lines):
    """A panel of those lines that have two points or more."""
    series = []
    for name, colour, dash, keys in lines:
        points = [(x, run.ns(*key)) for x, key in keys]
        points = [(x, ns) for x, ns in points if ns]
        if len(points) > 1:
            series.append((name, colour, dash, points))
    shown = [tick for tick in ticks if any(x == tick[0] for *_, points in series for x, _ in points)]
    return title, below, shown, series


def made(runs):
    """Each file that is written whole, and what comes between two marks of a page: {path: text or [(mark, lines)]}.
    Lines that are None stay as they are. What is marked as `older` goes if the sets are not older."""
    older = None if sections.are_older(runs) else []
    files = {"bench/RESULTS.md": "\n".join(sections.all_rows(runs)) + "\n",
             "docs/PERFORMANCE.md": [("users", sections.users(runs)), ("forms", sections.forms(runs)), ("older", older),
                                     ("batches", sections.batches(runs)), ("words", sections.words(runs)),
                                     ("broadcast", sections.broadcasts(runs)), ("slower", sections.slower(runs)),
                                     ("c", sections.from_c(runs)), ("java", sections.from_java(runs))],
             "README.md": [("performance", sections.readme(runs))]}
    for name, picture in RATIOS.items():
        files[f"docs/performance/{name}.svg"] = ratio_picture(runs, *picture)
    for name, (about, panels) in CURVES.items():
        drawn = [curve(runs["sets"], *panel) for panel in panels]
        files[f"docs/performance/{name}.svg"] = pictures.curves(drawn, about)
    return files


def without(text, begin, end):
    """A page without the lines from one mark to the other, and without an empty line that then follows another one."""
    before, _, rest = text.partition(begin + "\n")
    rest = rest.partition(end + "\n")[2]
    return before + (rest.removeprefix("\n") if before.endswith("\n\n") else rest)


def between(text, path, mark, lines):
    """A page with lines put between two marks. Without lines, what is marked goes with its marks."""
    begin, end = f"<!-- {mark}: begin -->", f"<!-- {mark}: end -->"
    if lines is None:
        return text
    if lines == []:
        return without(text, begin, end)
    if text.count(begin) != 1 or text.count(end) != 1:
        sys.exit(f"bench/page.py: {path} has not one of each: {begin} {end}")
    before, _, rest = text.partition(begin)
    return before + begin + "\n" + "\n".join(lines) + "\n" + end + rest.partition(end)[2]


def read(path):
    try:
        with open(os.path.join(TOP, path), encoding="utf-8") as file:
            return file.read()
    except FileNotFoundError:
        return ""


def replaced(runs):
    """The runs that the sets replace: parts of them, and those of the calls of felter.h and of other queues."""
    of_queues = [("", workload, queue, size, threads, metric)
                 for _, (workload, size, threads, metric), _, queues in USER_ROWS
                 for column, names in queues.items() if column != "rtrb" for queue in names]
    others = [name for name, rows in (("felter", C_ROWS), ("queues", of_queues))
              if name in runs and sections.measured(runs["sets"], rows)]
    return [*(name for name in results.PARTS if name in runs), *others]


def main():
    ask = argparse.ArgumentParser(prog="bench/page.py", description=__doc__,
                                  formatter_class=argparse.RawDescriptionHelpFormatter)
    ask.add_argument("--check", action="store_true")
    ask.add_argument("--keep", nargs="+", metavar="RUN SET", default=[])
    ask.add_argument("--forget", choices=(*results.PARTS, "queues", "felter"), action="append", default=[])
    ask.add_argument("--twins", default="those of bench/twins")
    options = ask.parse_args()
    runs = results.load()
    if options.keep:
        try:
            runs[options.keep[0]], lost = results.run_of_sets(options.keep[1:], options.twins)
        except results.Refused as why:
            sys.exit(f"bench/page.py: not kept: {why}")
        for key in lost:
            print("left out, since one set has no figure of it:", *key)
        if options.keep[0] == "sets":
            options.forget += replaced(runs)
    for name in options.forget:
        runs.pop(name, None)
    if options.keep or options.forget:
        results.save(runs)
    stale = []
    for path, wanted in made(results.shown(runs)).items():
        had = read(path)
        if not isinstance(wanted, str):
            text = had
            for mark, lines in wanted:
                text = between(text, path, mark, lines)
            wanted = text
        if wanted != had:
            stale.append(path)
            if not options.check:
                os.makedirs(os.path.dirname(os.path.join(TOP, path)), exist_ok=True)
                with open(os.path.join(TOP, path), "w", encoding="utf-8") as file:
                    file.write(wanted)
    for path in stale:
        print(f"{path}: {'is not what bench/page.py writes' if options.check else 'written'}")
    return 1 if stale and options.check else 0


if __name__ == "__main__":
    sys.exit(main())
