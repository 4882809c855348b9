"""Tests which sets are figures, and what the page shows of them: bench/tests.py runs them."""
import contextlib
import io
import json
import sys
import tempfile
import unittest

import page
import results
import sections

FAST, SLOW = 0.32, 0.67  # the nanoseconds of an add


class Figures(unittest.TestCase):
    """Which sets are figures."""

    def setUp(self):
        self.room = tempfile.TemporaryDirectory()
        self.addCleanup(self.room.cleanup)

    def path(self, *sets, quick=False):
        """A file of sets, of each of which the best time, whether it is gated, and the rows are given."""
        path, read = f"{self.room.name}/sets.json", []
        for best, gated, rows in sets:
            about = dict(cpu="c", cores=4, kernel="k", reps=2, quick=quick, fifo=True, gated=gated, margin=0.1,
                         processors=[3, 2], shared_cores=[], best={"1": best, "2": best}, repeated=1)
            about.update({f"{who}_{what}": 0 for who in ("others", "steal") for what in ("median", "worst")})
            read.append({"about": about, "results": [
                dict(workload="pair", contender=who, size=8, threads=1, metric="ns", values=values)
                for who, values in rows.items()]})
        with open(path, "w", encoding="utf-8") as file:
            json.dump({"sets": read}, file)
        return path

    def refusal(self, *sets):
        with self.assertRaises(results.Refused) as why:
            results.run_of_sets([self.path(*sets)], "these")
        return str(why.exception)

    ROWS = {"plain-o2o": [20.0, 30.0], "o2o-ar": [10.0, 10.0]}

    def test_three_gated_sets_are_a_figure_with_its_spread(self):
        sets = [(FAST, True, dict(self.ROWS, **{"plain-o2o": values})) for values in ([20, 20], [30, 30], [26, 26])]
        run, lost = results.run_of_sets([self.path(*sets)], "these")
        key = ("pair", "plain-o2o", 8, 1, "ns")
        self.assertEqual((run.ns(*key), run.spread(*key), lost), (26.0, (20.0, 30.0), []))
        self.assertEqual(sections.times(run.against("o2o-ar", *key)), "2.60 (2.00–3.00)")
        self.assertEqual(sections.nanos(run, *key), "26 (20–30)")

    def test_two_sets_are_none(self):
        self.assertEqual(self.refusal(*[(FAST, True, self.ROWS)] * 2), "there are 2 sets, and a figure needs 3")

    def test_a_set_that_was_not_gated_is_none(self):
        self.assertEqual(self.refusal(*[(FAST, True, self.ROWS)] * 2, (FAST, False, self.ROWS)), "set 3 is not gated")

    def test_a_set_that_ran_slower_is_none(self):
        said = self.refusal((FAST, True, self.ROWS), (SLOW, True, self.ROWS), (FAST * 1.05, True, self.ROWS))
        self.assertIn("set 2 ran slower: an add took 0.670 ns at best on 1 processors, and 0.320 in another set", said)
        self.assertNotIn("set 3", said)

    def test_a_row_that_a_set_lacks_is_left_out(self):
        sets = [(FAST, True, self.ROWS)] * 2 + [(FAST, True, {"o2o-ar": [10.0, 10.0]})]
        run, lost = results.run_of_sets([self.path(*sets)], "these")
        self.assertEqual(lost, [("pair", "plain-o2o", 8, 1, "ns")])
        self.assertIsNone(run.ns(*lost[0]))

    def test_the_page_says_whether_two_threads_had_two_cores(self):
        it = dict(gated=True, margin=0.1, best=[FAST] * 3, repeated=[1, 2, 3], processors=[3, 2])
        self.assertIn("3 and 2, on cores of their own.", sections.gated(dict(it, shared_cores=[])))
        self.assertIn("3 and 2, on cores of their own.", sections.gated(dict(it, shared_cores=[[0, 2], [1, 3]])))
        self.assertIn("3 and 2, which share a core.", sections.gated(dict(it, shared_cores=[[2, 3]])))
        self.assertNotIn("Two threads", sections.gated(dict(it, shared_cores=[]), has_two=False))
        self.assertIn("were not gated", sections.gated({}))

    def test_the_page_says_that_rounds_were_short(self):
        for quick in (False, True):
            run, _ = results.run_of_sets([self.path(*[(FAST, True, self.ROWS)] * 3, quick=quick)], "these")
            said = " ".join(sections.about(run, "All programs were"))
            self.assertEqual("rounds were short, since the option `--quick` was given." in said, quick)

    def runs(self, **rows):
        run, _ = results.run_of_sets([self.path(*[(FAST, True, dict(self.ROWS, **rows))] * 3)], "these")
        return {"sets": run, "felter": results.Run(run.about, [])}

    def test_batches_are_compared_with_the_twins_that_write_the_same(self):
        runs = self.runs(**{"plain-o2o-batch": [5.0, 5.0], "o2o-pb": [20.0, 20.0], "o2o-pb-batch": [10.0, 10.0],
                            "o2o-ta-batch": [2.0, 2.0]})
        head, _, row = sections.batches(runs)
        self.assertEqual(head, "|  | ours, ns | times `ar` | times `pb` | `rtrb's way`, times `ar` |")
        self.assertEqual(row, "| one-to-one, two threads, 8 bytes | 5 (5–5) | 0.50 (0.50–0.50) | 0.50 (0.50–0.50) "
                              "| 0.20 (0.20–0.20) |")

    def test_older_tables_stay_only_while_batches_are_not_in_the_sets(self):
        self.assertTrue(sections.are_older(self.runs()))
        self.assertFalse(sections.are_older(self.runs(**{"plain-o2o-batch": [5.0, 5.0]})))
        text = "a\n\n<!-- older: begin -->\nb\n<!-- older: end -->\n\nc\n"
        self.assertEqual(page.between(text, "p", "older", []), "a\n\nc\n")
        self.assertEqual(page.between("a\n\nc\n", "p", "older", []), "a\n\nc\n")
        self.assertEqual(page.between(text, "p", "older", None), text)

    def test_readme_names_the_rows_of_earlier_rings(self):
        runs = results.load()
        for older, count in (({"pair", "trips"}, 4), (set(), 0)):
            runs["sets"].older = older
            labels = [line.split(" | ")[0] for line in sections.readme(runs)][2:]
            named = [label for label in labels if label.endswith(" (an earlier ring)")]
            self.assertEqual(len(named), count)
            self.assertTrue(all("two threads" in label or "reply" in label for label in named))

    def test_rows_on_one_thread_may_have_sets_of_their_own(self):
        runs = self.runs()
        rows = [dict(workload="batches", contender=who, size=8, threads=1, metric="ns", ns=7.0, against={})
                for who in ("plain-o2o", "plain-o2o-batch")]
        runs["alone"] = results.Run(runs["sets"].about, rows)
        runs["sets"].rows += [dict(rows[0], contender=who, size=size, ns=9.0)
                              for who, size in (("plain-o2o", 8), ("plain-o2o", 32), ("boost-spsc", 8), ("ours-o2o", 8))]
        shown = results.shown(runs)["sets"]
        self.assertEqual([shown.ns(it, "plain-o2o", 8, 1, "ns") for it in ("batches", "pair")], [7.0, 25.0])
        found = [shown.ns("batches", *it, 1, "ns") for it in (("plain-o2o", 32), ("boost-spsc", 8), ("ours-o2o", 8))]
        self.assertEqual(found, [None, None, 9.0])
        self.assertEqual(shown.older, {"pair"})
        said = list(sections.about_all(runs, "all programs were"))
        self.assertTrue(said[0].startswith("In the rows on one thread, all programs were measured on"))
        self.assertTrue(any(line.startswith("In all other rows, all programs were measured on") for line in said))
        self.assertEqual(page.replaced(runs), ["alone"])

    def test_sets_with_the_calls_of_c_replace_those_kept_apart(self):
        self.assertEqual(page.replaced(self.runs()), [])
        self.assertEqual(page.replaced(self.runs(**{"felter-o2o": [5.0, 5.0]})), ["felter"])

    def test_sets_with_other_queues_replace_those_kept_apart(self):
        for rows, replaced in (({}, []), ({"boost-spsc": [5.0, 5.0]}, ["queues"])):
            runs = self.runs(**rows)
            runs["queues"] = results.Run(runs["sets"].about, [])
            self.assertEqual(page.replaced(runs), replaced)

    def test_rings_in_java_are_compared_with_agrona_in_java(self):
        self.assertIsNone(sections.from_java(self.runs()))
        runs = self.runs(**{"felter-java-o2o": [30.0, 30.0], "agrona-java-o2o": [10.0, 10.0]})
        rows = ["| one-to-one, two threads, 8 bytes | 30 (30–30) | 3.00 (3.00–3.00) |"]
        self.assertEqual(sections.from_java(runs)[2:], rows)

    def test_slow_rows_are_named(self):
        runs = self.runs(**{"ours-o2o": [12.0, 12.0], "o2o-sc": [10.0, 10.0]})
        self.assertEqual(list(sections.slow_labels(runs["sets"])), ["one-to-one, two threads, 8 bytes"])

    def test_columns_without_a_figure_are_left_out(self):
        none = sections.NONE
        lines = list(sections.used_columns(["", "a", "b"], [["x", none, "1"], ["y", none, none]]))
        self.assertEqual(lines, ["|  | b |", "|---|---|", "| x | 1 |", "| y | – |"])

    def test_stored_sets_make_the_page(self):
        said = io.StringIO()
        with contextlib.redirect_stdout(said):
            sys.argv = ["page.py", "--check"]
            status = page.main()
        self.assertEqual((status, said.getvalue()), (0, ""))
