"""Tests of what a trace adds to the picture."""
from __future__ import annotations

import re
import unittest
from pathlib import Path

from hwp_view.about import facts_of, table_html
from hwp_view.forms import Malformed
from hwp_view.page import page_html
from hwp_view.report import Report, read_report
from hwp_view.run import Run
from hwp_view.script import Script, read_script
from hwp_view.locks import Hold, read_locks
from hwp_view.traced import TracedOrder

HOME = Path(__file__).resolve().parents[2]
WORKED = HOME / "tests" / "traces" / "failure-waits-for-a-load.hwp"
TRACE = WORKED.with_suffix(".trace").read_text()
# The report of the worked trace, by hand: two accesses of processor 0, and the failure, which waited for the second one.
REPORT = """hwp-report 1
stop none
count 1
frame 0 handled bad 0 weak 0
poisoned 0 1 0 sw anononly recovered
frame 1 free bad 0 weak 0
frame 2 free bad 0 weak 0
frame 3 free bad 0 weak 0
page 0 5
in 0 0
map 0 0 0
store 0 0 0 0 0 5
load 0 1 0 0 0 5
fail 1 0 anononly opt - 1 0
seen 0 default 0
cpu 0 2
0 stored 0 2
1 value 5 0 3
cpu 1 1
0 recovered
end
"""
# What is put in place of what in TRACE (the first time it stands there), and the beginning of what is said of it.
FAULTS = [
    ("hwp-trace 1", "hwp-trace 2", "trace line 1: `hwp-trace 1` must stand here, not 'hwp-trace 2'"),
    ("\n1 0 0", "\n2 0 0", "trace line 3: turn 1 must stand here, not turn 2"),
    ("load_stop", "load_stap", "trace line 2: 'load_stap' is no kind of step"),
    (": moved", ": move", "trace line 2: 'move' is no end of a turn"),
    ("\n1 0 0", "\n\n1 0 0", "trace line 3: a turn must stand here, not ''"),
    ("\n0 0 0", "\n0 7 0", "trace line 2: the script has no processor 7"),
    ("\n0 0 0", "\n0 0 1", "trace line 2: processor 0 isn't at command 1"),
    ("proc 0", "proc 2", "trace line 3: the script has no process 2"),
    ("stop : none", "stap : none", "trace line 2: 'stap' is no word of the shared memory"),
    ("11 0 0 set_owner frame 0 : count 1", "11 0 0 set_owner frame 0 : count 2", "trace line 13: frame 0 was left as 'count 1 locked'"),
    ("53 1 0 unlock_page page 0 : locked -> unlocked : answered\n", "", "trace line 55: the trace ends before processor 1 has answered its command 0"),
    (" : answered\n", " : moved\n", "trace line 31: processor 0 isn't at command 1"),
]


def worked() -> tuple[Script, Report]:
    """The script and the report of the worked trace."""
    script = read_script(WORKED.read_bytes())
    return script, read_report(REPORT.encode(), script)


class Traces(unittest.TestCase):
    """The trace as the third input."""

    def test_things_stand_in_the_order_of_the_turns_with_their_locks_and_waits(self) -> None:
        script, report = worked()
        trace = read_locks(TRACE.encode(), script)
        order = TracedOrder(Run(script, report), trace)
        turns = [order.turn_of[(0, index)].number for index in range(5)]
        self.assertEqual(turns, [14, 17, 26, 43, 49])
        self.assertEqual(order.spans, [[(1, 4), (5, 6)], [(5, 8)]])
        wait = trace.waits[(1, 0)][0]
        self.assertEqual((len(trace.waits), wait.turn.number, wait.times, wait.holder), (1, 41, 1, (0, 1)))
        rows = [("page 0", 0, 0, 3, 20), ("frame 0", 0, 0, 10, 18), ("frame 0", 0, 0, 24, 27), ("frame 0", 0, 1, 34, 44)]
        rows += [("page 0", 1, 0, 40, 53), ("frame 0", 1, 0, 46, 52)]
        self.assertEqual(trace.holds, [Hold(*row) for row in rows])
        run_through = "c0-0 e0-0 e0-1 e0-2 c0-1 c1-0 m0-0 e0-3 e0-4 f0 f1 f2 f3"
        self.assertEqual(order.history(), run_through.split())
        text = "".join(page_html(script, report, "a", trace))
        self.assertIn("at turn 41 for frame 0, which", text)
        self.assertIn("turns 29 to 45; it held frame 0 in turns 34 to 44<", text)
        self.assertIn('data-t="45 43 0 1 load_bad bad 0 : 0 : moved"', text)

    def test_a_malformed_trace_is_refused_at_its_line(self) -> None:
        script, _ = worked()
        for old, new, said in FAULTS:
            with self.subTest(new=new):
                self.assertIn(old, TRACE)
                with self.assertRaises(Malformed) as refused:
                    read_locks(TRACE.replace(old, new, 1).encode(), script)
                self.assertEqual(str(refused.exception)[: len(said)], said)
        for text in ("", TRACE[:-1]):
            with self.assertRaises(Malformed):
                read_locks(text.encode(), script)

    def test_the_trace_of_another_run_is_refused(self) -> None:
        script, _ = worked()
        trace = read_locks(TRACE.encode(), script)
        swapped = "load 0 1 0 0 0 5\nfail 1 0 anononly opt - 1 0\nseen 0 default 0\n"
        other = "fail 1 0 anononly opt - 1 0\nseen 0 default 0\nload 0 1 0 0 0 5\n"
        for old, new, place in ((swapped, other, "report line 15: "), ("map 0 0 0\n", "free 0 0 1\n", "report line 11: ")):
            with self.subTest(new=new):
                self.assertIn(old, REPORT)
                report = read_report(REPORT.replace(old, new).encode(), script)
                with self.assertRaises(Malformed) as refused:
                    TracedOrder(Run(script, report), trace)
                self.assertEqual(str(refused.exception)[: len(place)], place)


class About(unittest.TestCase):
    """What is filtered by, and the table of pages and processes."""

    def test_items_have_their_pages_and_processes_and_the_table_counts_uses(self) -> None:
        script, _ = worked()
        told = REPORT.replace("opt - 1 0\nseen 0 default 0", "req 1 1 1\nseen 0 early 1\nsignal 0 0 ao 0")
        told = told.replace("page 0 5", "page 0 6").replace("cpu 0 2", "load 1 0 1 0 sigbus 1\ncpu 0 2")
        run = Run(script, read_report(told.encode(), script))
        facts = facts_of(run)
        wanted = {"c0-0": ({0}, {0}), "e0-0": ({0}, set()), "e0-1": ({0}, {0}), "s0-4-0": ({0}, {0}), "e0-4": ({0}, {0, 1}), "e0-5": ({0}, {1})}
        wanted.update({"c1-0": ({0}, {0, 1}), "m0-0": ({0}, {0, 1}), "f0": ({0}, set()), "f1": (set(), set())})
        self.assertEqual({name: facts[name] for name in wanted}, wanted)
        rows = re.findall(r"<tr><th scope=.row.><a[^>]*>(\d+)</a></th><th scope=.row.>(\d+)</th>(.*?)</tr>", "".join(table_html(run)))
        cells = [(page, process, re.findall("<td>(.*?)</td>", text)) for page, process, text in rows]
        self.assertEqual(cells, [("0", "0", ["1", "1", "", "1"]), ("0", "1", ["", "", "1", ""])])


if __name__ == "__main__":
    unittest.main()
