"""Tests of the order, the page and the command."""
from __future__ import annotations

import re
import subprocess
import sys
import tempfile
import unittest
from html.parser import HTMLParser
from pathlib import Path
from typing import Optional

from hwp_view.forms import ranges
from hwp_view.order import Order
from hwp_view.page import page_html
from hwp_view.plain import command_says
from hwp_view.report import read_report
from hwp_view.run import Run
from hwp_view.script import read_script
from hwp_view.test_readers import BESIDE, EXAMPLES, REPORT, SCRIPT

PROGRAM = Path(__file__).resolve().parents[2] / "bin" / "hwp-view"
VOID = frozenset("meta link br input".split())


class Tree(HTMLParser):
    """Whether the tags of a page are nested, the ids in it, and the targets of links by the item that they stand in."""

    def __init__(self) -> None:
        super().__init__()
        self.open: list[tuple[str, Optional[str]]] = []
        self.ids: list[str] = []
        self.links: set[tuple[Optional[str], str]] = set()
        self.is_nested = True

    def handle_starttag(self, tag: str, attrs: list[tuple[str, Optional[str]]]) -> None:
        values = dict(attrs)
        name = values.get("id")
        if name is not None:
            self.ids.append(name)
        if tag == "a":
            items = [name for at, name in self.open if at == "li" and name is not None]
            self.links.add((items[-1] if items else None, str(values["href"])[1:]))
        if tag not in VOID:
            self.open.append((tag, name))

    def handle_endtag(self, tag: str) -> None:
        self.is_nested = self.is_nested and bool(self.open) and self.open.pop()[0] == tag


def run_of(script: str, report: str) -> Run:
    """A run of two texts."""
    read = read_script(script.encode())
    return Run(read, read_report(report.encode(), read))


def example(name: str) -> Run:
    """The run of an example."""
    path = next(path for path in EXAMPLES if path.stem == name)
    return run_of(path.read_text(), path.with_suffix(".report").read_text())


def worked(name: str) -> Run:
    """The run of a worked script."""
    path = PROGRAM.parents[1] / "tests" / "worked" / f"{name}.hwp"
    return run_of(path.read_text(), path.with_suffix(".report").read_text())


class Forks(unittest.TestCase):
    """What a fork changes."""

    def test_a_fork_is_a_setting_of_each_thread_of_the_child(self) -> None:
        settings = [[command.text for command in row] for row in worked("forks/child-has-the-policy").settings()]
        self.assertEqual(settings, [["prctl 0 33 1 1 0 0"], ["fork 0 1"]])
        settings = [[command.text for command in row] for row in worked("forks/gone-parent").settings()]
        self.assertEqual(settings, [["prctl 0 33 1 1 0 0"], []])

    def test_an_access_names_the_page_of_its_twin_too(self) -> None:
        run = worked("forks/child-stores")
        says = [command_says(run.script, command) for command in run.script.commands[0]]
        self.assertEqual(says[1], "the process of thread 0 makes process 1 its child")
        self.assertEqual(says[2], "thread 1 stores 88 at line 5 of page 0 (its twin, translation 3: page 2)")


class Rows(unittest.TestCase):
    """The rows in which things stand."""

    def test_commands_stand_in_the_rows_of_their_entries(self) -> None:
        # Nothing tells which of `inject 0` (command 1) and `out 0` came first; the load comes after both.
        order = Order(example("failure-meets-swap-out"))
        self.assertEqual(order.spans, [[(1, 3), (4, 4), (5, 7)], [(4, 4)]])
        # Processor 0 has nothing to do with the page while processor 1 maps and loads; `soft` comes between two loads.
        order = Order(example("soft-offline"))
        self.assertEqual(order.spans, [[(1, 3), (4, 4), (5, 5), (6, 6)], [(4, 5), (7, 7), (8, 8)]])
        # `drop 1` was refused after the three entries of page 1, and before its translation was freed.
        order = Order(example("swap-and-drop"))
        self.assertEqual(order.sight_row(0, 4), order.entry_row((1, 2)) + 1)

    def test_what_was_stopped_and_what_a_policy_saw_stand_below(self) -> None:
        self.assertEqual(Order(example("fatal-event")).spans, [[(1, 1), (2, 2), (3, 3)], [(4, 4)]])
        script = SCRIPT.replace("cpus 1", "cpus 2").replace("page 0", "thread 1 0 1 handler\npage 0")
        script = script.replace("load 0 0 5", "inject 0\ncpu 1\nprctl 1 33 1 1 0 0\nprctl 1 33 1 0 0 0")
        report = REPORT.replace(
            "load 0 1 0 5 0 77", "fail 0 1 anononly opt - 2 1\nseen 0 default 0\nseen 1 early 1\nsignal 0 1 ao 0"
        )
        report = report.replace("1 value 77 0 3", "1 recovered\ncpu 1 2\n0 done\n1 done")
        report = report.replace(
            "frame 0 page 0 bad 0 weak 0", "frame 0 handled bad 0 weak 0\npoisoned 0 0 1 sw anononly recovered"
        )
        run = run_of(script, report)
        order = Order(run)
        self.assertEqual((order.spans, order.is_free), ([[(1, 3), (4, 4)], [(1, 1), (5, 5)]], True))
        self.assertEqual(run.entry_of_mark, {(0, 0): (0, 3)})

    def test_what_met_a_bad_line_or_a_poisoned_frame_stands_below(self) -> None:
        script = SCRIPT.replace("cpus 1", "cpus 3").replace("store 0 0 5 77\nload 0 0 5", "bad 0 5\ninject 1")
        script = script.replace("end", "cpu 1\ninject 1\ncpu 2\nscrub 0 0\nunpoison 1\nend")
        report = """hwp-report 1
stop none
count 2
frame 0 handled bad 20 weak 0
poisoned 0 2 0 hw free recovered
frame 1 handled bad 0 weak 0
poisoned 0 0 1 sw free recovered
page 0 0
cpu 0 2
0 done
1 recovered
cpu 1 1
0 already
cpu 2 3
0 event 2 bd000000000000c0 140 86 S12 recovered
0 scrubbed 1
1 hardwareseen
end
"""
        self.assertEqual(Order(run_of(script, report)).spans, [[(1, 1), (2, 2)], [(3, 3)], [(2, 2), (3, 3)]])

    def test_marks_stand_in_their_order_and_entries_below_the_refusal_before_them(self) -> None:
        script = SCRIPT.replace("cpus 1", "cpus 2").replace("load 0 0 5", "inject 1\ninject 1")
        script = script.replace("end", "cpu 1\nout 0\nunpoison 1\nend")
        marks = "poisoned 0 0 1 sw free recovered\nunpoisoned 0 1 1\npoisoned 1 0 2 sw free recovered\n"
        report = (
            REPORT.replace("page 0 4\n", marks + "page 0 3\n")
            .replace("load 0 1 0 5 0 77\n", "")
            .replace("frame 1 free", "frame 1 handled")
        )
        report = report.replace("cpu 0 2", "cpu 0 3").replace(
            "1 value 77 0 3", "1 recovered\n2 recovered\ncpu 1 2\n0 notresident 0 0\n1 done"
        )
        # `out 0` saw the page before it came into a frame; the second failure found what `unpoison 1` had taken back.
        self.assertEqual(Order(run_of(script, report)).spans, [[(2, 4), (5, 5), (7, 7)], [(1, 1), (6, 6)]])

    def test_what_stands_beside_an_answer_is_shown(self) -> None:
        read = read_script(SCRIPT.encode())
        report = read_report((REPORT.split("cpu 0 ")[0] + BESIDE).encode(), read)
        page, tree = "".join(page_html(read, report, "x")), Tree()
        tree.feed(page)
        self.assertTrue(tree.is_nested and not tree.open)
        for text in ("frame 0: moved to frame 1", "frame 0: hasbad, bad lines 1, 3, 5", "guest&#x27;s bank 0, S10: stop", "guestbad"):
            self.assertIn(text, page)

    def test_an_access_reaches_down_to_the_stop_that_it_answers(self) -> None:
        # Processor 1 met the bad line first, but the machine check of processor 0 stopped the machine.
        script = SCRIPT.replace("cpus 1", "cpus 2").replace("page 0", "thread 1 0 1 handler\npage 0")
        script = script.replace("load 0 0 5", "kload 0 0 5\ncpu 1\nbad 0 5\nkload 1 0 5")
        stop = "stop 0 1 severity S10 0 bd80000000000134 1 1 kernel"
        head = REPORT.split("load 0 1")[0].replace("page 0 4", "page 0 5").replace("stop none", stop)
        event = "1 event 0 bd80000000000134 140 86 S10 stop\n1 stopped\n"
        tail = f"mce 1 1 0 5 20\nmce 0 1 0 5 20\ncpu 0 3\n0 stored 0 2\n{event}cpu 1 3\n0 done\n{event}end\n"
        self.assertEqual(Order(run_of(script, head + tail)).spans, [[(1, 3), (5, 5)], [(1, 1), (4, 6)]])

    def test_a_circle_is_told_and_ends(self) -> None:
        script = SCRIPT.replace("page 0 anon", "page 0 anon\npage 1 anon").replace(
            "trans 0 0 0", "trans 0 0 0\ntrans 1 0 1"
        )
        script = script.replace("cpus 1", "cpus 2").replace("cpu 0", "cpu 1\nout 0\nout 1\ncpu 0")
        script = script.replace("store 0 0 5 77\nload 0 0 5", "drop 0\ndrop 1")
        head = REPORT.split("page 0 4\n")[0].replace("frame 0 page 0", "frame 0 free")
        agreed = "page 0 2\nout 1 0\ndrop 0 1\npage 1 2\ndrop 0 0\nout 1 1\n"
        contrary = "page 0 2\ndrop 0 1\nout 1 0\npage 1 2\nout 1 1\ndrop 0 0\n"
        for is_free, histories in ((True, agreed), (False, contrary)):
            order = Order(run_of(script, head + histories + "cpu 0 0\ncpu 1 0\nend\n"))
            self.assertEqual(order.is_free, is_free)
            self.assertEqual(len(order.history()), 4 + 4 + 2)


class Pages(unittest.TestCase):
    """The page and the command."""

    def test_each_page_is_nested_and_linked_both_ways(self) -> None:
        for path in EXAMPLES:
            with self.subTest(path.name):
                run = example(path.stem)
                tree = Tree()
                tree.feed("".join(page_html(run.script, run.report, path.name)))
                self.assertTrue(tree.is_nested and not tree.open)
                self.assertEqual(len(tree.ids), len(set(tree.ids)))
                self.assertLessEqual({target for _, target in tree.links}, set(tree.ids))
                self.assertLessEqual(set(Order(run).history()), set(tree.ids))
                text = path.with_suffix(".report").read_text()
                for cpu, answers in enumerate(re.split(r"\ncpu .*", text)[1:]):
                    named = re.findall(
                        r"^([0-9]+) (?:value [0-9]+|stored|sigbus|done|moved [0-9]+) ([0-9]+) ([0-9]+)$", answers, re.M
                    )
                    for seq, page, entry in named:
                        self.assertIn((f"c{cpu}-{seq}", f"e{page}-{entry}"), tree.links)
                        self.assertIn((f"e{page}-{entry}", f"c{cpu}-{seq}"), tree.links)

    def test_an_entry_that_is_not_there_is_told(self) -> None:
        run = run_of(
            SCRIPT,
            REPORT.replace("0 stored 0 2", "0 stored 0 9")
            .replace("1 value 77 0 3\n", "")
            .replace("cpu 0 2", "cpu 0 1"),
        )
        text = "".join(page_html(run.script, run.report, "a"))
        self.assertIn("page 0 · 9 (no such entry)", text)
        self.assertIn("no answer", text)

    def test_texts_are_escaped(self) -> None:
        run = run_of(SCRIPT.replace("hwp 1", "#</p><script>alert(1)</script>\u202e\nhwp 1"), REPORT)
        text = "".join(page_html(run.script, run.report, "\"><img src=x onerror='a'>&"))
        self.assertNotIn("<img", text)
        self.assertNotIn("<script>alert", text)
        self.assertNotIn("\u202e", text)
        self.assertIn("&quot;&gt;&lt;img src=x onerror=&#x27;a&#x27;&gt;&amp;", text)
        self.assertIn("&lt;/p&gt;&lt;script&gt;alert(1)&lt;/script&gt;\ufffd", text)

    def test_ranges(self) -> None:
        self.assertEqual(ranges([0, 1, 3, 5, 6, 7]), "0, 1, 3, 5 to 7")

    def test_the_command_answers_its_status(self) -> None:
        with tempfile.TemporaryDirectory() as folder:
            script, report, missing = Path(folder, "a.hwp"), Path(folder, "a.report"), str(Path(folder, "none"))
            script.write_text(SCRIPT)
            report.write_text(REPORT)
            bad = Path(folder, "bad.report")
            bad.write_text(REPORT.replace("in 0 0", "on 0 0"))
            rows: list[tuple[int, list[object], str]] = [
                (0, [script, report], ""),
                (0, ["-", report], SCRIPT),
                (0, [script, "-"], REPORT),
                (0, ["--help"], ""),
                (2, ["-", "-"], SCRIPT),
                (2, [script], ""),
                (2, [script, bad], ""),
                (2, ["-", report], SCRIPT.replace("end", "")),
                (2, [report, script], ""),
                (2, [script, report, report], ""),
                (2, ["-", report, "-"], SCRIPT),
                (4, [missing, report], ""),
                (4, [script, report, missing], ""),
                (4, [script, folder], ""),
            ]
            for status, words, given in rows:
                with self.subTest(words=words):
                    done = subprocess.run(
                        [sys.executable, PROGRAM, *map(str, words)], input=given, capture_output=True, text=True
                    )
                    self.assertEqual(done.returncode, status)
                    self.assertEqual(done.stderr.count("\n"), 0 if status == 0 else 1)
                    self.assertEqual(done.stdout == "", status != 0)
            said = subprocess.run([sys.executable, PROGRAM, script, bad], capture_output=True, text=True).stderr
            self.assertEqual(said, "hwp-view: report line 7: entry 0 of page 0 must stand here, not 'on 0 0'\n")
            with open("/dev/full", "wb") as full:
                done = subprocess.run(
                    [sys.executable, PROGRAM, script, report], stdout=full, stderr=subprocess.PIPE, text=True
                )
            self.assertEqual((done.returncode, done.stderr.count("\n")), (5, 1))


if __name__ == "__main__":
    unittest.main()
