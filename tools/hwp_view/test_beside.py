"""Tests of two runs side by side."""
from __future__ import annotations

import re
import subprocess
import sys
import tempfile
import unittest
from pathlib import Path

from hwp_view.beside import Cell, beside_html, is_difference, parts_of, rows_of
from hwp_view.test_page import PROGRAM, Tree, run_of
from hwp_view.test_readers import REPORT, SCRIPT

# A run of the same script in which the load found line 5 bad: another answer, another entry, a bad line; its frame 0 differs.
OTHER = REPORT.replace("load 0 1 0 5 0 77", "load 0 1 0 5 sigbus 0").replace("1 value 77 0 3", "1 sigbus 0 3")
OTHER = OTHER.replace("page 0 bad 0", "page 0 bad 20")


class Beside(unittest.TestCase):
    """Two runs side by side."""

    def test_rows_match_what_has_the_same_head(self) -> None:
        # The heads of both sides, the rows (`-` where a side has nothing), and which rows are differences.
        table = [
            ("abc", "abc", ["aa", "bb", "cc"], []),
            ("abc", "ac", ["aa", "b-", "cc"], [1]),
            ("ab", "xab", ["-x", "aa", "bb"], [0]),
            ("", "a", ["-a"], [0]),
            ("", "", [], []),
        ]
        for left, right, wanted, differing in table:
            with self.subTest(left=left, right=right):
                rows = rows_of([Cell(head, ()) for head in left], [Cell(head, ()) for head in right])
                shown = ["".join(side[0].head if side else "-" for side in row) for row in rows]
                self.assertEqual(shown, wanted)
                self.assertEqual([n for n, row in enumerate(rows) if is_difference(row)], differing)

    def test_differences_of_two_runs_are_marked_and_counted(self) -> None:
        one, other = run_of(SCRIPT, REPORT), run_of(SCRIPT, OTHER)
        counts = {title: sum(map(is_difference, rows)) for title, rows in parts_of(one, other)}
        wanted = {"Stop and poisoned frames": 0, "Processor 0": 1, "Page 0": 2, "Frames in the end": 1}
        self.assertEqual(counts, wanted)
        self.assertEqual(sum(is_difference(row) for _, rows in parts_of(one, one) for row in rows), 0)
        text = "".join(beside_html(one, other, ["<a>", "b"]))
        tree = Tree()
        tree.feed(text)
        self.assertTrue(tree.is_nested and not tree.open)
        self.assertEqual(re.findall(r'class="differs" id="(d\d+)"', text), ["d0", "d1", "d2", "d3"])
        self.assertIn("<p>4 differences.", text)
        self.assertNotIn("<a>", text)

    def test_the_command_draws_two_runs_or_says_which_is_malformed(self) -> None:
        with tempfile.TemporaryDirectory() as folder:
            for name, text in (("a.hwp", SCRIPT), ("a.report", REPORT), ("b.report", OTHER), ("bad", REPORT[:-4])):
                Path(folder, name).write_text(text)
            rows = [
                (0, "a.hwp a.report a.hwp b.report", ""),
                (2, "a.hwp a.report a.hwp", "hwp-view: 3 files; usage: "),
                (2, "a.hwp a.report a.hwp bad", "hwp-view: 'a.hwp' and 'bad': report line 14: `end` must stand here"),
                (4, "a.hwp a.report a.hwp none", "hwp-view: can't read 'none'"),
            ]
            for status, words, said in rows:
                with self.subTest(words=words):
                    command = [sys.executable, str(PROGRAM), "--beside", *words.split()]
                    done = subprocess.run(command, cwd=folder, capture_output=True, text=True)
                    self.assertEqual((done.returncode, done.stderr[: len(said)]), (status, said))
                    self.assertEqual(done.stdout == "", status != 0)


if __name__ == "__main__":
    unittest.main()
