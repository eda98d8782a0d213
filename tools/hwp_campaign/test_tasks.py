"""Tests of what an outcome tells of a report, on worked reports and on lines that stand for one kind of answer each."""
from __future__ import annotations

import unittest
from pathlib import Path

from .tasks import Outcome, outcome

COLLECTORS = Path(__file__).resolve().parents[2] / "tests" / "worked" / "collectors"
# A report, and its outcome.
WORKED: tuple[tuple[str, Outcome], ...] = (
    (
        "two-rounds",
        (
            ("stop", "none"),
            ("0 0", "stored"),
            ("0 1", "done"),
            ("0 2", "done"),
            ("0 3", "scrubbed 1"),
            ("0 4 offlined 0", "moved 1"),
            ("0 4", "scrubbed 1"),
            ("0 5", "value 5"),
        ),
    ),
    (
        "has-a-bad-line",
        (
            ("stop", "none"),
            ("0 0", "stored"),
            ("0 1", "done"),
            ("0 2", "done"),
            ("0 3", "done"),
            ("0 4 offlined 0", "hasbad 200"),
            ("0 4", "raised 1"),
            ("0 5", "value 5"),
        ),
    ),
    (
        "before-a-signal",
        (
            ("stop", "none"),
            ("0 0", "stored"),
            ("0 1", "done"),
            ("0 2", "done"),
            ("0 3", "done"),
            ("0 4 offlined 2", "takenfree"),
            ("0 4", "sigbus"),
        ),
    ),
    ("stopped-before", (("stop", "0 1 shutdown"), ("0 0", "done"), ("0 1", "stopped"), ("0 2", "stopped"), ("0 3", "stopped"))),
)
# A line of processor 1, and its part of the outcome; None where it is none.
LINES = (
    ("0 done 3 7", ("1 0", "done")),
    ("0 done", ("1 0", "done")),
    ("2 gone 4", ("1 2", "gone")),
    ("2 badlines 20 3 7", ("1 2", "badlines 20")),
    ("5 moved 2 0 9", ("1 5", "moved 2")),
    ("5 offlined 3 moved 2 0 9", ("1 5 offlined 3", "moved 2")),
    ("5 offlined 3 noframe", ("1 5 offlined 3", "noframe")),
    ("5 event 2 9c000000000000c0 40 86 S4 keep", None),
    ("5 guest 0 bd80000000000134 140 86 S9 bad", None),
)


class Outcomes(unittest.TestCase):
    """What outcomes tell of reports."""

    def test_worked_reports(self) -> None:
        """The stop, each answer, and what came of each frame beside one, in their order."""
        for name, told in WORKED:
            with self.subTest(report=name):
                self.assertEqual(outcome((COLLECTORS / f"{name}.report").read_text(encoding="ascii")), told)

    def test_lines(self) -> None:
        """Pages and entries are no part of it, nor are events."""
        for line, told in LINES:
            with self.subTest(line=line):
                found = outcome(f"hwp-report 2\nstop none\ncount 0\npage 0 1\nin 1 0\ncpu 0 0\ncpu 1 1\n{line}\nend\n")
                self.assertEqual(found, (("stop", "none"), *([told] if told else [])))


if __name__ == "__main__":
    unittest.main()
