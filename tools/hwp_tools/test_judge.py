"""Tests of hwp-judge on verdicts of a stand-in for the program: what is shown beside the line, and how it ends."""
from __future__ import annotations

import unittest
from pathlib import Path

from hwp_tools.calling import Call, Folder, call
from hwp_tools.judge import RULES, main

HOME = Path(__file__).resolve().parents[2]
SCRIPT, REPORT = HOME / "examples" / "bad-line.hwp", HOME / "examples" / "bad-line.report"
STAND_IN = """#!/bin/sh
cat > "$SEEN"
[ -z "$TELLS" ] || echo "$TELLS" >&2
printf '%s' "$SAYS"
exit "$ENDS"
"""
# What stands in place of what in the report of examples/bad-line.hwp, the verdict on that, and lines that are then shown.
SHOWN = [
    (
        "1 done\n",
        "1 value 77 0 2\n",
        "not 17 3",
        [
            "     16  0 stored 0 2",
            ">    17  1 value 77 0 2",
            "     18  2 event 0 bd80000000000134 140 86 S9 recovered",
            "it is of command 1 of processor 0, SCRIPT:11: bad 0 5",
            "it names entry 2 of page 0, line 10: store 0 0 0 5 0 77",
        ],
    ),
    ("3 sigbus 0 5\n", "3 sigbus 0 6\n", "not 20 3", ["it names entry 6 of page 0, which isn't there"]),
    ("3 sigbus 0 5\n", "3 notresident 0 2\n", "not 20 3", ["it saw page 0 after 2 entries; the last of them: line 9: map 0 0 0"]),
    ("cpu 0 5\n", "cpu 0 4\n", "not 15 3", [">    15  cpu 0 4"]),
    ("1 done\n", "", "not 15 3", ["it has no answer for command 1 of processor 0, SCRIPT:11: bad 0 5"]),
    ("2 sigbus 0 4\n", "", "not 15 3", ["it has no answer for command 2 of processor 0, SCRIPT:12: load 0 0 5"]),
    ("signal 0 0 ar 0", "signal 0 0 ao 0", "not 12 2", [">    12  fail 0 2 anononly req 0 0 1"]),
    ("hw anononly", "sw anononly", "not 5 5", ["it is of command 2 of processor 0, SCRIPT:12: load 0 0 5"]),
    ("count 1", "count 01", "not 3 1", ["'01' is no number as a report writes it"]),
    ("end\n", "", "not 21 1", [">    21  (nothing stands here)", "`end` must stand here, and nothing does"]),
    ("map 0 0 0", "map \x7f\xff " + "0" * 5000, "not 9 1", [">     9  map \\x7f\\xff " + "0" * 100]),
    ("store 0 0 0", "store 9 99999999999999999999 0", "not 10 1", [">    10  store 9 99999999999999999999 0 5 0 77"]),
]


class Judge(Folder):
    """What hwp-judge writes, and its status."""

    def judge(self, script: bytes, report: bytes, says: str, ends: int, tells: str = "") -> Call:
        """A call with a stand-in that says this."""
        paths = [self.file("script", script), self.file("report", report)]
        own = {"HWP_PROGRAM": self.program("program", STAND_IN), "SEEN": str(self.folder / "seen")}
        return call("hwp-judge", main, paths, {**own, "SAYS": says, "ENDS": str(ends), "TELLS": tells})

    def test_a_verdict_is_shown_with_its_line_and_its_command(self) -> None:
        report = REPORT.read_text()
        for old, new, says, lines in SHOWN:
            with self.subTest(new=new[:40]):
                self.assertIn(old, report)
                forged = report.replace(old, new, 1).encode("latin-1")
                status, out, told = self.judge(SCRIPT.read_bytes(), forged, says + "\n", 1)
                self.assertEqual((status, told), (1, ""))
                _, place, rule = says.split()
                text = out.replace(f"{self.folder}/script:", "SCRIPT:").splitlines()
                self.assertEqual(text[0], f"{self.folder}/report:{place}: not legal: rule {rule} is broken")
                for line in lines:
                    self.assertTrue(any(shown.startswith(line) for shown in text), (line, out))
                self.assertEqual(text[-1], f"rule {rule}: {RULES[int(rule)]}")
                self.assertTrue(out.isascii() and max(map(len, text[:-1])) < 300)

    def test_the_program_gets_the_script_to_its_end_and_then_the_report(self) -> None:
        script, report = SCRIPT.read_bytes(), REPORT.read_bytes()
        for text in (script, script.rstrip(b"\n"), script + b"\n# behind the end\n   \n", script.replace(b"\nend\n", b"\n  end ")):
            with self.subTest(text=text[-30:]):
                self.assertEqual(self.judge(text, report, "legal\n", 0), (0, "legal\n", ""))
                seen = (self.folder / "seen").read_bytes().replace(b"\n  end \n", b"\nend\n")
                self.assertEqual(seen, script + report)

    def test_each_end_has_its_status(self) -> None:
        script, report = SCRIPT.read_bytes(), REPORT.read_bytes()
        for text, says, ends, tells, status, words in (
            (script, "", 3, "script line 0: TooLong", 3, "script line 0: TooLong"),
            (script.replace(b"end\n", b""), "legal\n", 0, "", 3, "script line 13: NoEnd"),
            (script, "", 6, "out of memory", 6, "out of memory"),
            (script, "", 70, "not built", 70, "not built"),
            (script, "legal\n", 1, "", 70, "status 1"),
            (script, "not 3 10\n", 1, "", 70, "status 1"),
            (script, "not 3\n", 1, "", 70, "status 1"),
            (script, "legal", 0, "", 70, "status 0"),
        ):
            with self.subTest(says=says, ends=ends):
                ended = self.judge(text, report, says, ends, tells)
                self.assertEqual(ended[:2], (status, ""))
                self.assertIn(words, ended[2])
                self.assertEqual(ended[2].count("\n"), 1)


if __name__ == "__main__":
    unittest.main()
