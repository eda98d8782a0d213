"""Tests of the readers: all examples, and scripts and reports that are malformed, each with the line that is named."""
from __future__ import annotations

import re
import unittest
from pathlib import Path

from hwp_view.forms import Malformed
from hwp_view.plain import beside_says
from hwp_view.report import read_report
from hwp_view.run import Run
from hwp_view.script import read_script

EXAMPLES = sorted((Path(__file__).resolve().parents[2] / "examples").glob("*.hwp"))
SCRIPT = """hwp 1
cpus 1
frames 2
proc 0
thread 0 0 0 handler
page 0 anon
trans 0 0 0
cpu 0
store 0 0 5 77
load 0 0 5
end
"""
REPORT = """hwp-report 1
stop none
count 0
frame 0 page 0 bad 0 weak 0
frame 1 free bad 0 weak 0
page 0 4
in 0 0
map 0 0 0
store 0 0 0 5 0 77
load 0 1 0 5 0 77
cpu 0 2
0 stored 0 2
1 value 77 0 3
end
"""
# What is put in place of what in SCRIPT (the first time it stands there), the line that is refused, and why.
SCRIPTS = [
    ("hwp 1\n", "", 1, "BadHeader"),
    ("hwp 1", "hwp 1 # my script", 1, "BadHeader"),
    ("hwp 1\n", "hwp 1\r\n", 1, "BadHeader"),
    ("cpus 1", "hwp 1", 2, "UnknownWord"),
    ("cpus 1", "CPUS 1", 2, "UnknownWord"),
    ("store", "sotre", 9, "UnknownWord"),
    ("store 0 0 5 77", "store 0 0 5", 9, "UnknownWord"),
    ("store 0 0 5 77", "store\t0 0 5 77", 9, "UnknownWord"),
    ("load 0 0 5", "load 0 0 5 # again", 10, "UnknownWord"),
    ("0 0 0 handler", "0 0 0", 5, "UnknownWord"),
    ("load 0 0 5", "raise kernel 0 0 1 1", 10, "UnknownWord"),
    ("end", "schedule\nend", 11, "UnknownWord"),
    ("end", "schedule 0@foo\nend", 11, "UnknownWord"),
    ("end", "schedule 0@\nend", 11, "UnknownWord"),
    ("end", "schedule x.\nend", 11, "BadNumber"),
    ("77", "18446744073709551616", 9, "BadNumber"),
    ("5 77", "05 77", 9, "BadNumber"),
    ("5 77", "-1 77", 9, "BadNumber"),
    ("77", "0x10", 9, "BadNumber"),
    ("load 0 0 5", "log 12 0 0", 10, "BadNumber"),
    ("5 77", "64 1", 9, "OverLimit"),
    ("cpus 1", "cpus 0", 2, "OverLimit"),
    ("frames 2", "frames 257", 3, "OverLimit"),
    ("frames 2", "frames 2\nearly 2", 4, "OverLimit"),
    ("load 0 0 5", "scrub 1 0", 10, "OverLimit"),
    ("end", "schedule 9\nend", 11, "OverLimit"),
    ("load 0 0 5", "load 0 1 5", 10, "Undeclared"),
    ("load 0 0 5", "sync 0", 10, "Undeclared"),
    ("load 0 0 5", "inject 2", 10, "Undeclared"),
    ("page 0 anon", "page 0 file 0 fill 3", 6, "Undeclared"),
    ("end", "schedule 1\nend", 11, "Undeclared"),
    ("thread", "proc 0\nthread", 5, "Twice"),
    ("frames 2", "frames 2\nkernel 1\nkernel 1", 5, "Twice"),
    ("end", "cpu 0\nend", 11, "Twice"),
    ("cpus 1\nframes 2", "frames 2\ncpus 1", 2, "WrongPlace"),
    ("cpus 1\nframes 2\n", "cpus 1\n", 3, "WrongPlace"),
    ("proc 0\n", "proc 1\n", 4, "WrongPlace"),
    ("cpu 0\n", "", 8, "WrongPlace"),
    ("page 0 anon", "page 0 anon\nproc 1", 7, "WrongPlace"),
    ("end", "end\nend", 12, "WrongPlace"),
    ("cpus 1", "cpus 2", 0, ""),
    ("end\n", "schedule 0 0. 0@load_pte\n# after it\n end ", 0, ""),
    ("end\n", "", 10, "NoEnd"),
]
# What is put in place of what in REPORT, and the line that is refused.
REPORTS = [
    ("hwp-report 1", "hwp-report 2", 1),
    ("stop none", "stop 0 2 shutdown", 2),
    ("stop none", "stop 0 1 severity S8 1 0fd 1 1 user", 2),
    ("count 0", "count 00", 3),
    ("frame 0 page 0", "frame 0 page 1", 4),
    ("frame 0 page 0", "frame 1 page 0", 4),
    ("frame 0 page 0", "frame 0 nowhere", 4),
    ("bad 0 weak 0", "bad 0x1 weak 0", 4),
    ("bad 0 weak 0", "bad 0 weak A", 4),
    ("frame 1 free", "frame 2 free", 5),
    ("frame 1 free", "poisoned 0 0 0 hw moved recovered\nframe 1 free", 5),
    ("frame 1 free", "poisoned 0 0 2 sw free recovered\nframe 1 free", 5),
    ("page 0 4", "page 0 5", 11),
    ("page 0 4", "page 0 3", 10),
    ("in 0 0", "in 1 0", 7),
    ("in 0 0", "in  0 0", 7),
    ("map 0 0 0", "map 0 0 1", 8),
    ("store 0 0 0 5 0 77", "store 0 0 0 64 0 77", 9),
    ("store 0 0 0 5 0 77", "store 0 0 0 5 sigbus 1", 9),
    ("store 0 0 0 5 0 77", "fail 0 0 anononly opt - 1 0", 10),
    ("store 0 0 0 5 0 77", "fail 0 0 anononly req - 0 0", 9),
    ("store 0 0 0 5 0 77", "fail 0 0 lost opt - 0 0", 9),
    ("store 0 0 0 5 0 77", "fail 0 0 anononly opt - 0 17", 9),
    ("0 stored 0 2", "0 stored 0", 12),
    ("0 stored 0 2", "2 stored 0 2", 12),
    ("0 stored 0 2", "0 stored 1 2", 12),
    ("1 value 77", "1 valued 77", 13),
    ("1 value 77 0 3", "1 event 0 bd 0 86 9 keep", 13),
    ("1 value 77 0 3", "1 event 0 bd 0 86 S9 bad", 13),
    ("1 value 77 0 3", "1 guest 0 bd 0 86 S9 keep", 13),
    ("1 value 77 0 3", "1 guest 0 bd 0 86 S9", 13),
    ("1 value 77 0 3", "1 guestbad 0", 13),
    ("1 value 77 0 3", "1 offlined 0", 13),
    ("1 value 77 0 3", "1 offlined 0 done", 13),
    ("1 value 77 0 3", "1 offlined 2 takenfree", 13),
    ("1 value 77 0 3", "1 offlined 0 moved 2 0 3", 13),
    ("1 value 77 0 3", "1 offlined 0 moved 1 0", 13),
    ("end\n", "", 14),
    ("end\n", "end", 14),
    ("end\n", "end\n\n", 15),
]
# Lines that may stand beside the answers of a processor, and answers of a guest.
BESIDE = """cpu 0 11
0 event 2 9c000000000000c0 40 86 S4 keep
0 offlined 0 moved 1 0 3
0 offlined 1 takenfree
0 offlined 0 already
0 offlined 0 hasbad 2a
0 offlined 0 noframe
0 offlined 0 stopped
0 guestbad
1 guest 0 bd80000000000134 140 86 S9 bad
1 guest 0 bd80000000000150 140 86 S10 stop
1 gueststopped
end
"""


def count(pattern: str, text: str) -> int:
    """How many lines of a text begin so."""
    return len(re.findall(f"^(?:{pattern})", text, re.MULTILINE))


class Readers(unittest.TestCase):
    """What is read, and what is refused."""

    def test_examples_are_read_whole(self) -> None:
        self.assertTrue(EXAMPLES)
        for path in EXAMPLES:
            with self.subTest(path.name):
                script = read_script(path.read_bytes())
                text = path.with_suffix(".report").read_text()
                report = read_report(text.encode(), script)
                listed = path.read_text().split("\ncpu ", 1)[1]
                lines = count(r"[a-z]", listed) - count(r"cpu |schedule |end", listed)
                self.assertEqual(sum(map(len, script.commands)), lines)
                entries = [entry for page in report.pages for entry in page]
                verbs = "in |map |free |drop |sync |out |soft |load |store |mce |fail "
                self.assertEqual(len(entries), count(verbs, text))
                self.assertEqual(sum(len(entry.signals) for entry in entries), count("signal ", text))
                self.assertEqual(sum(len(entry.seen) for entry in entries), count("seen ", text))
                self.assertEqual(sum(len(frame.marks) for frame in report.frames), count("poisoned |unpoisoned ", text))
                self.assertEqual(len(report.frames), count("frame ", text))
                self.assertEqual(sum(map(len, report.cpus)), count("[0-9]", text))

    def test_refused_scripts_name_the_line_and_the_reason(self) -> None:
        for old, new, line, why in SCRIPTS:
            with self.subTest(new=new, why=why):
                self.assertIn(old, SCRIPT)
                said = self.refusal(lambda: read_script(SCRIPT.replace(old, new, 1).encode()))
                self.assertTrue(said.startswith(f"script line {line}: {why}: ") if why else said == "", said)

    def test_limits_of_a_script(self) -> None:
        many = SCRIPT.replace("load 0 0 5\n", "load 0 0 5\n" * 4095)
        self.assertEqual(len(read_script(many.encode()).commands[0]), 4096)
        more = self.refusal(lambda: read_script(many.replace("end", "fsync 0\nend").encode()))
        self.assertTrue(more.startswith("script line 4105: OverLimit"), more)
        turns = SCRIPT.replace("end", ("schedule" + " 0" * 50_000 + "\n") * 2 + "end")
        self.assertEqual(len(read_script(turns.encode()).schedule), 100_000)
        more = self.refusal(lambda: read_script(turns.replace("end", "schedule 0\nend").encode()))
        self.assertTrue(more.startswith("script line 13: OverLimit"), more)
        long = b"#" * (1 << 20)
        self.assertTrue(self.refusal(lambda: read_script(long)).startswith("script line 1: BadHeader"))
        self.assertTrue(self.refusal(lambda: read_script(long + b"#")).startswith("script line 0: TooLong"))
        self.assertTrue(self.refusal(lambda: read_script(b"")).startswith("script line 1: BadHeader"))

    def test_refused_reports_name_the_line(self) -> None:
        script = read_script(SCRIPT.encode())
        self.assertEqual(self.refusal(lambda: read_report(REPORT.encode(), script)), "")
        for old, new, line in REPORTS:
            with self.subTest(new=new):
                self.assertIn(old, REPORT)
                said = self.refusal(lambda: read_report(REPORT.replace(old, new, 1).encode(), script))
                self.assertTrue(said.startswith(f"report line {line}: "), said)
                self.assertNotIn("\n", said)

    def test_lines_beside_answers_are_read(self) -> None:
        script = read_script(SCRIPT.encode())
        run = Run(script, read_report((REPORT.split("cpu 0 ")[0] + BESIDE).encode(), script))
        first, second = run.works[0]
        self.assertEqual((len(first.events), len(first.beside), first.answer and first.answer.text), (1, 6, "0 guestbad"))
        self.assertEqual((len(second.events), len(second.beside), second.answer and second.answer.text), (0, 2, "1 gueststopped"))
        self.assertEqual([command.seq for command in run.named_by[(0, 3)]], [0])
        said = [beside_says(line) for line in [*first.beside[:4], second.beside[0]]]
        frames = ["frame 0: moved to frame 1", "frame 1: takenfree", "frame 0: already", "frame 0: hasbad, bad lines 1, 3, 5"]
        self.assertEqual(said, [*frames, "guest's bank 0, S9: bad"])

    def test_every_byte_of_a_report_counts(self) -> None:
        script = read_script(SCRIPT.encode())
        for at in range(len(REPORT)):
            with self.subTest(at=at):
                said = self.refusal(lambda: read_report(REPORT[:at].encode(), script))
                self.assertTrue(said.startswith("report line "), said)
                line = REPORT[:at].count("\n") + 1
                broken = REPORT[:at] + "\xff" + REPORT[at:]
                said = self.refusal(lambda: read_report(broken.encode("latin-1"), script))
                self.assertTrue(said.startswith(f"report line {line}: ") and said.isascii(), said)

    def refusal(self, read: object) -> str:
        """What is said where the reading refuses, or nothing."""
        assert callable(read)
        try:
            read()
        except Malformed as why:
            return str(why)
        return ""


if __name__ == "__main__":
    unittest.main()
