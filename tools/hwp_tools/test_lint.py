"""Tests of hwp-lint: typical mistakes, each with its line, column and reason, worked out from the reasons in docs/FORMATS.md."""
from __future__ import annotations

import shutil
import subprocess
import tempfile
import unittest
from importlib.machinery import SourceFileLoader
from importlib.util import module_from_spec, spec_from_loader
from pathlib import Path
from typing import Optional

from hwp_tools.lint import fault_of

HOME = Path(__file__).resolve().parents[2]
BASE = """hwp 1
cpus 2
frames 4
kernel 3
recovery 1
early 0
file 0
proc 0
proc 1
thread 0 0 0 handler
thread 1 1 1 nohandler
page 0 anon
page 1 file 0 fill 9
trans 0 0 0
trans 1 1 1
cpu 0
store 0 0 5 77
load 0 0 5
out 0
inject 0
scrub 0 3
log 0x9c000000000000c0 0x1000 0x8c
raise user 0 1 1
prctl 0 33 1 1 0 0
cpu 1
load 1 1 5
sync 1
fsync 0
raise kernel 1 1
raise nested
schedule 0 1. 0@lock_frame
end
"""
# A line of BASE, what a user wrote there (None: the line is missing), the line and the column that are named, the reason, and what
# the message says among other things.
MISTAKES: list[tuple[int, Optional[str], int, int, str, str]] = [
    (1, None, 1, 1, "BadHeader", "`hwp 1` or `hwp 2` alone"),
    (1, "hwp 3", 1, 1, "BadHeader", "`hwp 1` or `hwp 2` alone"),
    (1, "hwp 1 # a race", 1, 7, "BadHeader", "stands behind `hwp 1`"),
    (1, "\xef\xbb\xbfhwp 1", 1, 1, "BadHeader", "byte order mark"),
    (1, "hwp 1\r", 1, 6, "BadHeader", "plain line feeds"),
    (2, "cpus 2\r", 2, 7, "UnknownWord", "plain line feeds"),
    (2, "hwp 1", 2, 1, "UnknownWord", "leave this line out"),
    (2, "hwp 2", 2, 1, "UnknownWord", "leave this line out"),
    (2, "CPUS 2", 2, 1, "UnknownWord", "write `cpus N`"),
    (2, "cpu 2", 2, 5, "Undeclared", "none is declared; declare it above, by `cpus N`"),
    (2, "cpus two", 2, 6, "BadNumber", "write `cpus N`"),
    (2, "cpus 0", 2, 6, "OverLimit", "1 to 8"),
    (3, "frames 257", 3, 8, "OverLimit", "1 to 256"),
    (3, None, 3, 8, "Undeclared", "none is declared; declare it above, by `frames N`"),
    (4, "kernel 4", 4, 8, "Undeclared", "declared are 0 to 3"),
    (4, "kernel 3\nkernel 3", 5, 1, "Twice", "stands in line 4"),
    (5, "recovery yes", 5, 10, "BadNumber", "0 or 1"),
    (6, "early 2", 6, 7, "OverLimit", "0 to 1"),
    (7, "file 1", 7, 6, "WrongPlace", "write `file 0`"),
    (8, "process 0", 8, 1, "UnknownWord", "write `proc P`"),
    (9, "proc 0", 9, 1, "Twice", "stands in line 8"),
    (10, "thread 0 0 0", 10, 13, "UnknownWord", "`thread T P C handler` or `thread T P C nohandler`"),
    (10, "thread 0 0 0 sighandler", 10, 14, "UnknownWord", "'sighandler' may not stand here"),
    (10, "thread 0 0 2 handler", 10, 12, "Undeclared", "declared are 0, 1"),
    (8, "thread 0 0 0 handler\nproc 0", 8, 10, "Undeclared", "write line 9, which declares it, above this one"),
    (12, "page 0 anonymous", 12, 8, "UnknownWord", "`page Q anon`"),
    (13, "page 1 file 0", 13, 14, "UnknownWord", "`page Q file N fill X`"),
    (13, "page 1 file 0 fill 0x9", 13, 20, "BadNumber", "in decimal: `9`"),
    (13, "page 2 file 0 fill 9", 13, 6, "WrongPlace", "write `page 1`"),
    (12, "page 0 anon locked", 12, 13, "UnknownWord", "write `hwp 2` as the first line"),
    (12, "page 0 anon locked locked", 12, 20, "UnknownWord", "'locked' may not stand here"),
    (13, "page 1 file 0 fill locked", 13, 20, "BadNumber", "write `page Q anon`"),
    (13, "page x file 0 fill 9 locked", 13, 22, "UnknownWord", "write `hwp 2` as the first line"),
    (15, "trans 1 1 2", 15, 11, "Undeclared", "by `page Q anon`"),
    (15, "trans 1 1 1\nproc 2", 16, 1, "WrongPlace", "stands below `thread` (line 10)"),
    (16, None, 16, 1, "WrongPlace", "write `cpu C`"),
    (17, "sotre 0 0 5 77", 17, 1, "UnknownWord", "write `store T V L X`"),
    (17, "store 0 0 5", 17, 12, "UnknownWord", "words are missing"),
    (17, "store\t0 0 5 77", 17, 6, "UnknownWord", "spaces between the words"),
    (17, "store 0 0 5 0x4d", 17, 13, "BadNumber", "in decimal: `77`"),
    (17, "store 0 0 64 77", 17, 11, "OverLimit", "0 to 63"),
    (17, "store 0 0 5 18446744073709551616", 17, 13, "BadNumber", "up to 18446744073709551615"),
    (18, "load 0 0 5 # again", 18, 12, "UnknownWord", "on a line of its own"),
    (18, " # load", 18, 2, "UnknownWord", "whose first byte is `#`"),
    (18, "load 0 0 05", 18, 10, "BadNumber", "without leading zeros: `5`"),
    (18, "load 0 0 -1", 18, 10, "BadNumber", "without a sign"),
    (18, "load 0 0 5 5", 18, 12, "UnknownWord", "'5' may not stand here"),
    (18, "load 0 1 5", 18, 8, "Undeclared", "those of process 0 are: 0"),
    (18, "load 0 2 5", 18, 8, "Undeclared", "by `trans V P Q`"),
    (18, "load 1 1 5", 18, 6, "WrongPlace", "below `cpu 1`"),
    (18, "loàd 0 0 5".encode().decode("latin-1"), 18, 3, "UnknownWord", "ASCII"),
    (19, "out 1", 19, 5, "Undeclared", "write `sync 1`"),
    (20, "inject 4", 20, 8, "Undeclared", "declared are 0 to 3"),
    (20, "inject 256", 20, 8, "OverLimit", "0 to 255"),
    (20, "inject", 20, 7, "UnknownWord", "write `inject F`"),
    (21, "scrub 3 0", 21, 7, "OverLimit", "`scrub 0 3`"),
    (22, "log 12 0 0", 22, 5, "BadNumber", "write `0xc`"),
    (22, "log 0x 0 0", 22, 5, "BadNumber", "hex digits"),
    (23, "raise 0 1 1", 23, 7, "UnknownWord", "`raise kernel R E`"),
    (23, "raise user 0", 23, 13, "UnknownWord", "`raise user T R E`"),
    (23, "raise user 1 1 1", 23, 12, "WrongPlace", "below `cpu 1`"),
    (24, "prctl 0 PR_MCE_KILL 1 1 0 0", 24, 9, "BadNumber", "its number, 33"),
    (25, "cpu 0", 25, 1, "Twice", "stands in line 16"),
    (27, "sync 0", 27, 6, "Undeclared", "write `out 0`"),
    (28, "fsync 1", 28, 7, "Undeclared", "by `file N`"),
    (28, "open 0", 28, 1, "UnknownWord", "write `hwp 2` as the first line"),
    (28, "open x", 28, 1, "UnknownWord", "write `hwp 2` as the first line"),
    (28, "open", 28, 5, "UnknownWord", "write `open N`"),
    (28, "watch 1 1", 28, 1, "UnknownWord", "write `hwp 2` as the first line"),
    (28, "watch 0 x", 28, 1, "UnknownWord", "write `hwp 2` as the first line"),
    (29, "raise kernel 2 1", 29, 14, "OverLimit", "0 to 1"),
    (31, "schedule", 31, 9, "UnknownWord", "no word stands behind `schedule`"),
    (31, "schedule 0@lock_fram", 31, 12, "UnknownWord", "write `0@lock_frame`"),
    (31, "schedule 0 1@", 31, 14, "UnknownWord", "the kinds are adopt,"),
    (31, "schedule 0@get_ref@1", 31, 10, "UnknownWord", "more than one `@`"),
    (31, "schedule 0 0,1", 31, 12, "BadNumber", "no comma"),
    (31, "schedule 0 0..", 31, 12, "BadNumber", "the number of a processor"),
    (31, "schedule 0 2", 31, 12, "Undeclared", "declared are 0, 1"),
    (31, "schedule 0 1. 8", 31, 15, "OverLimit", "0 to 7"),
    (31, "schedule 0\nload 1 1 5", 32, 1, "WrongPlace", "stands below `schedule` (line 31)"),
    (31, "schedule 0\ncpu 1", 32, 1, "Twice", "stands in line 25"),
    (32, None, 31, 27, "NoEnd", "write `end` below it"),
    (32, "end\nend", 33, 1, "WrongPlace", "stands below `end` (line 32)"),
    (32, "end\nschedule 0", 33, 1, "WrongPlace", "write `end` as the last line"),
]
# The same of BASE in version 2.
NEWER_MISTAKES: list[tuple[int, Optional[str], int, int, str, str]] = [
    (2, "hwp 2", 2, 1, "UnknownWord", "leave this line out"),
    (2, "cpus 17", 2, 6, "OverLimit", "1 to 16"),
    (3, "frames 4097", 3, 8, "OverLimit", "1 to 4096"),
    (12, "page 0 anon locked locked", 12, 20, "UnknownWord", "'locked' may not stand here"),
    (13, "page 1 file 0 fill locked", 13, 20, "BadNumber", "write `page Q anon`"),
    (13, "page 1 locked file 0 fill 9", 13, 8, "UnknownWord", "'locked' may not stand here"),
    (20, "inject 4096", 20, 8, "OverLimit", "0 to 4095"),
    (20, "inject 300", 20, 8, "Undeclared", "declared are 0 to 3"),
    (28, "open 1", 28, 6, "Undeclared", "by `file N`"),
    (28, "open 16", 28, 6, "OverLimit", "0 to 15"),
    (28, "open", 28, 5, "UnknownWord", "words are missing"),
    (28, "watch 0 1", 28, 7, "OverLimit", "1 to 1000"),
    (28, "watch 1001 1", 28, 7, "OverLimit", "1 to 1000"),
    (28, "watch 1 65", 28, 9, "OverLimit", "1 to 64"),
    (28, "watch 1 0", 28, 9, "OverLimit", "1 to 64"),
    (28, "watch x 1", 28, 7, "BadNumber", "'x' is no number"),
    (28, "Watch 1 1", 28, 1, "UnknownWord", "one with `watch`"),
    (28, "watch 1", 28, 8, "UnknownWord", "words are missing"),
    (28, "watch 1 1 1", 28, 11, "UnknownWord", "'1' may not stand here"),
    (31, "schedule 0 16", 31, 12, "OverLimit", "0 to 15"),
    (31, "schedule 0 8", 31, 12, "Undeclared", "declared are 0, 1"),
]
FORKS = """hwp 2
cpus 2
frames 4
proc 0
proc 1
proc 2
thread 0 0 0 handler
thread 1 1 0 handler
thread 2 2 1 handler
page 0 anon
page 1 anon
page 2 anon
page 3 anon
trans 0 0 0
trans 1 1 0
trans 2 0 1
trans 3 1 2
trans 4 2 3
cow 0 2
cow 1 3
cpu 0
store 0 0 5 77
fork 0 1
load 1 1 5
end
"""
# The same of FORKS.
FORK_MISTAKES: list[tuple[int, Optional[str], int, int, str, str]] = [
    (1, "hwp 1", 19, 1, "UnknownWord", "write `hwp 2` as the first line"),
    (20, "cow 1", 20, 6, "UnknownWord", "words are missing"),
    (20, "cow 1 x", 20, 7, "BadNumber", "write `cow V W`"),
    (20, "cow 1 4096", 20, 7, "OverLimit", "0 to 4095"),
    (20, "cow 1 5", 20, 7, "Undeclared", "by `trans V P Q`"),
    (20, "cow 1 4", 20, 7, "Undeclared", "two translations of one process"),
    (20, "cow 1 1", 20, 7, "Undeclared", "two translations of one process"),
    (20, "cow 0 2", 20, 5, "Twice", "translation 0 has a twin already"),
    (20, "cow 4 2", 20, 7, "Undeclared", "isn't of process 2"),
    (20, "cow 2 0", 20, 5, "WrongPlace", "translation 2 is itself a twin"),
    (18, "trans 4 1 2", 20, 7, "WrongPlace", "page 2, to which translation 3 leads, has another translation"),
    (21, "cpu 0\ncow 1 3", 22, 5, "Twice", "leave one of the two"),
    (20, "cpu 0\ncow 1 3", 21, 1, "WrongPlace", "stands below `cpu` (line 20)"),
    (22, "load 0 2 5", 22, 8, "WrongPlace", "write `0`, the translation whose twin it is"),
    (22, "free 3", 22, 6, "WrongPlace", "write `1`, the translation whose twin it is"),
    (22, "store 2 4 5 1", 22, 7, "WrongPlace", "below `cpu 1`"),
    (23, "fork 0", 23, 7, "UnknownWord", "words are missing"),
    (23, "Fork 0 1", 23, 1, "UnknownWord", "write `fork T P`"),
    (23, "fork 0 16", 23, 8, "OverLimit", "0 to 15"),
    (23, "fork 0 3", 23, 8, "Undeclared", "by `proc P`"),
    (23, "fork 0 0", 23, 8, "WrongPlace", "process 0 is that of thread 0 itself"),
    (23, "fork 0 2", 23, 8, "WrongPlace", "thread 2 of process 2 is on another processor"),
    (23, "fork 2 1", 23, 6, "WrongPlace", "below `cpu 1`"),
    (22, "load 1 1 5", 23, 8, "WrongPlace", "`load 1 1 5` in line 22"),
    (22, "fork 0 1", 23, 8, "WrongPlace", "process 1 was forked before"),
    (20, None, 22, 8, "WrongPlace", "translation 1 to page 0 has no `cow` line"),
    (18, "trans 4 0 0", 23, 8, "WrongPlace", "translation 4 to page 0 has no `cow` line"),
    (18, "trans 4 2 0", 23, 8, "WrongPlace", "translation 4 to page 0 is of process 2"),
]
# A script with a guest.
GUESTS = """hwp 2
cpus 2
frames 2
proc 0
proc 1
thread 0 0 0 handler
thread 1 1 1 handler
thread 2 0 0 handler
guest 0
page 0 anon
trans 0 0 0
cpu 0
store 0 0 5 77
end
"""
# The same of GUESTS.
GUEST_MISTAKES: list[tuple[int, Optional[str], int, int, str, str]] = [
    (1, "hwp 1", 9, 1, "UnknownWord", "write `hwp 2` as the first line"),
    (9, "guest", 9, 6, "UnknownWord", "words are missing"),
    (9, "guest x", 9, 7, "BadNumber", "write `guest P`"),
    (9, "guest 16", 9, 7, "OverLimit", "0 to 15"),
    (9, "guest 2", 9, 7, "Undeclared", "by `proc P`"),
    (10, "guest 0", 10, 7, "Twice", "process 0 is a guest already"),
    (8, "thread 2 0 0 nohandler", 9, 7, "WrongPlace", "thread 2 of process 0 has no handler"),
    (8, "thread 2 0 1 handler", 9, 7, "WrongPlace", "threads 0 and 2 of process 0 run on two processors"),
    (9, "page 0 anon\nguest 0", 10, 1, "WrongPlace", "stands below `page` (line 9)"),
]
# The check that tries the program on the tables of refused scripts, which reads them.
REFUSALS = SourceFileLoader("refusals", str(HOME / ".ci" / "refusals"))


def changed(number: int, text: Optional[str], base: str = BASE) -> bytes:
    """A script with another text in place of a line."""
    lines: list[Optional[str]] = list(base.splitlines())
    lines[number - 1] = text
    return "".join(f"{line}\n" for line in lines if line is not None).encode("latin-1")


class Lint(unittest.TestCase):
    """What is said of scripts, and of none that is as it should be."""

    def test_typical_mistakes_are_told_with_what_to_write(self) -> None:
        newer = BASE.replace("hwp 1", "hwp 2")
        mistakes = [(BASE, *mistake) for mistake in MISTAKES] + [(newer, *mistake) for mistake in NEWER_MISTAKES]
        mistakes += [(FORKS, *mistake) for mistake in FORK_MISTAKES]
        mistakes += [(GUESTS, *mistake) for mistake in GUEST_MISTAKES]
        for base, number, text, line, column, why, says in mistakes:
            with self.subTest(base=base[:5], number=number, text=text):
                fault = fault_of(changed(number, text, base))
                assert fault is not None
                self.assertEqual((fault.line, fault.column, fault.why), (line, column, why), fault.text)
                self.assertIn(says, fault.text)
                self.assertTrue(fault.text.isascii() and fault.text.isprintable(), fault.text)

    def test_limits_of_a_script_are_told(self) -> None:
        self.assertIsNone(fault_of(FORKS.encode()))
        self.assertIsNone(fault_of(GUESTS.encode()))
        for head, page, ask in (("hwp 1", "anon", "fsync"), ("hwp 2", "anon", "fsync"), ("hwp 2", "anon locked", "open")):
            script = BASE.replace("hwp 1", head).replace("page 0 anon", f"page 0 {page}").replace("fsync 0", f"{ask} 0")
            self.assertIsNone(fault_of(script.encode()))
        for data, line, why in (
            (b"", 1, "BadHeader"),
            (b"# nothing\n\n", 1, "BadHeader"),
            (b"hwp 1", 1, "NoEnd"),
            (b"#" * (1 << 20) + b"\n", 0, "TooLong"),
            (BASE.replace("load 0 0 5\n", "load 0 0 5\n" * 4096).encode(), 4113, "OverLimit"),
            (BASE.replace("schedule 0", "schedule" + " 0" * 99_998 + "\nschedule 0").encode(), 32, "OverLimit"),
        ):
            with self.subTest(data=data[:40]):
                fault = fault_of(data)
                assert fault is not None
                self.assertEqual((fault.line, fault.why), (line, why), fault.text)

    def test_scripts_of_the_repository_are_told_as_it_says(self) -> None:
        spec = spec_from_loader("refusals", REFUSALS)
        assert spec is not None
        refusals = module_from_spec(spec)
        REFUSALS.exec_module(refusals)
        tables = sorted((HOME / "tests" / "refused").glob("*.txt"))
        tried = sum(self.told(row.text, row.said) for table in tables for row in refusals.rows(table.name))
        self.assertGreaterEqual(tried, 380)

    def told(self, data: bytes, said: str) -> int:
        """Whether the script is refused as the program says, or has no fault where it says nothing."""
        with self.subTest(data=data):
            fault = fault_of(data)
            self.assertEqual(f"script line {fault.line}: {fault.why}" if fault else "", said, fault and fault.text)
        return 1

    def test_scripts_that_run_have_no_fault(self) -> None:
        paths = [path for folder in ("examples", "tests") for path in sorted((HOME / folder).rglob("*.hwp"))]
        self.assertTrue(paths)
        for path in paths:
            with self.subTest(path.name):
                self.assertIsNone(fault_of(path.read_bytes()))

    @unittest.skipUnless(shutil.which("vim"), "there is no vim here")
    def test_vim_goes_to_the_place(self) -> None:
        with tempfile.TemporaryDirectory() as folder:
            path, places = Path(folder) / "a race.hwp", Path(folder) / "places"
            path.write_bytes(changed(17, "sotre 0 0 5 77"))
            listed = "map(getqflist(), {_, e -> bufname(e.bufnr) . '|' . e.lnum . '|' . e.col . '|' . e.text})"
            keys = ["compiler hwp", "silent make", f"call writefile({listed}, '{places}')", "qa!"]
            calls = [part for key in keys for part in ("-c", key)]
            vim = ["vim", "-N", "-u", "NONE", "-i", "NONE", "-es", "--cmd", f"set rtp^={HOME}/docs/vim", str(path), *calls]
            subprocess.run(vim, stdin=subprocess.DEVNULL, stdout=subprocess.DEVNULL, cwd=folder, timeout=60, check=False)
            self.assertRegex(places.read_text(), r"a race\.hwp\|17\|1\|UnknownWord: ")


if __name__ == "__main__":
    unittest.main()
