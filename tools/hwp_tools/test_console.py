"""Tests of how the commands end: pipes that close early, full disks, and signals while the program runs."""
from __future__ import annotations

import os
import signal
import subprocess
import sys
import time
import unittest
from pathlib import Path

from hwp_tools.calling import Folder

HOME = Path(__file__).resolve().parents[2]
SCRIPT, REPORT = str(HOME / "examples" / "bad-line.hwp"), str(HOME / "examples" / "bad-line.report")
NAMES = ("hwp-lint", "hwp-judge", "hwp-explain", "hwp-words", "hwp-json")
SLEEPER = """#!/bin/sh
echo $$ > "$0.id"
exec sleep 1000
"""


def is_running(number: int) -> bool:
    """Whether there is a process of this number."""
    try:
        os.kill(number, 0)
    except ProcessLookupError:
        return False
    return True


class Ends(Folder):
    """Calls of the commands as processes."""

    def start(self, *words: str, out: int, program: str = "") -> subprocess.Popen[str]:
        """A call, by the name of the command and its words."""
        own = {**os.environ, "HWP_PROGRAM": program}
        call = [sys.executable, str(HOME / "bin" / words[0]), *words[1:]]
        return subprocess.Popen(call, env=own, stdin=subprocess.DEVNULL, stdout=out, stderr=subprocess.PIPE, text=True)

    def test_what_can_not_be_written_ends_with_status_5(self) -> None:
        for words in (["hwp-json", "report", SCRIPT, REPORT], *([name, "--help"] for name in NAMES)):
            with self.subTest(words=words):
                reading, writing = os.pipe()
                os.close(reading)
                ran = self.start(*words, out=writing)
                os.close(writing)
                told = ran.communicate(timeout=60)[1]
                self.assertEqual((ran.returncode, told), (5, f"{words[0]}: can't write: Broken pipe\n"))
        with open("/dev/full", "w", encoding="utf-8") as full:
            ran = self.start("hwp-json", "report", SCRIPT, REPORT, out=full.fileno())
            told = ran.communicate(timeout=60)[1]
        self.assertEqual((ran.returncode, told), (5, "hwp-json: can't write: No space left on device\n"))

    def test_a_signal_ends_the_program_too(self) -> None:
        for number in (signal.SIGTERM, signal.SIGINT, signal.SIGHUP):
            with self.subTest(number=number):
                # who calls the tests may have had the signal ignored, as nohup does
                self.addCleanup(signal.signal, number, signal.signal(number, signal.SIG_DFL))
                program = self.program(f"program{number}", SLEEPER)
                named = Path(f"{program}.id")
                ran = self.start("hwp-judge", SCRIPT, REPORT, out=subprocess.DEVNULL, program=program)
                for _ in range(600):
                    if named.exists() and named.read_text().endswith("\n"):
                        break
                    time.sleep(0.1)
                child = int(named.read_text())
                self.assertTrue(is_running(child))
                ran.send_signal(number)
                told = ran.communicate(timeout=60)[1]
                self.assertEqual((ran.returncode, told), (-number, ""))
                self.assertFalse(is_running(child))


if __name__ == "__main__":
    unittest.main()
