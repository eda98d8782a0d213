"""Tests of what tools/linux/run does without a machine: the order of commands, what the kernel's log says, archives, tables and words."""
from __future__ import annotations

import os
import unittest
from pathlib import Path
from typing import Optional
from unittest import mock

from hwp_tools.calling import Folder, call
from hwp_tools.console import Ended
from hwp_view.script import Script, read_script

from hwp_linux import boot, cli
from hwp_linux.compare import signal_differences
from hwp_linux.plan import NoForm, Signal, order_of
from hwp_linux.recording import Recorder, Recording, Untrue
from hwp_linux.scripts import MACHINE, Tried, logs_of, scripts_of, touched, verdict_of
from hwp_linux.twin import OF_FILE, PRIVATE, SHARED, Twin, outcomes

HEAD = "hwp 1\ncpus 2\nframes 4\nfile 0\nproc 0\nproc 1\nthread 0 0 0 handler\nthread 1 1 1 handler\n"
PAGES = "page 0 anon\npage 1 anon\npage 2 anon\npage 3 file 0 fill 9\n"
TRANSLATIONS = "trans 0 0 0\ntrans 1 0 1\ntrans 2 1 1\ntrans 3 0 2\ntrans 4 0 3\n"
LISTS = "cpu 0\nstore 0 0 0 5\nload 0 0 0\nfree 3\ncpu 1\nload 1 2 0\ninject 0\n"

# A schedule, and the order of the commands that it gives, or None where it has no form.
ORDERS: list[tuple[str, Optional[list[tuple[int, int]]]]] = [
    ("", [(0, 0), (0, 1), (0, 2), (1, 0), (1, 1)]),
    ("schedule 1. 0. 1.\n", [(1, 0), (0, 0), (1, 1), (0, 1), (0, 2)]),
    ("schedule 1. 1. 1. 1. 0.\n", [(1, 0), (1, 1), (0, 0), (0, 1), (0, 2)]),
    ("schedule 0. 0\n", None),
    ("schedule 0@poison 1.\n", None),
]
LOG = [
    "log Memory failure: 0x10: recovery action for dirty LRU page: Recovered",
    "log Memory failure: 0x12: Sending SIGBUS to init:82 due to hardware memory corruption",
    "log Memory failure: 0x11: recovery action for reserved kernel page: Ignored",
    "log Memory failure: 0x10: already hardware poisoned",
    "log Memory failure: 0x1000000: memory outside kernel control",
    "log Memory failure: 0x13: recovery action for dirty swapcache page: Delayed",
]
# An expectation, and the verdict that it asks for, or None where it is none.
EXPECTATIONS = [
    ("same", "same"),
    ("no form", "no form there"),
    ("differs never stored", "differs as understood: never stored"),
    ("differs untouched mapping; first mapping", "differs as understood: first mapping; untouched mapping"),
    ("differs", None),
    ("differs by a rule that there isn't", None),
    ("same again", None),
    ("no", None),
]
# A status, and what is logged for it.
LOGS = [
    (0xBD80000000000134, "log 0xbd80000000000134 0x0 0x86"),
    (0xFD80000000000134, "log 0x8000000000000000 0x0 0x86\nlog 0xfd80000000000134 0x0 0x86"),
    (0xDC000000000000C0, "log 0xdc000000000000c0 0x0 0x86\nlog 0x8000000000000000 0x0 0x86"),
]


def script(schedule: str = "") -> Script:
    """A script with this schedule."""
    return read_script(f"{HEAD}{PAGES}{TRANSLATIONS}{LISTS}{schedule}end\n".encode())


class Plans(unittest.TestCase):
    """What a script is on Linux."""

    def test_order(self) -> None:
        for schedule, due in ORDERS:
            with self.subTest(schedule):
                if due is None:
                    self.assertRaises(NoForm, order_of, script(schedule))
                else:
                    self.assertEqual(order_of(script(schedule)), due)

    def test_a_script_with_a_guest_has_no_form(self) -> None:
        guest = read_script(b"hwp 2\ncpus 1\nframes 1\nproc 0\nguest 0\ncpu 0\nlog 0x0 0x0 0x0\nend\n")
        self.assertRaises(NoForm, order_of, guest)

    def test_kinds_of_pages(self) -> None:
        self.assertEqual(Twin(Recording(""), script()).kinds, [PRIVATE, SHARED, SHARED, OF_FILE])

    def test_touches_stand_behind_all_commands(self) -> None:
        tried = touched(Tried("s", f"{HEAD}{PAGES}{TRANSLATIONS}{LISTS}schedule 1. 0.\nend\n".encode(), script("schedule 1. 0.\n"), None))
        texts = [tried.script.commands[cpu][number].text for cpu, number in order_of(tried.script)]
        first = ["load 1 2 0", "store 0 0 0 5", "load 0 0 0", "free 3", "inject 0"]
        self.assertEqual(texts, [*first, "load 0 0 0", "load 0 1 0", "load 1 2 0", "load 0 3 0", "load 0 4 0"])

    def test_log(self) -> None:
        frames = [0x10, 0x10, 0x11, 0x12, 0x1000000, 0x13]
        self.assertEqual(outcomes(LOG, frames), ["recovered", "already", "ignored", "nothing", "outside", "delayed"])

    def test_signals(self) -> None:
        due = [Signal(0, "ar", 0), Signal(1, "ao", 1)]
        came = [Signal(0, "ar", 2), Signal(2, "ao", 1)]
        self.assertEqual([one.about for one in signal_differences(due, came)], ["address", "missing", "extra"])
        self.assertEqual(list(signal_differences(due, due[::-1])), [])


class Texts(Folder):
    """Expectations, tables, recordings and archives."""

    def test_expectations(self) -> None:
        for text, due in EXPECTATIONS:
            with self.subTest(text):
                if due is None:
                    self.assertRaises(Ended, verdict_of, text, "here")
                else:
                    self.assertEqual(verdict_of(text, "here"), due)

    def test_banks(self) -> None:
        for status, due in LOGS:
            self.assertEqual(logs_of(status), due)
        rows = scripts_of([self.file("a.table", "# rows\nbd80000000000134 | kernel | same\n")])
        text = MACHINE.format(logs=LOGS[0][1], mode="kernel 1 1")
        self.assertEqual([(row.name, row.data.decode(), row.expected) for row in rows], [("bd80000000000134 kernel", text, "same")])

    def test_recording(self) -> None:
        recorder = Recorder(Recording("> load 0 0 0\n< count 0\n< = did 5\n"))
        self.assertEqual(recorder.order("load 0 0 0"), ["count 0", "= did 5"])
        self.assertEqual(recorder.text(), "> load 0 0 0\n< count 0\n< = did 5\n")
        self.assertRaises(Untrue, Recording("> load 0 0 1\n< = did 5\n").order, "load 0 0 0")

    def test_archive(self) -> None:
        data = boot.archive({"init": (0o100755, b"abc")})
        self.assertEqual((len(data) % 4, data[:6], data[54:62]), (0, b"070701", b"00000003"))
        self.assertIn(b"init\0", data)
        self.assertTrue(data.endswith(b"TRAILER!!!\0\0\0\0"))


class Ends(Folder):
    """What is told where something is missing."""

    def run_with(self, *words: str, **environment: str) -> tuple[int, str]:
        """The status of a call, and what it tells."""
        program = self.program("hwp", '#!/bin/sh\nexec cat "$0.report"\n')
        report = "hwp-report 1\nstop none\ncount 0\nframe 0 free bad 0 weak 0\ncpu 0 0\nend\n"
        Path(f"{program}.report").write_text(report, encoding="utf-8")
        path = self.file("s.hwp", "# linux no form\nhwp 1\ncpus 1\nframes 1\ncpu 0\nend\n")
        ended = call("run", cli.main, [path, *words], {"HWP_PROGRAM": program, "HWP_KERNEL": "", **environment})
        return ended.status, ended.told.strip()

    def test_kernel(self) -> None:
        with mock.patch.dict(os.environ):
            os.environ.pop("HWP_KERNEL", None)
            status, told = self.run_with("--kernel", str(self.folder / "none.deb"), "--qemu", "/bin/true")
        self.assertEqual(status, 4)
        self.assertIn("apt-get download", told)
        status, told = self.run_with("--kernel", str(self.folder), "--qemu", "/bin/true")
        self.assertEqual((status, told.endswith("it is no unpacked kernel")), (2, True))

    def test_qemu(self) -> None:
        status, told = self.run_with("--kernel", str(self.folder), "--qemu", str(self.folder / "none"))
        self.assertEqual((status, told.split(": ")[-1]), (70, "the package qemu-system-x86 has it"))


if __name__ == "__main__":
    unittest.main()
