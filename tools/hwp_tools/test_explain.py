"""Tests of hwp-explain: bits and codes by hand from Intel's layout of MCi_STATUS, rows as a stand-in for the program tells them, and
records as mcelog, rasdaemon and the kernel's log write them."""
from __future__ import annotations

import unittest
from typing import Sequence
from unittest import mock

from hwp_tools import explain
from hwp_tools.calling import Call, Folder, call
from hwp_tools.console import Answer

# A status, the flags that are set, its code in words, and its class.
STATUSES = [
    (0xBD80000000000134, "VAL UC EN MISCV ADDRV S AR", "a cache: a data load, data, level 0", "uncorrected"),
    (0xBD80000000000150, "VAL UC EN MISCV ADDRV S AR", "a cache: an instruction fetch, instructions, level 0", "uncorrected"),
    (0xBD000000000000C0, "VAL UC EN MISCV ADDRV S", "memory: scrubbing, channel 0", "uncorrected"),
    (0x9C000000000000CF, "VAL EN MISCV ADDRV", "memory: scrubbing, any channel", "corrected"),
    (0xBD0000000000017A, "VAL UC EN MISCV ADDRV S", "a cache: an eviction or writeback, any content, level 2", "uncorrected"),
    (0xFE00000000000000, "VAL OVER UC EN MISCV ADDRV PCC", "no error", "fatal"),
    (0xCC0000400001009F, "VAL OVER MISCV ADDRV", "memory: a read, any channel", "corrected"),
    (0x8000000000001014, "VAL", "a TLB: data, level 0", "corrected"),
    (0x8000000000000E0B, "VAL", "a bus or interconnect: an access", "corrected"),
    (0xA200000000000402, "VAL UC PCC", "a code without parts", "fatal"),
]
MACHINE = "hwp 1\ncpus 1\nframes 1\nproc 0\nthread 0 0 0 handler\ncpu 0\n"
# A status, and what the scripts log before the machine check, so that the bank holds it.
LOGS = [
    ("bd80000000000134", "log 0xbd80000000000134 0x0 0x86\n"),
    ("fd80000000000134", "log 0x8000000000000000 0x0 0x0\nlog 0xfd80000000000134 0x0 0x86\n"),
    ("fe00000000000134", "log 0x8000000000000000 0x0 0x0\nlog 0xfe00000000000134 0x0 0x86\n"),
    ("dc000000000000c0", "log 0xdc000000000000c0 0x0 0x86\nlog 0x8000000000000000 0x0 0x0\n"),
]
RAISES = [f"raise {mode} {ripv} {eipv}\n" for mode in ("user 0", "kernel") for ripv in (1, 0) for eipv in (1, 0)]
MCELOG = """Hardware event. This is not a software error.
MCE 0
CPU 1 BANK 8 TSC 2a4b3c
RIP 33:401136
MISC 8c ADDR 12345678
TIME 1262304000 Fri Jan  1 00:00:00 2010
MCG status:
STATUS 9c000000000000c0 MCGSTATUS 0
MCGCAP 1c09 APICID 0 SOCKETID 0
CPUID Vendor Intel Family 6 Model 26
Hardware event. This is not a software error.
MCE 1
CPU 0 BANK 1
STATUS be00000000000150 MCGSTATUS 5
"""
RASDAEMON = (
    "  kworker/0:1-42 [000] 0.000012: mce_record 2026-11-29 16:00:00 +0000 bank=1, status= bd80000000000134, "
    "mci=Uncorrected_error, mca=Data CACHE Level-0 Data-Read Error, cpu_type= Intel, cpu= 0, socketid= 0, "
    "misc= 86, addr= 3fc0, mcgstatus= 7, mcgcap= 1c09, apicid= 0\n"
)
SUMMARY = "1 2026-11-29 error: Corrected, mcg mcgstatus=0, mcgcap=0x1c09, status=0x9c000000000000cf, addr=0x1000, misc=0x8c, cpu=0x0\n"
KERNEL = """[  12.3] mce: [Hardware Error]: CPU 3: Machine Check: 0 Bank 7: 9c000000000000c1
[  12.3] mce: [Hardware Error]: TSC 2a4b3c ADDR 2000 MISC 8c
"""
RECORDS: list[tuple[str, list[str], list[str]]] = [
    (MCELOG, [], ["# FILE:3", "log 0x9c000000000000c0 0x12345678 0x8c", "# FILE:13", "log 0xbe00000000000150 0x0 0x0"]),
    (MCELOG, ["--frame", "2"], ["# FILE:3", "log 0x9c000000000000c0 0x2678 0x8c", "# FILE:13", "log 0xbe00000000000150 0x2000 0x0"]),
    (RASDAEMON, [], ["# FILE:1", "log 0xbd80000000000134 0x3fc0 0x86"]),
    (SUMMARY * 2, [], ["# FILE:1", "log 0x9c000000000000cf 0x1000 0x8c", "# FILE:2", "log 0x9c000000000000cf 0x1000 0x8c"]),
    (KERNEL, [], ["# FILE:1", "log 0x9c000000000000c1 0x2000 0x8c"]),
]
# A text without a record that can be read, and where that is said.
NO_RECORDS = [
    ("", ": no record"),
    ("CPU 0 BANK 1\nADDR 1000\n", ":1: the record that begins here has no STATUS"),
    ("CPU 0 BANK 1\nSTATUS zz\n", ":2: 'zz' is no STATUS"),
    ("CPU 0 BANK 1\nSTATUS 12345678901234567\n", ":2: '12345678901234567' is no STATUS"),
    ("CPU 0 BANK 1\nSTATUS 12\nSTATUS 13\n", ":3: a second STATUS in the record of line 1"),
    ("ADDR 1000\nCPU 0 BANK 1\nSTATUS 12\n", ":1: ADDR stands in no record"),
    ("mce_record bank=1, status= , addr= 12\n", ":1: '' is no STATUS"),
]


class StandIn:
    """A stand-in for the program: it keeps the scripts, and tells of the last status that is not a plain corrected event."""

    def __init__(self, row: int, changes: int = 0) -> None:
        self.scripts: list[str] = []
        self.row, self.changes = row, changes

    def __call__(self, name: str, words: Sequence[str], data: bytes) -> Answer:
        text = data.decode()
        self.scripts.append(text)
        logs = [line.split() for line in text.splitlines() if line.startswith("log ") and not line.startswith("log 0x8000000000000000 ")]
        commands = text.count("\nlog ")
        status, misc = int(logs[0][1], 16) ^ self.changes, int(logs[0][3], 16)
        done = "".join(f"{seq} done\n" for seq in range(commands))
        event = f"{commands} event 1 {status:x} 0 {misc:x} S{self.row} none\n{commands} raised 1\n"
        report = f"hwp-report 1\nstop none\ncount 0\nframe 0 free bad 0 weak 0\ncpu 0 {commands + 2}\n{done}{event}end\n"
        return Answer(0, report.encode(), "")


class Explain(Folder):
    """What hwp-explain writes, and its status."""

    def explain(self, *words: str, stand_in: object = None) -> Call:
        """A call with a stand-in for the program."""
        with mock.patch.object(explain, "ask", stand_in or StandIn(13)):
            return call("hwp-explain", explain.main, words, {})

    def test_bits_and_codes_have_their_names(self) -> None:
        for status, flags, code, kind in STATUSES:
            with self.subTest(status=f"{status:x}"):
                lines = self.explain(f"{status:x}", "86").out.splitlines()
                self.assertEqual(lines[0], f"status {status:#x}")
                told = [line.split()[1] for line in lines[1:10] if line.split()[2] == "1"]
                self.assertEqual(told, flags.split())
                self.assertEqual([line.split()[0] for line in lines[1:10]], [str(bit) for bit in range(63, 54, -1)])
                self.assertTrue(any(line.startswith("   15-0 ") and line.endswith(f"  {code}") for line in lines), lines)
                self.assertTrue(any(line.startswith(f"class: {kind} (") for line in lines), lines)
                misc = "misc 0x86: a physical address (bits 8-6), valid from bit 6 on (bits 5-0)"
                self.assertEqual(misc in lines, "MISCV" in flags)

    def test_the_program_is_asked_for_each_mode(self) -> None:
        for status, logs in LOGS:
            with self.subTest(status=status):
                stand_in = StandIn(9)
                out = self.explain("0x" + status, "0x86", stand_in=stand_in).out
                self.assertEqual(stand_in.scripts, [f"{MACHINE}{logs}{raised}end\n" for raised in RAISES])
                rows = [line.split()[:5] for line in out.splitlines()[-8:]]
                cases = [[mode, ripv, eipv, "S9", "required"] for mode in ("user", "kernel") for ripv in "10" for eipv in "10"]
                self.assertEqual(rows, cases)

    def test_an_invalid_status_is_in_no_bank(self) -> None:
        stand_in = StandIn(9)
        self.assertIn("graded by row S1, none", self.explain("3d80000000000134", stand_in=stand_in).out)
        self.assertEqual(stand_in.scripts, [])

    def test_an_answer_of_the_program_that_cannot_be_is_told(self) -> None:
        def ends(status: int, out: bytes) -> object:
            return lambda *_: Answer(status, out, "out of memory" if status == 6 else "")

        for stand_in, status in ((StandIn(9, 1), 70), (ends(0, b"hwp-report 1\n"), 70), (ends(1, b""), 70), (ends(6, b""), 6)):
            with self.subTest(status=status):
                ended = self.explain("bd80000000000134", stand_in=stand_in)
                self.assertEqual((ended.status, ended.out), (status, ""))
                self.assertEqual(ended.told.count("\n"), 1)

    def test_records_become_lines_of_a_script(self) -> None:
        for text, words, lines in RECORDS:
            with self.subTest(text=text[:30], words=words):
                path = self.file("records", text)
                written = self.explain("--record", path, *words)
                self.assertEqual((written.status, written.told), (0, ""))
                self.assertEqual(written.out.replace(path, "FILE").splitlines(), lines)

    def test_what_is_no_record_is_told_at_its_line(self) -> None:
        for text, says in NO_RECORDS:
            with self.subTest(text=text):
                path = self.file("records", text)
                ended = self.explain("--record", path)
                self.assertEqual((ended.status, ended.out), (3, ""))
                self.assertIn(f"{path}{says}", ended.told)

    def test_other_words_are_refused(self) -> None:
        path = self.file("records", MCELOG)
        calls: list[list[str]] = [
            [],
            ["xyz"],
            ["12345678901234567"],
            ["12", "0x"],
            ["12", "--record", path],
            ["12", "--frame", "1"],
            ["--record", path, "--frame", "256"],
            ["--record", path, "--frame", "-1"],
        ]
        for words in calls:
            with self.subTest(words=words):
                ended = self.explain(*words)
                self.assertEqual((ended.status, ended.out), (2, ""))


if __name__ == "__main__":
    unittest.main()
