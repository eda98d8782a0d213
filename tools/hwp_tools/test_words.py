"""Tests of hwp-words, and of the reader of traces: traces by hand, what each word of the schedule came to, and what is refused."""
from __future__ import annotations

import unittest
from pathlib import Path

from hwp_tools.calling import Call, Folder, call
from hwp_tools.words import main
from hwp_view.forms import Malformed
from hwp_view.script import read_script
from hwp_view.trace import read_trace, turn_text

TRACES = Path(__file__).resolve().parents[2] / "tests" / "traces"
SCRIPT = """hwp 1
cpus 3
frames 70
page 0 anon
cpu 0
bad 66 1
inject 66
cpu 1
inject 66
# a comment, and a schedule on two lines

WORDS
end
"""
# Words of a schedule, turns behind the numbers (those of commands that are left over follow), and what is said of each word.
WORDS: list[tuple[str, list[str], list[str]]] = [
    ("0", ["0 0 load_stop stop : none : moved"], ["0 : 1 turn, 0; command 0 (bad 66 1) has made load_stop of stop"]),
    ("0", ["0 0 spoil bad 66 : 0 -> 2 : answered"], ["0 : 1 turn, 0; command 0 (bad 66 1) is answered, by spoil of bad 66"]),
    (
        "0. 0@poison",
        [
            "0 0 load_stop stop : none : moved",
            "0 0 spoil bad 66 : 0 -> 2 : answered",
            "0 1 load_stop stop : none : moved",
            "0 1 poison frame 66 : count 0 -> count 0 poisoned : moved",
        ],
        [
            "0. : 2 turns, 0 to 1; command 0 (bad 66 1) is answered, by spoil of bad 66",
            "0@poison : 2 turns, 2 to 3; command 1 (inject 66) has made poison of frame 66",
        ],
    ),
    (
        "0@poison",
        ["0 0 load_stop stop : none : moved", "0 0 spoil bad 66 : 0 -> 2 : answered"],
        ["0@poison : 2 turns, 0 to 1; command 0 (bad 66 1) is answered, by spoil of bad 66; poison was not reached"],
    ),
    ("2 2. 2@poison", [], [f"{word} : no turn; processor 2 has answered all its commands" for word in ("2", "2.", "2@poison")]),
    (
        "0 1@load_bad\nschedule 1@lock_frame",
        ["0 0 adopt frame 66 : count 0 -> count 1 locked : moved", *["1 0 lock_frame frame 66 : count 1 locked : waits"] * 2],
        [
            "0 : 1 turn, 0; command 0 (bad 66 1) has made adopt of frame 66",
            "1@load_bad : 1 turn, 1; command 0 (inject 66) waits at lock_frame: frame 66 is locked by processor 0 in its command 0 "
            "(bad 66 1); load_bad was not reached",
            "1@lock_frame : 1 turn, 2; command 0 (inject 66) waits at lock_frame: frame 66 is locked by processor 0 in its command 0 "
            "(bad 66 1)",
        ],
    ),
    (
        "0 0 0 1.",
        [
            "0 0 lock_page page 0 : unlocked -> locked : moved",
            "0 0 unlock_page page 0 : locked -> unlocked : moved",
            "0 0 lock_page page 0 : unlocked -> locked : answered",
            "1 0 lock_page page 0 : locked : waits",
        ],
        ["1. : 1 turn, 3; command 0 (inject 66) waits at lock_page: page 0 is locked by processor 0 in its command 0 (bad 66 1)"],
    ),
    (
        "1.",
        ["1 0 load_avail avail : 0 : waits"],
        ["1. : 1 turn, 0; command 0 (inject 66) waits at load_avail: no frame is free that no processor has reserved"],
    ),
    (
        "0 0@take_bit 1.",
        [
            "0 0 spoil bad 66 : 0 -> 2 : answered",
            "0 1 take_bit free 1 : 3f -> 3b : moved",
            "1 0 load_frame frame 66 : count 0 poisoned : moved",
            "1 0 take_bit free 1 : 3b : waits",
        ],
        [
            "1. : 2 turns, 2 to 3; command 0 (inject 66) waits at take_bit: frame 66 has been taken from the free frames by "
            "processor 0 in its command 1 (inject 66)"
        ],
    ),
    (
        "1@poison 0.",
        ["1 0 poison frame 66 : count 0 -> count 0 poisoned : moved", "0 0 load_frame frame 66 : count 0 poisoned : waits"],
        [
            "0. : 1 turn, 1; command 0 (bad 66 1) waits at load_frame: the failure of frame 66 by processor 1 in its command 0 "
            "(inject 66) isn't ended"
        ],
    ),
]
GOOD = [
    "0 0 spoil bad 66 : 0 -> 2 : answered",
    "0 1 count_poison count : poisoned -1 hardware 0 -> poisoned 0 hardware 0 : answered",
    "1 0 load_frame frame 66 : count 2 owner 0 locked poisoned handled kernel cycle 3 : answered",
]
# What stands in place of what in the trace GOOD, the line that is refused, and what is said.
REFUSED = [
    ("hwp-trace 1", "hwp-trace 2", 1, "`hwp-trace 1` must stand here"),
    ("0 0 0 spoil", "1 0 0 spoil", 2, "turn 0 must stand here"),
    ("0 0 0 spoil", "00 0 0 spoil", 2, "is no number"),
    ("0 0 0 spoil", "0 3 0 spoil", 2, "the script has no processor 3"),
    ("0 0 0 spoil", "0 0 1 spoil", 2, "processor 0 isn't at command 1"),
    ("0 0 0 spoil", "0 2 0 spoil", 2, "processor 2 isn't at command 0"),
    ("spoil", "spoilt", 2, "is no kind of step"),
    ("bad 66", "bad 70", 2, "the script has no frame 70"),
    ("bad 66", "bad", 2, "is no word of the shared memory"),
    ("bad 66", "good 66", 2, "is no word of the shared memory"),
    ("count :", "count 0 :", 3, "is no word of the shared memory"),
    ("0 -> 2", "0 -> 0x2", 2, "'0x2' is no value of `bad`"),
    ("0 -> 2", "0 -> 0", 2, "a value that stays is written once"),
    ("poisoned -1", "poisoned -0", 3, "is no value of `count`"),
    ("locked poisoned", "poisoned locked", 4, "is no value of `frame`"),
    ("owner 0", "owner 1", 4, "the script has no page 1"),
    ("cycle 3", "cycle", 4, "is no value of `frame`"),
    ("2 : answered", "2 : finished", 2, "is no end of a turn"),
    ("2 : answered", "2  : answered", 2, "is no value"),
    (" cycle 3 : answered", " cycle 3 : moved", 5, "the trace ends before processor 1 has answered its command 0"),
    ("3 : answered\n", "3 : answered", 4, "the line feed at its end is missing"),
    ("3 : answered\n", "3 : answered\n\n", 5, "a turn must stand here, not ''"),
]


def trace(turns: list[str]) -> str:
    """A trace of these turns."""
    return "hwp-trace 1\n" + "".join(f"{number} {turn}\n" for number, turn in enumerate(turns))


def completed(turns: list[str]) -> list[str]:
    """These turns, and one for each command that they leave over."""
    left = [f"{cpu} {seq} load_stop stop : none : answered" for cpu, seq in ((0, 0), (0, 1), (1, 0))]
    over = {turn[:3] for turn in turns if turn.endswith(" answered")}
    return turns + [turn for turn in left if turn[:3] not in over]


class Words(Folder):
    """What hwp-words writes, and its status."""

    def words(self, script: str, text: str) -> Call:
        """A call with this script and this trace."""
        return call("hwp-words", main, [self.file("script", script), self.file("trace", text)], {})

    def test_words_are_told_with_where_they_ended_and_why(self) -> None:
        for words, turns, says in WORDS:
            with self.subTest(words=words, says=says[-1]):
                script = SCRIPT.replace("WORDS", f"schedule {words}")
                told = self.words(script, trace(completed(turns)))
                self.assertEqual((told.status, told.told), (0, ""))
                *lines, last = [line.split(": ", 1)[1] for line in told.out.splitlines()]
                self.assertEqual(lines[-len(says) :], says)
                self.assertTrue(last.startswith("finishing order : "), last)

    def test_turns_behind_the_schedule_are_told(self) -> None:
        for words, says in (
            ("2", "3 turns, 0 to 2, of processors 0, 1"),
            ("0. 0.", "1 turn, 2, of processor 1"),
            ("0. 0. 1.", "no turn"),
        ):
            with self.subTest(words=words):
                told = self.words(SCRIPT.replace("WORDS", f"schedule {words}"), trace(completed([])))
                self.assertEqual(told.out.splitlines()[-1], f"{self.folder}/script: finishing order : {says}")

    def test_words_are_named_by_their_places(self) -> None:
        script = SCRIPT.replace("WORDS", "  schedule  2  2.\n#\n schedule 2@kill 2")
        told = self.words(script, trace(completed([])))
        places = [line.split(": ")[0].removeprefix(f"{self.folder}/script") for line in told.out.splitlines()]
        self.assertEqual(places, [":12:13", ":12:16", ":14:11", ":14:18", ""])

    def test_a_trace_of_another_schedule_is_refused(self) -> None:
        moved, stays = "0 0 load_stop stop : none : moved", "1 0 load_stop stop : none : moved"
        cases: list[tuple[str, list[str], int]] = [
            ("1", [], 0),
            ("0 1. 0", [moved], 1),
            ("0.", [moved, stays], 1),
            ("0 1@poison 0.", [moved, stays, moved], 2),
        ]
        for words, turns, at in cases:
            with self.subTest(words=words):
                told = self.words(SCRIPT.replace("WORDS", f"schedule {words}"), trace(completed(turns)))
                self.assertEqual((told.status, told.out), (3, ""))
                self.assertIn(f"the trace isn't of this schedule: see its turn {at}\n", told.told)

    def test_traces_are_read_whole_and_written_again(self) -> None:
        paths = sorted(TRACES.glob("*.trace"))
        self.assertTrue(paths)
        for path in paths:
            with self.subTest(path.name):
                script = read_script(path.with_suffix(".hwp").read_bytes())
                turns = read_trace(path.read_bytes(), script)
                self.assertEqual("hwp-trace 1\n" + "".join(f"{turn_text(turn)}\n" for turn in turns), path.read_text())

    def test_refused_traces_name_the_line(self) -> None:
        script = read_script(SCRIPT.replace("WORDS\n", "").encode())
        self.assertEqual(len(read_trace(trace(GOOD).encode(), script)), 3)
        for old, new, line, says in REFUSED:
            with self.subTest(new=new):
                self.assertIn(old, trace(GOOD))
                with self.assertRaises(Malformed) as refused:
                    read_trace(trace(GOOD).replace(old, new, 1).encode(), script)
                self.assertTrue(str(refused.exception).startswith(f"trace line {line}: "), refused.exception)
                self.assertIn(says, str(refused.exception))

    def test_each_end_has_its_status(self) -> None:
        script = SCRIPT.replace("WORDS", "schedule 0")
        program = self.program("program", f"#!/bin/sh\ncat > /dev/null\ncat '{self.file('trace', trace(completed([])))}'\nexit $ENDS\n")
        path = self.file("script", script)
        for ends, status in ((0, 0), (8, 0), (6, 6), (3, 70), (70, 70)):
            with self.subTest(ends=ends):
                told = call("hwp-words", main, [path], {"HWP_TRACE_PROGRAM": program, "ENDS": str(ends)})
                self.assertEqual((told.status, told.out == ""), (status, status != 0))
        cut = self.file("cut", script.replace("end", ""))
        calls: list[tuple[list[str], int]] = [([cut], 3), (["-", "-"], 2), ([], 2), ([path, "none"], 4)]
        for words, status in calls:
            with self.subTest(words=words):
                told = call("hwp-words", main, words, {})
                self.assertEqual((told.status, told.out), (status, ""))


if __name__ == "__main__":
    unittest.main()
