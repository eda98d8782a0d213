"""Tests of expectations on the examples, whose reports were laid out by hand, and of the command on a stand-in for the program."""
from __future__ import annotations

import os
import subprocess
import tempfile
import unittest
from pathlib import Path
from typing import Optional

from hwp_view.forms import Malformed
from hwp_view.report import read_report
from hwp_view.script import read_script

from .expectations import Outcome, read_expectations

TOP = Path(__file__).resolve().parents[2]
# An example, an expectation of its report, and what the report says in its place; nothing where it says that.
TABLE = (
    ("bad-line", "0 2 is sigbus", None),
    ("bad-line", "0 2 is sigbus 0 4", None),
    ("bad-line", "0 2 is sigbus 0 5", "sigbus 0 4"),
    ("bad-line", "0 0 is value 77 or stored", None),
    ("bad-line", "0 0 is value 77 or sigbus", "stored 0 2"),
    ("bad-line", "0 1 is done", None),
    ("bad-line", "0 1 is done 0", "done"),
    ("bad-line", "0 2 event 0 bd80000000000134 140 86 S9 recovered", None),
    ("bad-line", "0 2 event * bd80000000000134 * * S9", None),
    ("bad-line", "0 2 event 0 bd80000000000134 140 86 S9 already", "0 bd80000000000134 140 86 S9 recovered"),
    ("bad-line", "0 3 event 0", "nothing of that"),
    ("bad-line", "0 2 signals 0 ar 0", None),
    ("bad-line", "0 2 signals 0 ao", "0 ar 0"),
    ("bad-line", "0 2 signals nobody", "0 ar 0"),
    ("bad-line", "0 3 signals nobody", None),
    ("bad-line", "0 3 signals 0", "nobody"),
    ("bad-line", "0 2 poisons 0 hw anononly recovered", None),
    ("bad-line", "0 2 poisons 0 sw", "hw anononly recovered"),
    ("bad-line", "0 2 poisons 1 hw", "nothing of that"),
    ("bad-line", "0 1 poisons 0 hw", "nothing of that"),
    ("bad-line", "signals 1", None),
    ("bad-line", "signals 0", "1"),
    ("bad-line", "count 1", None),
    ("bad-line", "count 0 or 2", "1"),
    ("bad-line", "frame 0 is handled bad 20 weak 0", None),
    ("bad-line", "frame 0 is handled bad 2", "handled bad 20 weak 0"),
    ("bad-line", "frame 1 is page 0", "free bad 0 weak 0"),
    ("bad-line", "page 0 is in map store mce fail load", None),
    ("bad-line", "page 0 is in map store mce fail", "in map store mce fail load"),
    ("bad-line", "stop none", None),
    ("bad-line", "stop 0 2", "none"),
    ("bad-line", "status 0", None),
    ("bad-line", "status 8", "0"),
    ("dirty-page-of-a-file", "0 4 signals 1 ao", None),
    ("dirty-page-of-a-file", "0 4 signals 1 ar", "0 ar 0; 1 ao 1"),
    ("dirty-page-of-a-file", "signals 2", None),
    ("dirty-page-of-a-file", "file 0 lost 1", None),
    ("dirty-page-of-a-file", "file 0 lost 0", "1"),
    ("corrected-errors", "0 4 offlined 0 moved 1", None),
    ("corrected-errors", "0 4 offlined 0 moved 2", "moved 1 0 3"),
    ("corrected-errors", "0 4 offlined 1 moved", "nothing of that"),
    ("corrected-errors", "0 3 offlined 0 moved", "nothing of that"),
    ("unpoison", "0 1 unpoisons 0", None),
    ("unpoison", "0 0 unpoisons 0", "nothing of that"),
    ("unpoison", "0 6 poisons 0 hw anononly", None),
    ("fatal-event", "stop 0 2 severity S8 1 fd800000000000c0 1 1 user", None),
    ("fatal-event", "stop 0 2 severity S9", "0 2 severity S8 1 fd800000000000c0 1 1 user"),
    ("fatal-event", "step 1 0 is stopped", None),
    ("fatal-event", "1 0 is done", "stopped"),
)
# A comment in place of `# expect count 1` of a script of one processor, and how the fault begins.
MALFORMED = (
    ("# expect count", "4: no expectation has this form: 'count'. The forms are: C S is ANSWER, C S event EVENT"),
    ("# expect count 1 or", "4: no expectation has this form: 'count 1 or'"),
    ("# expect 0 0 is", "4: no expectation has this form: '0 0 is'"),
    ("# expect 0 0 was sigbus", "4: no expectation has this form: '0 0 was sigbus'"),
    ("# expect 0 0 unpoisons 0 hw", "4: no expectation has this form: '0 0 unpoisons 0 hw'"),
    ("# expect 00 0 is done", "4: no expectation has this form: '00 0 is done'"),
    ("# expect 1 0 is done", "4: the script has no processor 1: '1 0 is done'"),
    ("# expect 0 1 is done", "4: processor 0 has no command 1: '0 1 is done'"),
    ("# expect 0 0 poisons 1 sw", "4: the script has no frame 1: '0 0 poisons 1 sw'"),
    ("# expect 0 0 offlined 1 already", "4: the script has no frame 1: '0 0 offlined 1 already'"),
    ("# expect 0 0 offlined 0", "4: no expectation has this form: '0 0 offlined 0'"),
    ("# expect page 0 is in", "4: the script has no page 0: 'page 0 is in'"),
    ("# expect file 0 lost 1", "4: the script has no file 0: 'file 0 lost 1'"),
    ("# expect step count 1", "4: a script of one processor has but one order: `expect` without `step`"),
    ("#expect count 1", "4: '#expect count 1' isn't read"),
    ("# Expected: count 1", "4: '# Expected: count 1' isn't read"),
    ("# nothing", "1: no line expects anything"),
    ("end\n# expect count 1", "5: an expectation below `end`"),
)
LEAST = "# What happens.\nhwp 1\ncpus 1\n# expect count 1\nframes 1\ncpu 0\ninject 0\nend\n"
POISONED = "hwp-report 1\nstop none\ncount 1\nframe 0 handled bad 0 weak 0\npoisoned 0 0 0 sw free recovered\ncpu 0 1\n0 recovered\nend\n"
# What the stand-in for the program does with the script, by its word, where that isn't to write the report or the verdict, and then the
# status of the command and what it tells.
COMMAND = (
    ("", 0, "scenarios: 1 scripts: 1 expectations hold by their schedules, and 1 of them in all of 1 runs on threads"),
    ('[ "$1" = check ] && { echo "not 3 6"; exit 1; }', 1, "least.hwp: check says of the report of step: not 3 6"),
    ('[ "$1" = run ] && exec sed s/handled/kernel/ report', 1, "least.hwp: one processor, but run gives another report than step"),
    ('[ "$1" = step ] && exec sed "s/count 1/count 2/" report', 1, "least.hwp:4: expected count 1, but the report of step says 2"),
    ('[ "$1" = step ] && { cat report; exit 8; }', 1, "least.hwp: step ends with status 8, and the report says stop none"),
    ('[ "$1" = step ] && { echo no memory >&2; exit 6; }', 1, "least.hwp: step ends with status 6: no memory"),
    ('[ "$1" = step ] && exec head -4 report', 1, "least.hwp: step: report line 5:"),
    ("echo not built >&2; exit 70", 70, "scenarios: not built"),
)


class Expected(unittest.TestCase):
    """What expectations say of reports."""

    def test_expectations_of_the_examples(self) -> None:
        """An expectation holds, or what the report says in its place is told."""
        for name, text, denied in TABLE:
            with self.subTest(example=name, expectation=text):
                script_text = (TOP / "examples" / f"{name}.hwp").read_bytes()
                script = read_script(script_text)
                line = f"# expect {text}\n".encode()
                found = read_expectations(script_text.replace(b"\nend", b"\n" + line + b"end"), script)
                report = read_report((TOP / "examples" / f"{name}.report").read_bytes(), script)
                self.assertEqual([one.denied(Outcome(report, 0)) for one in found], [denied])

    def test_malformed_expectations(self) -> None:
        """A line that is no expectation is refused where it stands."""
        for line, told in MALFORMED:
            with self.subTest(line=line):
                text = LEAST.replace("# expect count 1", line).encode()
                with self.assertRaises(Malformed) as caught:
                    read_expectations(text, read_script(LEAST.encode()))
                self.assertEqual(str(caught.exception)[: len(told)], told)

    def test_a_comment_must_say_what_happens(self) -> None:
        """A script without one is refused."""
        text = LEAST.replace("# What happens.\n", "").encode()
        with self.assertRaisesRegex(Malformed, "the comment that says what happens is missing"):
            read_expectations(text, read_script(text))


class Command(unittest.TestCase):
    """The command .ci/scenarios, on a stand-in for the program."""

    def run_with(
        self, room: str, does: str, words: Optional[list[str]] = None, script: str = LEAST, report: str = POISONED
    ) -> tuple[int, str]:
        """The status of the command with a stand-in that does this, and what it wrote."""
        files = {"hwp": f"#!/bin/sh\ncd {room}\n{does}\n[ $1 = check ] && exec echo legal\ncat report\n", "report": report, "least.hwp": script}
        for name, text in files.items():
            Path(room, name).write_text(text, encoding="utf-8")
        os.chmod(os.path.join(room, "hwp"), 0o755)
        env = {**os.environ, "HWP_PROGRAM": os.path.join(room, "hwp")}
        call = [str(TOP / ".ci" / "scenarios"), *(words or [os.path.join(room, "least.hwp")])]
        ran = subprocess.run(call, env=env, capture_output=True, text=True, check=False)
        return ran.returncode, ran.stdout + ran.stderr

    def test_what_the_program_does_wrong_is_told(self) -> None:
        """Each fault ends with its status, and names the script."""
        for does, status, told in COMMAND:
            with self.subTest(does=does), tempfile.TemporaryDirectory() as room:
                ended, wrote = self.run_with(room, does)
                self.assertEqual((ended, told in wrote), (status, True), wrote)

    def test_another_schedule_is_tried(self) -> None:
        """What holds by the script's own schedule alone, and isn't said to, is told with a schedule by which it doesn't hold."""
        two = LEAST.replace("cpus 1", "cpus 2").replace("end\n", "schedule 0.\nend\n")
        report = POISONED.replace("\nend", "\ncpu 1 0\nend")
        does = "[ $1 = check ] || { grep -qx 'schedule 0.' || exec sed 's/count 1/count 2/' report; }"
        with tempfile.TemporaryDirectory() as room:
            ended, wrote = self.run_with(room, does, [f"{room}/least.hwp", "--runs", "0"], two, report)
            self.assertEqual(ended, 1, wrote)
            self.assertRegex(wrote, r"least.hwp:4: expected count 1, but the report of step by `schedule [01. ]+` says 2\n")
            alone = [f"{room}/least.hwp", "--runs", "0", "--orders", "0"]
            self.assertEqual(self.run_with(room, does, alone, two, report)[0], 0)

    def test_words_and_files_that_are_none(self) -> None:
        """Other words, and files that aren't there or aren't scenarios."""
        with tempfile.TemporaryDirectory() as room:
            Path(room, "none.hwp").write_text("hwp 2\n", encoding="utf-8")
            refused = (["--other"], ["--runs", "-1"], ["--orders", "x"], [f"{room}/none.hwp"])
            for words, status in (*((words, 2) for words in refused), ([f"{room}/lacks.hwp"], 4)):
                with self.subTest(words=words):
                    self.assertEqual(self.run_with(room, "", words)[0], status)


if __name__ == "__main__":
    unittest.main()
