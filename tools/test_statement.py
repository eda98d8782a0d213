"""Tests of tools/statement: that the statement of `top` has what the documents say of it."""
from __future__ import annotations

import importlib.machinery
import importlib.util
import subprocess
import sys
import unittest
from pathlib import Path
from typing import Any, List, Tuple

PROGRAM = Path(__file__).resolve().with_name("statement")
KNOWN = (
    # the first eight are of the report level
    ("hwp_law", "Law", "IsLawful"),
    ("hwp_law", "Causes", "IsCaused"),
    ("hwp_page", "Step", "Allowed"),
    ("hwp_kill", "Kill", "Killed"),
    ("hwp_severity", "Graded", "graded"),
    ("hwp_script_lines", "Grammar", "form_words"),
    ("hwp_script_read", "Reads", "Reads"),
    ("hwp_report_text", "ReportText", "report_text"),
    ("hwp_top", "Runs", "IsCoreRun"),
    ("hwp_top", "Runs", "IsTableRun"),
    ("hwp_core_rule", "Rule", "FrameRule"),
    ("hwp_core_rule", "parts.Handled", "HandledIsPoisoned"),
    ("hwp_core_rule", "Known", "Saw"),
    ("hwp_soft", "Unpoisons", "plan_at"),
    ("hwp_check_rules", "Verdicts", "IsVerdict"),
    ("hwp_script", "Generated", "many"),
)


def loaded() -> Any:
    """The program as a module."""
    sys.dont_write_bytecode = True
    loader = importlib.machinery.SourceFileLoader("statement", str(PROGRAM))
    spec = importlib.util.spec_from_loader("statement", loader)
    assert spec is not None
    module = importlib.util.module_from_spec(spec)
    loader.exec_module(module)
    return module


class Statement(unittest.TestCase):
    """The statement of `top`."""

    tree: Any
    roots: Any
    defs: Any
    report: Any

    @classmethod
    def setUpClass(cls) -> None:
        program = loaded()
        cls.tree = program.Tree()
        cls.roots = cls.tree.roots("top")
        cls.defs = cls.tree.reach(cls.roots[0][1])
        cls.report = cls.tree.reach(program.REPORT)

    def test_has_what_it_names(self) -> None:
        self.assertEqual([place for place, _ in self.roots], ["hwp_top/src/calls.rt"])
        self.assertEqual([d for d in KNOWN if d not in self.defs], [])

    def test_levels(self) -> None:
        self.assertEqual([d for d in KNOWN if d in self.report], [*KNOWN[:8]])
        self.assertLess(self.report, self.defs)

    def test_first_hand(self) -> None:
        named = {name for _, _, name in self.roots[0][1]}
        self.assertIn("IsOutput", named)
        self.assertNotIn("IsLawful", named)

    def test_each_import_is_a_definition(self) -> None:
        self.tree.reach((crate, module, name) for (crate, module), home in self.tree.modules.items() for name in home.blocks)
        self.assertEqual(self.tree.missing, set())

    def test_a_variable_is_no_definition(self) -> None:
        # `answer` is a variable in each clause of `answer_at`, and a definition beside it
        named = self.tree.reach([("hwp_soft", "Unpoisons", "answer_at")])
        self.assertEqual({name for _, _, name in named}, {"answer_at"})

    def test_a_field_hides_no_definition(self) -> None:
        # in the record `task`, `cost` is a field and the definition that it is
        self.assertIn(("hwp_core", "Pins", "cost_at"), self.tree.reach([("hwp_core", "Pins", "task")]))

    def test_a_variant_is_its_type(self) -> None:
        self.assertEqual(self.tree.modules["hwp_banks", "Logged"].owner["Corrected"], "Class")

    def test_words(self) -> None:
        cases: List[Tuple[List[str], int]] = [
            (["top", "--sizes"], 0), (["IsLawful", "--sizes"], 0), (["new"], 2), (["no_such_name"], 2), ([], 2),
        ]
        for words, status in cases:
            done = subprocess.run([PROGRAM, *words], capture_output=True, text=True, check=False)
            self.assertEqual((words, done.returncode), (words, status))
        self.assertIn("report level: ", subprocess.run([PROGRAM, "top"], capture_output=True, text=True, check=True).stdout)


if __name__ == "__main__":
    unittest.main()
