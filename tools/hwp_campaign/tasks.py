"""One script of a campaign: its reports by `step` and by `run`, the verdicts on them, and the outcomes of `run`."""
from __future__ import annotations

import base64
import json
import subprocess
from collections import Counter
from typing import Dict, List, NamedTuple, Tuple

# How many words behind the answers of a kind name a page and an entry, or a page: these are no part of the outcome, since they also
# tell which commands came before.
PLACES = {"value": 2, "stored": 2, "sigbus": 2, "moved": 2, "badlines": 2, "dirty": 2, "mapped": 2, "locked": 2, "notresident": 2, "notmapped": 2, "gone": 1}

Outcome = Tuple[Tuple[str, str], ...]


class Unlike(Exception):
    """A command that ended with another status than it should, or a report that isn't legal: the verdict."""


class Called(NamedTuple):
    """What came of a call of the program."""

    status: int
    wrote: str
    told: str


def called(program: str, words: List[str], text: str, seconds: float) -> Called:
    """Calls the program. A call without an end is ended after these seconds, with status 124."""
    try:
        ran = subprocess.run([program, *words], input=text.encode(), capture_output=True, check=False, timeout=seconds)
    except subprocess.TimeoutExpired:
        return Called(124, "", f"no end after {seconds:g} seconds")
    return Called(ran.returncode, ran.stdout.decode("utf-8", "replace"), ran.stderr.decode("utf-8", "replace"))


def without_places(answer: List[str]) -> str:
    """An answer, or what came of a frame that was taken out of use, without pages and entries."""
    places = 2 if answer[0] == "done" and len(answer) == 3 else PLACES.get(answer[0], 0)
    return " ".join(answer[: len(answer) - places])


def outcome(report: str) -> Outcome:
    """What a report says of the stop, the answer to each command, by its processor and its number, and what came of each frame that was
    taken out of use beside it, without pages and entries."""
    found, cpu = [], ""
    for line in report.splitlines():
        words = line.split()
        if words[0] == "stop":
            found.append(("stop", " ".join(words[1:])))
        elif words[0] == "cpu":
            cpu = words[1]
        elif cpu and words[0].isdigit() and words[1] == "offlined":
            found.append((f"{cpu} {words[0]} offlined {words[2]}", without_places(words[3:])))
        elif cpu and words[0].isdigit() and words[1] not in ("event", "guest"):
            found.append((f"{cpu} {words[0]}", without_places(words[1:])))
    return tuple(found)


def unlike_parts(outcomes: Counter[Outcome]) -> List[Tuple[int, Dict[str, str]]]:
    """How often each outcome came, the most frequent first, with the parts in which they are unlike."""
    counts: Dict[Tuple[str, str], int] = {}
    for each in outcomes:
        for part in each:
            counts[part] = counts.get(part, 0) + 1
    return [(count, dict(part for part in each if counts[part] < len(outcomes))) for each, count in outcomes.most_common()]


class Task:
    """One script, and what is kept of it where not all is legal."""

    def __init__(self, program: str, seconds: float) -> None:
        self.program = program
        self.seconds = seconds
        self.files: Dict[str, str] = {}
        self.outcomes: Counter[Outcome] = Counter()

    def runs(self, name: str, statuses: Tuple[int, ...], words: List[str], text: str) -> str:
        """What a call writes, which must end with one of these statuses."""
        got = called(self.program, words, text, self.seconds)
        self.files[name], self.files["told"] = got.wrote, got.told
        if got.status not in statuses:
            raise Unlike(f"{name}-status-{got.status}")
        return got.wrote

    def judges(self, word: str, script: str, report: str) -> None:
        """The report of this word is legal."""
        verdict = self.runs(f"{word}.verdict", (0, 1), ["check"], script + report).strip()
        if verdict != "legal":
            self.files[f"{word}.report"] = report
            raise Unlike(f"{word}-{verdict.replace(' ', '-')}")

    def tries(self, script: str, runs: int) -> None:
        """Runs the script in turns, and so many times on threads, and has each report judged."""
        self.files["script.hwp"] = script
        stepped = self.runs("step.report", (0, 8), ["step"], script)
        reports = []
        for _ in range(runs):
            reports.append(self.runs("run.report", (0, 8), ["run"], script))
            self.outcomes[outcome(reports[-1])] += 1
        self.judges("step", script, stepped)
        for report in dict.fromkeys(reports):
            self.judges("run", script, report)


def answer(line: str, program: str, runs: int, seconds: float) -> str:
    """The answer to a task, as a line of JSON: its name, the verdict, the outcomes, and what is kept if it isn't legal."""
    kind, name, *rest = line.split()
    task, verdict = Task(program, seconds), "legal"
    try:
        script = base64.b64decode(rest[0]).decode("utf-8", "replace") if rest else task.runs("script.hwp", (0,), ["gen", name], "")
        task.tries(script, runs)
    except Unlike as why:
        verdict = str(why)
    except OSError as fault:
        verdict = f"the-program-{(fault.strerror or 'fails').replace(' ', '-')}"
    return json.dumps(
        {
            "task": f"{kind} {name}",
            "runs": runs,
            "verdict": verdict,
            "outcomes": unlike_parts(task.outcomes),
            "files": {} if verdict == "legal" else task.files,
        }
    )
