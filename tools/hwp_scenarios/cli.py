"""Runs scenarios: scripts whose `# expect` lines say what their reports must show."""
from __future__ import annotations

import argparse
import glob
import os
import random
import re
import subprocess
import sys
from concurrent.futures import ThreadPoolExecutor
from typing import NamedTuple, Optional, Sequence

from hwp_view.forms import Malformed
from hwp_view.report import read_report
from hwp_view.script import Script, read_script

from .expectations import Expectation, Outcome, read_expectations

HOME = os.path.dirname(os.path.dirname(os.path.dirname(os.path.realpath(__file__))))
FOLDER = os.path.join("tests", "scenarios")
TABLE = os.path.join("docs", "SCENARIOS.md")
PROGRAM = os.environ.get("HWP_PROGRAM") or os.path.join(HOME, "bin", "hwp")
SECONDS = 120
RUNS = 20
ORDERS = 20
STRETCHES = 50
ABOUT = """Runs scripts with `hwp step`, by their own schedules and by others, and with `hwp run`, and checks that their reports show what their
`# expect` lines say (docs/SCENARIOS.md), that `hwp check` calls them legal, and that the status is that of the stop line. HWP_PROGRAM names
the program, else it is bin/hwp."""
STATUSES = """status: 0 all is as expected; 1 something isn't, and is told on standard error; 2 the words are others, or a file isn't a scenario;
4 a file can't be read; 5 a write failed; 70 the program doesn't start, or has no end after two minutes"""


class Wrong(Exception):
    """What is not as it should be with a scenario."""


class Unstarted(Exception):
    """The program could not be run to its end."""


class Scenario(NamedTuple):
    """A script, with its name, its text and what it expects."""

    name: str
    text: str
    script: Script
    expectations: list[Expectation]


class Tally(NamedTuple):
    """How often a scenario ran on threads and by other schedules, how many reports came, and how many expectations were looked for in them."""

    runs: int
    orders: int
    reports: int
    everywhere: int


def read(path: str) -> Scenario:
    """The scenario in a file."""
    with open(path, "rb") as source:
        data = source.read()
    name = os.path.relpath(path, HOME) if os.path.realpath(path).startswith(HOME + os.sep) else path
    try:
        script = read_script(data)
    except Malformed as why:
        raise Malformed(f"{name}: {why}") from None
    try:
        return Scenario(name, data.decode("latin-1"), script, read_expectations(data, script))
    except Malformed as why:
        raise Malformed(f"{name}:{why}") from None


def called(word: str, text: str) -> tuple[int, str, str]:
    """The status of a call of the program on the text, and what it wrote to standard output and to standard error."""
    try:
        ran = subprocess.run(
            [PROGRAM, word], input=text.encode("latin-1"), capture_output=True, check=False, timeout=SECONDS
        )
    except subprocess.TimeoutExpired:
        raise Unstarted(f"hwp {word} has no end after {SECONDS} seconds") from None
    except OSError as fault:
        raise Unstarted(f"{PROGRAM} doesn't start: {fault.strerror}") from None
    if ran.returncode == 70:
        raise Unstarted(ran.stderr.decode("utf-8", "replace").strip())
    return ran.returncode, ran.stdout.decode("latin-1"), ran.stderr.decode("latin-1").strip()


def judge(scenario: Scenario, word: str, status: int, report: str, told: str) -> None:
    """Checks a report of a scenario. Raises Wrong where something isn't as expected, with all that isn't."""
    if status not in (0, 8):
        raise Wrong(f"{scenario.name}: {word} ends with status {status}: {told}")
    try:
        outcome = Outcome(read_report(report.encode("latin-1"), scenario.script), status)
    except Malformed as why:
        raise Wrong(f"{scenario.name}: {word}: {why}") from None
    faults = []
    if (status == 0) != (outcome.report.stop.text == "stop none"):
        faults.append(f"{scenario.name}: {word} ends with status {status}, and the report says {outcome.report.stop.text}")
    for one in scenario.expectations:
        said = one.denied(outcome) if word == "step" or not one.step else None
        if said is not None:
            faults.append(f"{scenario.name}:{one.line}: expected {one.text}, but the report of {word} says {said}")
    verdict = called("check", scenario.text.rstrip("\n") + "\n" + report)
    if verdict[:2] != (0, "legal\n"):
        faults.append(f"{scenario.name}: check says of the report of {word}: {(verdict[1] or verdict[2]).strip()}")
    if faults:
        raise Wrong("\n".join(faults))


def reordered(scenario: Scenario, number: int) -> tuple[str, str]:
    """Another schedule for a scenario, the same one each time for the same number, and the script with it."""
    draw = random.Random(f"{os.path.basename(scenario.name)} {number}")
    words: list[str] = []
    for _ in range(STRETCHES):
        cpu = draw.randrange(scenario.script.cpus)
        words += draw.choice(([f"{cpu}."], [f"{cpu}"] * draw.choice((1, 2, 3, 5, 8))))
    schedule = "schedule " + " ".join(words)
    lines = [line for line in scenario.text.split("\n") if line.split()[:1] not in (["schedule"], ["end"])]
    return schedule, "\n".join([*lines, schedule, "end\n"])


def tried(scenario: Scenario, times: int, orders: int) -> Tally:
    """Runs a scenario by its schedule, so often on threads, and by so many other schedules. Raises Wrong where something isn't as expected."""
    stepped = called("step", scenario.text)
    judge(scenario, "step", *stepped)
    alone = scenario.script.cpus == 1
    runs = min(times, 1) if alone else times
    reports = {called("run", scenario.text) for _ in range(runs)}
    if alone and reports - {stepped}:
        raise Wrong(f"{scenario.name}: one processor, but run gives another report than step")
    for ran in reports - {stepped}:
        judge(scenario, "run", *ran)
    others: dict[tuple[int, str, str], str] = {}
    for number in range(0 if alone else orders):
        schedule, text = reordered(scenario, number)
        others.setdefault(called("step", text), schedule)
    for ran, schedule in others.items():
        if ran not in reports | {stepped}:
            judge(scenario, f"step by `{schedule}`", *ran)
    return Tally(runs, 0 if alone else orders, len(reports | {stepped} | set(others)), sum(not one.step for one in scenario.expectations))


def untold(names: Sequence[str]) -> list[str]:
    """Where the table of the scenarios and their folder differ."""
    with open(os.path.join(HOME, TABLE), encoding="utf-8") as file:
        rows = re.findall(r"^\| `([a-z0-9-]+)` \|", file.read(), re.MULTILINE)
    files = [os.path.basename(name).removesuffix(".hwp") for name in names]
    faults = [f"{TABLE}: `{row}` has no script in {FOLDER}, or two rows" for row in rows if row not in files or rows.count(row) > 1]
    return faults + [f"{TABLE}: {FOLDER}/{name}.hwp has no row" for name in files if name not in rows]


def run(paths: Sequence[str], times: int, orders: int) -> tuple[list[str], str]:
    """Tries all scenarios, side by side: what isn't as expected, and what came of them."""
    scenarios = [read(path) for path in paths]
    called("--version", "")  # builds the program where that is needed, once

    def one(scenario: Scenario) -> Tally | str:
        try:
            return tried(scenario, times, orders)
        except Wrong as why:
            return str(why)

    with ThreadPoolExecutor(os.cpu_count()) as pool:
        results = list(pool.map(one, scenarios))
    faults = [result for result in results if isinstance(result, str)]
    tallies = [result for result in results if isinstance(result, Tally)]
    runs, ordered, reports, everywhere = (sum(numbers) for numbers in zip(*tallies)) if tallies else (0, 0, 0, 0)
    all_of = sum(len(scenario.expectations) for scenario in scenarios)
    return faults, (
        f"{len(scenarios)} scripts: {all_of} expectations hold by their schedules, and {everywhere} of them in all of {runs} runs "
        f"on threads and of {ordered} by other schedules, which gave {reports} reports in all"
    )


def words_of(words: Sequence[str]) -> argparse.Namespace:
    """What the command line asks for."""
    parser = argparse.ArgumentParser(prog=".ci/scenarios", description=ABOUT, epilog=STATUSES)
    parser.add_argument("files", metavar="FILE", nargs="*", help=f"scripts; else all of {FOLDER}, which the table of {TABLE} must tell")
    parser.add_argument("--runs", metavar="N", type=int, default=RUNS, help=f"how often each goes on threads, else {RUNS}")
    parser.add_argument("--orders", metavar="N", type=int, default=ORDERS, help=f"by how many other schedules, else {ORDERS}")
    found = parser.parse_args(words)
    if min(found.runs, found.orders) < 0:
        parser.error("a number is below 0")
    return found


def fail(status: int, text: str) -> int:
    """Says why on standard error."""
    print("\n".join(f"scenarios: {line}" for line in text.split("\n")), file=sys.stderr)
    return status


def main(words: Sequence[str]) -> int:
    """Runs the command with these words, and answers its status."""
    try:
        options = words_of(words)
    except SystemExit as end:
        return end.code if isinstance(end.code, int) and end.code else written("")
    paths: list[str] = options.files or sorted(glob.glob(os.path.join(HOME, FOLDER, "*.hwp")))
    try:
        if not paths:
            return fail(1, f"{FOLDER} has no script")
        faults, told = run(paths, options.runs, options.orders)
        faults += [] if options.files else untold(paths)
    except Malformed as why:
        return fail(2, str(why))
    except Unstarted as why:
        return fail(70, str(why))
    except OSError as fault:
        return fail(4, f"can't read {fault.filename!r}: {fault.strerror}")
    if faults:
        return fail(1, "\n".join(faults))
    return written(f"scenarios: {told}\n")


def written(text: str) -> int:
    """Writes this behind what stands to be written."""
    try:
        sys.stdout.write(text)
        sys.stdout.flush()
    except OSError as fault:
        os.dup2(os.open(os.devnull, os.O_WRONLY), 1)
        return fail(5, f"can't write: {fault.strerror}")
    return 0
