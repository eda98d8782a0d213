"""Holds what Linux did against what hwp did, command by command."""
from __future__ import annotations

from collections import Counter
from typing import Iterator, NamedTuple, Optional

from hwp_view.report import Report
from hwp_view.script import Script

from .machine import Stopped
from .plan import NoForm, Signal, Step, Unrolling, World
from .rules import Case, Difference, Memory, note, note_rule, rule_of
from .twin import ACTED, Guest, Seen, Twin

SAME, UNDERSTOOD, DIFFERS, NO_FORM = "same", "differs as understood", "differs", "no form there"


class Row(NamedTuple):
    """A command, what hwp and Linux answered, and the rules that are the reason where they differ."""

    step: Step
    hwp: str
    linux: str
    rules: tuple[str, ...]
    log: tuple[str, ...]


class Verdict(NamedTuple):
    """What came of a script: one of the four words, the rules or the reason, and the commands."""

    word: str
    about: str
    rows: list[Row]

    def __str__(self) -> str:
        return f"{self.word}: {self.about}" if self.about else self.word


def told(word: Optional[str], signals: list[Signal], ended: set[int], outcomes: list[str], count: int) -> str:
    """What a side says of a command, in one line."""
    parts = [word or "not made", *outcomes, *(f"SIGBUS {signal}" for signal in signals)]
    parts += [f"process {process} ends" for process in sorted(ended)]
    return ", ".join(parts + ([f"count {count:+}"] if count else []))


def of_hwp(step: Step) -> str:
    """hwp's side of a command."""
    return told(step.word, step.signals, step.ended, [acted(event.outcome) for event in step.events], step.count)


def acted(outcome: str) -> str:
    """An outcome of an event, as the kernel's log could tell it."""
    return outcome if outcome in ACTED else "nothing"


def differences(step: Step, seen: Seen) -> Iterator[Difference]:
    """Where the two sides differ, one by one."""
    is_end = (step.word, seen.word) == ("sigbus", "gone") and step.ended and step.ended <= seen.ended
    if seen.word not in (None, "checked", step.word) and not is_end:
        yield Difference("answer", step.word, str(seen.word))
    for at, outcome in enumerate(seen.outcomes):
        due = acted(step.events[at].outcome)
        if due != outcome:
            yield Difference("event", due, outcome, at)
    yield from signal_differences(step.signals, seen.signals)
    for process in sorted(step.ended ^ seen.ended):
        yield Difference("end", *(("ends", "goes on") if process in step.ended else ("goes on", "ends")), process)
    if step.count != seen.count:
        yield Difference("count", f"{step.count:+}", f"{seen.count:+}")


def signal_differences(due: list[Signal], came: list[Signal]) -> Iterator[Difference]:
    """Where signals differ: one that names another translation is one difference, others are missing or too many."""
    missing = list((Counter(due) - Counter(came)).elements())
    extra = list((Counter(came) - Counter(due)).elements())
    for signal in list(missing):
        other = next((one for one in extra if one[:2] == signal[:2]), None)
        if other is not None:
            missing.remove(signal)
            extra.remove(other)
            yield Difference("address", str(signal), str(other), signal=other)
    yield from (Difference("missing", str(signal), "none", signal=signal) for signal in missing)
    yield from (Difference("extra", "none", str(signal), signal=signal) for signal in extra)


class Comparison:
    """A script that runs on both sides."""

    def __init__(self, guest: Guest, script: Script, report: Report) -> None:
        self.script, self.report = script, report
        self.twin = Twin(guest, script)
        self.memory = Memory()
        self.rows: list[Row] = []

    def run(self) -> Verdict:
        """Runs the script on Linux, and judges each command."""
        try:
            unrolling = Unrolling(self.script, self.report)
            self.twin.set_up()
            for step, world in unrolling.walk():
                unknown = self.command(step, world)
                if unknown is not None:
                    return Verdict(DIFFERS, unknown, self.rows)
                if step.word == "stopped" or self.memory.is_over:
                    break
        except NoForm as why:
            return Verdict(NO_FORM, f"{self.named()}{why}", self.rows)
        rules = sorted({rule for row in self.rows for rule in row.rules})
        if not rules and not any(row.linux != "not made" for row in self.rows):
            return Verdict(NO_FORM, "Linux makes none of the commands", self.rows)
        return Verdict(UNDERSTOOD if rules else SAME, "; ".join(rules), self.rows)

    step: Optional[Step] = None

    def named(self) -> str:
        """The command that is being made."""
        return "" if self.step is None else f"{self.step.who[0]} {self.step.who[1]} ({self.step.command.text}): "

    def command(self, step: Step, world: World) -> Optional[str]:
        """Makes a command on Linux: what differs that no rule is the reason of, if anything."""
        self.step = step
        seen, stop = Seen(), ""
        try:
            seen = self.twin.make(step, world)
        except Stopped as why:
            self.twin.note(seen)
            stop = str(why)
        found = self.stops(step, stop) if stop or step.word == "stopped" else list(differences(step, seen))
        case = Case(self.script, step, world, seen, self.twin.kinds, self.memory)
        note(case)
        rules = [rule_of(case, difference) for difference in found]
        for difference, rule in zip(found, rules):
            if rule is not None:
                note_rule(case, difference, rule)
        linux = f"stopped ({stop})" if stop else told(seen.word, seen.signals, seen.ended, seen.outcomes, seen.count)
        known = tuple(sorted({rule for rule in rules if rule is not None}))
        self.rows.append(Row(step, of_hwp(step), linux, known, tuple(seen.log)))
        self.memory.is_over = self.memory.is_over or bool(stop)
        if None in rules:
            return f"{self.named()}hwp {of_hwp(step)}; Linux {linux}"
        return None

    def stops(self, step: Step, stop: str) -> list[Difference]:
        """Where one side stops and the other one doesn't."""
        if bool(stop) == (step.word == "stopped"):
            return []
        return [Difference("stop", "stopped" if step.word == "stopped" else "goes on", stop or "goes on")]
