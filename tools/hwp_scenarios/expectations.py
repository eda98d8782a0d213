"""The `# expect` lines of a script: their forms, and whether a report shows what they say (docs/SCENARIOS.md)."""
from __future__ import annotations

import re
from typing import Callable, Iterator, NamedTuple, Optional, Sequence

from hwp_view.forms import NUMBER, Malformed, shown
from hwp_view.report import BESIDE_ANSWERS, Report
from hwp_view.script import Script

Words = tuple[str, ...]
ORDERS = "step"
"""The word behind `# expect` of what holds on the schedule of the script alone."""


class Outcome(NamedTuple):
    """What a run came to: its report, and the status of the program."""

    report: Report
    status: int


class Form(NamedTuple):
    """A form of an expectation, what a report says of it, and whether all of that must be written."""

    shape: str
    said: Callable[[Outcome, Sequence[int]], list[Words]]
    whole: bool

    @property
    def slots(self) -> Words:
        """The words of the shape."""
        return tuple(self.shape.split())

    @property
    def open(self) -> bool:
        """Whether the last word of the shape stands for one word or more."""
        return len(self.slots[-1]) > 1 and self.slots[-1].isupper()


class Expectation(NamedTuple):
    """An expectation: where it stands, whether for `step` alone, its form, the numbers in it, and the words of which one must be said."""

    line: int
    text: str
    step: bool
    form: Form
    numbers: tuple[int, ...]
    wanted: tuple[Words, ...]

    def denied(self, outcome: Outcome) -> Optional[str]:
        """What the report says in place of what is expected, or None where it says that."""
        said = self.form.said(outcome, self.numbers)
        if any(_fits(wanted, words, self.form.whole) for wanted in self.wanted for words in said):
            return None
        return "; ".join(" ".join(words) for words in said) or "nothing of that"


def _fits(wanted: Words, said: Words, whole: bool) -> bool:
    """Whether these are the words that are wanted, or begin with them where not all must be written; `*` is any word."""
    same = len(wanted) == len(said) if whole else len(wanted) <= len(said)
    return same and all(one in ("*", other) for one, other in zip(wanted, said))


def _answer(outcome: Outcome, numbers: Sequence[int]) -> list[Words]:
    """The answer of a command."""
    return [words[1:] for words in _cpu_lines(outcome, numbers) if words[1] != "event" and words[1] not in BESIDE_ANSWERS]


def _events(outcome: Outcome, numbers: Sequence[int]) -> list[Words]:
    """The events that a command tells."""
    return [words[2:] for words in _cpu_lines(outcome, numbers) if words[1] == "event"]


def _guests(outcome: Outcome, numbers: Sequence[int]) -> list[Words]:
    """The machine check of a guest beside a command's answer."""
    return [words[2:] for words in _cpu_lines(outcome, numbers) if words[1] == "guest"]


def _offlined(outcome: Outcome, numbers: Sequence[int]) -> list[Words]:
    """What came of a frame that a command took out of use beside its answer."""
    cpu, command, frame = numbers
    return [words[3:] for words in _cpu_lines(outcome, (cpu, command)) if words[1:3] == ("offlined", str(frame))]


def _cpu_lines(outcome: Outcome, numbers: Sequence[int]) -> Iterator[Words]:
    """The lines of a command below its processor."""
    cpu, command = numbers
    return (line.words for line in outcome.report.cpus[cpu] if line.words[0] == str(command))


def _marks(word: str, outcome: Outcome, numbers: Sequence[int]) -> list[Words]:
    """What the records of a frame say behind the command that made them."""
    cpu, command, frame = numbers
    marks = (mark.words for mark in outcome.report.frames[frame].marks if mark.who == (cpu, command))
    return [words[4:] for words in marks if words[0] == word]


def _poisons(outcome: Outcome, numbers: Sequence[int]) -> list[Words]:
    """How a command poisoned a frame."""
    return _marks("poisoned", outcome, numbers)


def _unpoisons(outcome: Outcome, numbers: Sequence[int]) -> list[Words]:
    """That a command took a frame back."""
    return _marks("unpoisoned", outcome, numbers)


def _sent(outcome: Outcome, numbers: Sequence[int]) -> list[Words]:
    """The threads that the failures of a command signalled, each with its code and translation."""
    cpu, command = numbers
    entries = (entry for page in outcome.report.pages for entry in page if entry.line.who == (cpu, command))
    return [signal.words[2:] for entry in entries for signal in entry.signals] or [("nobody",)]


def _signals(outcome: Outcome, _: Sequence[int]) -> list[Words]:
    """How many signals all failures sent."""
    return [(str(sum(len(entry.signals) for page in outcome.report.pages for entry in page)),)]


def _count(outcome: Outcome, _: Sequence[int]) -> list[Words]:
    """How many frames are poisoned."""
    return [outcome.report.poisoned.words[1:]]


def _lost(outcome: Outcome, numbers: Sequence[int]) -> list[Words]:
    """How many losses a file had."""
    return [outcome.report.files[numbers[0]].words[3:]]


def _place(outcome: Outcome, numbers: Sequence[int]) -> list[Words]:
    """The place of a frame, and its lines."""
    return [outcome.report.frames[numbers[0]].line.words[2:]]


def _history(outcome: Outcome, numbers: Sequence[int]) -> list[Words]:
    """The first words of a page's entries."""
    return [tuple(entry.verb for entry in outcome.report.pages[numbers[0]])]


def _stop(outcome: Outcome, _: Sequence[int]) -> list[Words]:
    """What stopped the machine."""
    return [outcome.report.stop.words[1:]]


def _status(outcome: Outcome, _: Sequence[int]) -> list[Words]:
    """The status of the program."""
    return [(str(outcome.status),)]


FORMS = (
    Form("C S is ANSWER", _answer, False),
    Form("C S event EVENT", _events, False),
    Form("C S offlined F RESULT", _offlined, False),
    Form("C S guest EVENT", _guests, False),
    Form("C S signals SIGNAL", _sent, False),
    Form("C S poisons F MARK", _poisons, False),
    Form("C S unpoisons F", _unpoisons, False),
    Form("signals NUMBER", _signals, True),
    Form("count NUMBER", _count, True),
    Form("file N lost NUMBER", _lost, True),
    Form("frame F is PLACE", _place, False),
    Form("page Q is ENTRIES", _history, True),
    Form("stop STOP", _stop, False),
    Form("status NUMBER", _status, True),
)
CALLED = {"C": "processor", "S": "command", "F": "frame", "N": "file", "Q": "page"}


def _read(form: Form, words: Words) -> Optional[tuple[tuple[int, ...], tuple[Words, ...]]]:
    """The numbers and the wanted words of an expectation in this form, or None where it has another one."""
    slots = form.slots[:-1] if form.open else form.slots
    if len(words) < len(slots) or (len(words) > len(slots)) != form.open:
        return None
    pairs = list(zip(slots, words))
    if any(not NUMBER.fullmatch(word) if slot in CALLED else slot != word for slot, word in pairs):
        return None
    numbers = tuple(int(word) for slot, word in pairs if slot in CALLED)
    wanted = _alternatives(words[len(slots) :])
    return None if form.open and () in wanted else (numbers, wanted)


def _alternatives(words: Words) -> tuple[Words, ...]:
    """The words between each `or` and the next."""
    parts: list[list[str]] = [[]]
    for word in words:
        if word == "or":
            parts.append([])
        else:
            parts[-1].append(word)
    return tuple(tuple(part) for part in parts)


def _unknown(form: Form, numbers: Sequence[int], script: Script) -> Optional[str]:
    """What an expectation names that its script doesn't have, if anything."""
    slots = [slot for slot in form.slots if slot in CALLED]
    have = {"C": script.cpus, "F": script.frames, "N": script.files, "Q": len(script.pages)}
    for slot, number in zip(slots, numbers):
        if slot == "S":
            if number >= len(script.commands[numbers[0]]):
                return f"processor {numbers[0]} has no command {number}"
        elif number >= have[slot]:
            return f"the script has no {CALLED[slot]} {number}"
    return None


def _expectation(line: int, text: str, script: Script) -> Expectation:
    """The expectation of a line behind its `# expect`. Raises Malformed where it has no form, or names what the script doesn't have."""
    words = tuple(text.split())
    step = words[:1] == (ORDERS,)
    if step and script.cpus == 1:
        raise Malformed(f"{line}: a script of one processor has but one order: `expect` without `{ORDERS}`")
    for form in FORMS:
        read = _read(form, words[1:] if step else words)
        if read is None:
            continue
        fault = _unknown(form, read[0], script)
        if fault:
            raise Malformed(f"{line}: {fault}: {shown(text)}")
        return Expectation(line, text, step, form, *read)
    raise Malformed(f"{line}: no expectation has this form: {shown(text)}. The forms are: {', '.join(form.shape for form in FORMS)}")


def read_expectations(data: bytes, script: Script) -> list[Expectation]:
    """The expectations of a script. Raises Malformed, with the number of the line, where a line isn't one, and where none stands."""
    found: list[Expectation] = []
    ended = False
    for number, line in enumerate(data.decode("latin-1").split("\n"), 1):
        ended = ended or line.split() == ["end"]
        if not re.match(r"# *expect", line, re.IGNORECASE):
            continue
        if not line.startswith("# expect "):
            raise Malformed(f"{number}: {shown(line)} isn't read: write `# expect `, or begin the comment with another word")
        if ended:
            raise Malformed(f"{number}: an expectation below `end`, where `hwp check` would take it for the report")
        found.append(_expectation(number, line[len("# expect ") :], script))
    if not found:
        raise Malformed("1: no line expects anything")
    if not script.opening or re.match("expect", script.opening[0]):
        raise Malformed("1: the comment that says what happens is missing")
    return found
