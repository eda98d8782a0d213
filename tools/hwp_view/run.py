"""A run: a script and its report, and which of their lines belong together."""
from __future__ import annotations

from collections import defaultdict
from dataclasses import dataclass, field
from typing import NamedTuple, Optional

from .report import BESIDE_ANSWERS, Line, Report
from .script import Command, Script

NAMES_ENTRY = frozenset("value stored sigbus done moved".split())
AFTER_ENTRIES = frozenset("notresident notmapped dirty mapped locked badlines".split())
Place = tuple[int, int]


class Sight(NamedTuple):
    """Where a refusal saw a page: after so many of its entries."""

    page: int
    after: int


@dataclass
class Work:
    """A command with all that the report has of it: answers, events, what stands beside its answer, the places of its
    entries and of its marks."""

    command: Command
    answers: list[Line] = field(default_factory=list)
    events: list[Line] = field(default_factory=list)
    beside: list[Line] = field(default_factory=list)
    entries: list[Place] = field(default_factory=list)
    marks: list[Place] = field(default_factory=list)

    @property
    def lines(self) -> list[Line]:
        """Its lines below its processor."""
        return self.events + self.beside + self.answers

    @property
    def answer(self) -> Optional[Line]:
        """Its answer; a report that isn't legal may lack it, or have several."""
        return self.answers[0] if self.answers else None


def word_of(answer: Line) -> str:
    """What an answer says, without its numbers."""
    return answer.words[1]


def entry_named(answer: Line) -> Optional[Place]:
    """The place of the entry that an answer names."""
    named = word_of(answer) in NAMES_ENTRY and answer.get("entry") is not None
    return (answer.of("page"), answer.of("entry")) if named else None


def moved_by(line: Line) -> Optional[Place]:
    """The place of the entry by which a frame's page was moved, of a line that tells of a frame taken out of use."""
    return (line.of("page"), line.of("entry")) if line.get("entry") is not None else None


def sight_of(answer: Line) -> Optional[Sight]:
    """Where a refusal saw its page."""
    return Sight(answer.of("page"), answer.of("entry")) if word_of(answer) in AFTER_ENTRIES else None


class Run:
    """A script and its report; everything is found here by its place, in one pass over each."""

    def __init__(self, script: Script, report: Report) -> None:
        self.script = script
        self.report = report
        self.works = [[Work(command) for command in row] for row in script.commands]
        self.named_by: dict[Place, list[Command]] = defaultdict(list)
        self.sights: dict[int, dict[int, list[Command]]] = defaultdict(lambda: defaultdict(list))
        self.endings: dict[Place, Place] = {}
        self.entry_of_mark: dict[Place, Place] = {}
        self.mark_of_entry: dict[Place, Place] = {}
        self._gather_answers()
        self._gather_entries()
        self._gather_marks()

    def work(self, cpu: int, seq: int) -> Work:
        """What the report has of this command."""
        return self.works[cpu][seq]

    def has_entry(self, place: Place) -> bool:
        """Whether the report has an entry at this place."""
        return place[0] < len(self.report.pages) and place[1] < len(self.report.pages[place[0]])

    def _gather_answers(self) -> None:
        for cpu, lines in enumerate(self.report.cpus):
            for line in lines:
                work = self.works[cpu][line.of("seq")]
                if word_of(line) == "event":
                    work.events.append(line)
                    continue
                if word_of(line) in BESIDE_ANSWERS:
                    work.beside.append(line)
                    moved = moved_by(line)
                    if moved is not None:
                        self.named_by[moved].append(work.command)
                    continue
                work.answers.append(line)
                named, sight = entry_named(line), sight_of(line)
                if named is not None:
                    self.named_by[named].append(work.command)
                if sight is not None:
                    self.sights[sight.page][sight.after].append(work.command)

    def _gather_entries(self) -> None:
        for page, history in enumerate(self.report.pages):
            for index, entry in enumerate(history):
                place = (page, index)
                self.work(*entry.line.who).entries.append(place)
                told = [signal.of("thread") for signal in entry.signals]
                if entry.verb in ("load", "store") and entry.line.get("thread") is not None:
                    told.append(entry.line.of("thread"))
                for thread in told:
                    if not self.script.threads[thread].handler:
                        self.endings.setdefault((self.script.threads[thread].process, page), place)

    def _gather_marks(self) -> None:
        """Ties a mark to the entry of its page where its command has just one of each in the mark's situation."""
        marks: dict[tuple[int, int, str], list[Place]] = defaultdict(list)
        for number, frame in enumerate(self.report.frames):
            for index, mark in enumerate(frame.marks):
                self.work(*mark.who).marks.append((number, index))
                if mark.words[0] == "poisoned":
                    marks[(*mark.who, mark.words[5])].append((number, index))
        entries: dict[tuple[int, int, str], list[Place]] = defaultdict(list)
        for page, history in enumerate(self.report.pages):
            for index, entry in enumerate(history):
                if entry.verb in ("fail", "soft"):
                    situation = entry.line.words[3] if entry.verb == "fail" else "moved"
                    entries[(*entry.line.who, situation)].append((page, index))
        for key, places in entries.items():
            if len(places) == 1 and len(marks[key]) == 1:
                self.entry_of_mark[marks[key][0]] = places[0]
                self.mark_of_entry[places[0]] = marks[key][0]

    def ending_for(self, answer: Line, command: Command) -> Optional[Place]:
        """The entry whose signal ended the process of a command that is answered `gone`."""
        thread = command.named("thread")
        if word_of(answer) != "gone" or thread is None:
            return None
        return self.endings.get((self.script.threads[thread].process, answer.of("page")))

    def settings(self) -> list[list[Command]]:
        """For each thread the commands that set or cleared its policy, in their order: also the fork that made its process."""
        settings: list[list[Command]] = [[] for _ in self.script.threads]
        for row in self.works:
            for work in row:
                command = work.command
                if work.answer is None or word_of(work.answer) != "done":
                    continue
                if command.verb == "prctl" and command.words[2] == "33":
                    settings[command.numbers[0]].append(command)
                if command.verb == "fork":
                    for thread, declared in enumerate(self.script.threads):
                        if declared.process == command.numbers[1]:
                            settings[thread].append(command)
        return settings
