"""The run of a script, command by command: what hwp answered, what it did to pages and frames, and where each page was before."""
from __future__ import annotations

from dataclasses import dataclass, field
from typing import Iterator, NamedTuple, Optional

from hwp_view.report import BESIDE_ANSWERS, Entry, Line, Report
from hwp_view.script import Command, Script

SIGNALLED = ("filedirty", "anononly", "lockedfile", "lockedanon")


class NoForm(Exception):
    """Linux can't make this command, or the tool can't; the text is why."""


class Signal(NamedTuple):
    """A SIGBUS: the thread, its code as a word, and the translation that it names."""

    thread: int
    code: str
    translation: int

    def __str__(self) -> str:
        return f"thread {self.thread} {self.code} {self.translation}"


class Event(NamedTuple):
    """An event of a machine check: its bank, what that held, the row that graded it, and what was done."""

    bank: int
    status: int
    address: int
    misc: int
    row: int
    outcome: str


@dataclass
class PageState:
    """A page before a command: its frame, the translations in use, those that are barred, and what was done to it."""

    frame: Optional[int] = None
    used: set[int] = field(default_factory=set)
    barred: set[int] = field(default_factory=set)
    is_stored: bool = False
    was_out: bool = False
    is_in_by_store: bool = False


@dataclass
class World:
    """The machine before a command, as far as a report tells it."""

    pages: list[PageState]
    handled: set[int] = field(default_factory=set)
    poisoned: set[int] = field(default_factory=set)
    ended: set[int] = field(default_factory=set)
    count: int = 0

    def page_in(self, frame: int) -> Optional[int]:
        """The page in a frame."""
        return next((number for number, page in enumerate(self.pages) if page.frame == frame), None)


@dataclass
class Step:
    """A command with all that its report says of it."""

    command: Command
    answer: Line
    events: list[Event]
    entries: list[tuple[int, int, Entry]]
    marks: list[tuple[int, Line]]
    signals: list[Signal] = field(default_factory=list)
    ended: set[int] = field(default_factory=set)
    failed: dict[int, tuple[str, Optional[int]]] = field(default_factory=dict)
    count: int = 0

    @property
    def word(self) -> str:
        """The answer's word, with the number that it has where that is an answer of its own."""
        words = self.answer.words
        return " ".join(words[1:3]) if words[1] in ("value", "is") else words[1]

    @property
    def who(self) -> tuple[int, int]:
        """The processor and the number of the command."""
        return self.command.cpu, self.command.seq

    def has(self, verb: str) -> bool:
        """Whether the command made such an entry."""
        return any(entry.verb == verb for _, _, entry in self.entries)


def order_of(script: Script) -> list[tuple[int, int]]:
    """The order of the commands, where each is whole. Raises NoForm where processors meet inside their commands, and for a guest."""
    if any(script.guests):
        raise NoForm("the processes of the emulated kernel are no virtual machines")
    at = [0] * script.cpus
    found: list[tuple[int, int]] = []

    def next_of(cpu: int) -> None:
        if at[cpu] < len(script.commands[cpu]):
            found.append((cpu, at[cpu]))
            at[cpu] += 1

    busy = [cpu for cpu in range(script.cpus) if script.commands[cpu]]
    for word in script.schedule if len(busy) > 1 else []:
        if not word.endswith("."):
            raise NoForm("two processors are inside their commands at once")
        next_of(int(word[:-1]))
    for cpu in range(script.cpus):
        while at[cpu] < len(script.commands[cpu]):
            next_of(cpu)
    return found


def event_of(line: Line) -> Event:
    """An event line."""
    return Event(line.of("bank"), line.of("status"), line.of("address"), line.of("misc"), line.of("row"), line.words[-1])


def steps_of(script: Script, report: Report) -> list[Step]:
    """The commands in their order, each with its lines of the report."""
    answers: dict[tuple[int, int], Line] = {}
    events: dict[tuple[int, int], list[Event]] = {}
    for cpu, lines in enumerate(report.cpus):
        for line in lines:
            who = (cpu, line.of("seq"))
            if line.words[1] == "event":
                events.setdefault(who, []).append(event_of(line))
            elif line.words[1] not in BESIDE_ANSWERS:
                answers[who] = line
    steps = {who: Step(script.commands[who[0]][who[1]], answers[who], events.get(who, []), [], []) for who in order_of(script)}
    for page, history in enumerate(report.pages):
        for at, entry in enumerate(history):
            steps[entry.line.who].entries.append((page, at, entry))
    for number, frame in enumerate(report.frames):
        for mark in frame.marks:
            steps[mark.who].marks.append((number, mark))
    return list(steps.values())


class Unrolling:
    """Goes through the steps, and knows the machine before each."""

    def __init__(self, script: Script, report: Report) -> None:
        self.script = script
        self.steps = steps_of(script, report)
        self.world = World([PageState() for _ in script.pages])

    def walk(self) -> Iterator[tuple[Step, World]]:
        """Each step with the machine before it."""
        for step in self.steps:
            self.note_signals(step)
            self.note_failures(step)
            yield step, self.world
            self.make(step)

    def note_signals(self, step: Step) -> None:
        """What each thread sees of the command's signals: a process without a handler ends, one that has ended sees nothing."""
        threads = self.script.threads
        came = [Signal(s.of("thread"), s.words[3], s.of("trans")) for _, _, entry in step.entries for s in entry.signals]
        for _, _, entry in step.entries:
            if "sigbus" in entry.line.words:
                came.append(Signal(entry.line.of("thread"), "ar", entry.line.of("trans")))
        for signal in came:
            process = threads[signal.thread].process
            if process in self.world.ended | step.ended:
                continue
            if threads[signal.thread].handler:
                step.signals.append(signal)
            else:
                step.ended.add(process)

    def note_failures(self, step: Step) -> None:
        """The frames that the command poisons: what each failure found, and the page that was in it."""
        fallen = {entry.line.words[3]: page for page, _, entry in step.entries if entry.verb == "fail"}
        for frame, mark in step.marks:
            if mark.words[0] == "poisoned":
                step.count += 1
                page = self.world.page_in(frame)
                step.failed[frame] = (mark.words[5], fallen.get(mark.words[5]) if page is None else page)
            else:
                step.count -= 1

    def make(self, step: Step) -> None:
        """What the command leaves of the machine."""
        world = self.world
        early = [frame for frame, (situation, _) in step.failed.items() if situation in ("free", "kernel")]
        for frame in early:
            self.poison(frame)
        for page, _, entry in step.entries:
            self.enter(step, page, entry)
        for frame, mark in step.marks:
            if mark.words[0] == "poisoned":
                self.poison(frame)
            else:
                world.poisoned.discard(frame)
                world.handled.discard(frame)
        world.count += step.count
        world.ended |= step.ended

    def poison(self, frame: int) -> None:
        """A frame is poisoned, and out of use unless it is the kernel's."""
        self.world.poisoned.add(frame)
        if frame not in self.script.kernel:
            self.world.handled.add(frame)

    def enter(self, step: Step, number: int, entry: Entry) -> None:
        """What an entry does to its page."""
        page, verb = self.world.pages[number], entry.verb
        if verb == "in":
            page.frame = self.lowest_free()
            page.is_in_by_store = page.was_out and step.command.verb == "store"
        elif verb == "map":
            page.used.add(entry.line.of("trans"))
        elif verb == "free":
            page.used.discard(entry.line.of("trans"))
        elif verb in ("drop", "out"):
            page.frame, page.used, page.was_out = None, set(), page.was_out or verb == "out"
        elif verb == "soft":
            page.frame = step.answer.of("frame")
        elif verb == "store" and "sigbus" not in entry.line.words:
            page.is_stored = True
        elif verb == "fail":
            if page.frame is not None:
                self.poison(page.frame)
            if entry.line.words[3] in SIGNALLED:
                page.barred |= page.used
            page.frame, page.used = None, set()

    def lowest_free(self) -> Optional[int]:
        """The frame that a page takes: the lowest that is free."""
        taken = {page.frame for page in self.world.pages} | self.script.kernel | self.world.handled
        return next((frame for frame in range(self.script.frames) if frame not in taken), None)
