"""The reader of reports. It takes the printed text of a report, byte for byte, and what it names must be in its script."""
from __future__ import annotations

from typing import NamedTuple, NoReturn, Optional, Sequence

from .forms import Fitted, Malformed, fitted, shown, value
from .script import CALLED, Script

WHO = "cpu seq "
STOPS = [
    "'stop 'none",
    "'stop cpu seq 'shutdown",
    "'stop cpu seq 'panic frame",
    "'stop cpu seq 'severity row bank status bit bit mode",
]
FRAMES = ["'frame frame " + place + " 'bad mask 'weak mask" for place in ("'free", "'kernel", "'handled", "'page page")]
MARKS = [
    "'poisoned cycle cpu seq 'hw situation result",
    "'poisoned cycle cpu seq 'sw situation result",
    "'poisoned cycle cpu seq 'soft 'moved 'recovered",
    "'poisoned cycle cpu seq 'soft 'free 'recovered",
    "'unpoisoned cycle cpu seq",
]
ENTRIES = {
    "in": [""],
    "map": ["trans"],
    "free": ["trans"],
    "drop": [""],
    "sync": [""],
    "out": [""],
    "soft": [""],
    "load": ["trans line 'sigbus thread", "trans line mask word"],
    "store": ["trans line 'sigbus thread", "trans line mask word"],
    "mce": ["trans line mask"],
    "fail": ["situation 'opt '- count signals", "situation 'req thread count signals"],
}
SEEN = ["'seen thread policy count"]
SIGNAL = ["'signal proc thread code trans"]
EVENT = ["seq 'event bank status address misc row outcome"]
# what stands beside the answer of a command: frames that it took out of use, and machine checks of a guest
BESIDE_ANSWERS = {
    "offlined": [
        f"seq 'offlined frame {result}"
        for result in ("'moved frame page entry", "'hasbad mask", "'takenfree", "'already", "'noframe", "'stopped")
    ],
    "guest": ["seq 'guest bank status address misc row taken"],
}
ANSWERS = {
    "value": ["word page entry"],
    "stored": ["page entry"],
    "sigbus": ["page entry"],
    "gone": ["page"],
    "done": ["", "page entry"],
    "notresident": ["page entry"],
    "notmapped": ["page entry"],
    "dirty": ["page entry"],
    "mapped": ["page entry"],
    "locked": ["page entry"],
    "badlines": ["mask page entry"],
    "eio": ["word"],
    "opened": ["word"],
    "is": ["word"],
    "moved": ["frame page entry"],
    "hasbad": ["mask"],
    "inuse": ["word"],
    "scrubbed": ["word"],
    "raised": ["word"],
}
BARE = "noframe stopped einval recovered delayed ignored already takenfree kernel notpoisoned hardwareseen gueststopped guestbad"
ANSWERS.update({word: [""] for word in BARE.split()})
BOUNDS = {"line": 64, "bit": 2, "bank": 1 << 8, "row": 1 << 8, "cycle": 1 << 32, "signals": 17}


class Line(NamedTuple):
    """A line of a report: its number, its text, its words, and the numbers in it by their slots."""

    number: int
    text: str
    words: tuple[str, ...]
    slots: tuple[str, ...]
    values: tuple[int, ...]

    def of(self, slot: str) -> int:
        """The first number that stands in such a slot."""
        return self.values[self.slots.index(slot)]

    def get(self, slot: str) -> Optional[int]:
        """The first number that stands in such a slot, if there is one."""
        return self.of(slot) if slot in self.slots else None

    @property
    def who(self) -> tuple[int, int]:
        """The processor and the number of its command."""
        return self.of("cpu"), self.of("seq")


class Entry(NamedTuple):
    """An entry of a page's history; a failure has the policies that it read and its signals."""

    line: Line
    seen: tuple[Line, ...]
    signals: tuple[Line, ...]

    @property
    def verb(self) -> str:
        """The first word."""
        return self.line.words[0]


class Frame(NamedTuple):
    """A frame and its record."""

    line: Line
    marks: tuple[Line, ...]

    @property
    def state(self) -> str:
        """Its place: `free`, `kernel`, `handled` or `page`."""
        return self.line.words[2]


class Report(NamedTuple):
    """A report: its lines by the things that they tell of."""

    stop: Line
    poisoned: Line
    files: tuple[Line, ...]
    frames: tuple[Frame, ...]
    pages: tuple[tuple[Entry, ...], ...]
    cpus: tuple[tuple[Line, ...], ...]


class _Reader:
    """The lines of a report, from the first to the last."""

    def __init__(self, data: bytes, script: Script) -> None:
        self.script = script
        self.texts = data.decode("latin-1").split("\n")
        self.at = 0

    def refuse(self, text: str) -> NoReturn:
        """Refuses the line that is to be read."""
        raise Malformed(f"report line {self.at + 1}: {text}")

    def peek(self) -> str:
        """The line that is to be read, or nothing behind the last."""
        return self.texts[self.at] if self.at < len(self.texts) else ""

    def take(self, shapes: Sequence[str], wanted: str) -> Line:
        """Reads a line of one of these shapes."""
        text = self.peek()
        words = text.split(" ")
        found = fitted(shapes, words)
        if found is None:
            stands = f"not {shown(text)}" if text else "and nothing does"
            self.refuse(f"{wanted} must stand here, {stands}")
        if self.at == len(self.texts) - 1:
            self.refuse("the line feed at its end is missing")
        line = Line(self.at + 1, text, tuple(words), found.slots, self.values(found))
        self.at += 1
        return line

    def values(self, found: Fitted) -> tuple[int, ...]:
        """The numbers of a line. Each must be written as reports write it, and what it names must be in the script."""
        values: list[int] = []
        for slot, word in zip(found.slots, found.words):
            number = None if slot in _WORD_SLOTS else value(slot, word)
            if number is None and slot not in _WORD_SLOTS:
                self.refuse(f"{shown(word)} is no number as a report writes it")
            values.append(-1 if number is None else number)
            if number is not None:
                self.check(slot, number, values, found.slots)
        return tuple(values)

    def check(self, slot: str, number: int, values: list[int], slots: tuple[str, ...]) -> None:
        """Refuses a number that names nothing of the script, or is outside its range."""
        if slot == "seq":
            cpu = values[slots.index("cpu")] if "cpu" in slots else self.cpu
            if number >= len(self.script.commands[cpu]):
                self.refuse(f"processor {cpu} has no command {number}")
        elif number >= self.script.declared(slot):
            self.refuse(f"the script has no {CALLED.get(slot, slot)} {number}")
        elif slot in BOUNDS and number >= BOUNDS[slot]:
            self.refuse(f"{number} is outside its range, 0 to {BOUNDS[slot] - 1}")

    cpu = 0

    def numbered(self, shapes: Sequence[str], wanted: str, slot: str, number: int) -> Line:
        """Reads the line of a thing of this number."""
        line = self.take(shapes, wanted)
        if line.of(slot) != number:
            self.at -= 1
            self.refuse(f"{wanted} must stand here, not {shown(line.text)}")
        return line

    def frame(self, number: int) -> Frame:
        """Reads a frame and its record."""
        line = self.numbered(FRAMES, f"the line of frame {number}", "frame", number)
        marks = []
        while self.peek().startswith(("poisoned", "unpoisoned")):
            marks.append(self.take(MARKS, f"a mark of frame {number}"))
        return Frame(line, tuple(marks))

    def page(self, number: int) -> tuple[Entry, ...]:
        """Reads the history of a page."""
        head = self.numbered(["'page page count"], f"the line of page {number}", "page", number)
        return tuple(self.entry(number, place) for place in range(head.of("count")))

    def entry(self, page: int, place: int) -> Entry:
        """Reads an entry, and what stands below a failure."""
        wanted = f"entry {place} of page {page}"
        line = self.take(_ENTRY_SHAPES.get(self.peek().split(" ")[0], []), wanted)
        if line.words[0] != "fail":
            return Entry(line, (), ())
        seen = tuple(self.take(SEEN, f"a `seen` line of {wanted}") for _ in range(line.of("count")))
        signals = tuple(self.take(SIGNAL, f"a `signal` line of {wanted}") for _ in range(line.of("signals")))
        return Entry(line, seen, signals)

    def processor(self, number: int) -> tuple[Line, ...]:
        """Reads the events and answers of a processor, and what stands beside them."""
        head = self.numbered(["'cpu cpu count"], f"the line of processor {number}", "cpu", number)
        self.cpu = number
        return tuple(self.cpu_line(number) for _ in range(head.of("count")))

    def cpu_line(self, number: int) -> Line:
        """Reads an event, an answer, or what stands beside an answer."""
        words = self.peek().split(" ")
        verb = words[1] if len(words) > 1 else ""
        return self.take(CPU_LINE_SHAPES.get(verb, []), f"an answer or an event of processor {number}")

    def report(self) -> Report:
        """Reads the whole report."""
        script = self.script
        version = script.version
        self.take([f"'hwp-report '{version}"], f"`hwp-report {version}`, the version of the script,")
        stop = self.take(STOPS, "the `stop` line")
        poisoned = self.take(["'count word"], "the `count` line")
        file_shape = ["'file file 'lost word"]
        files = tuple(self.numbered(file_shape, f"the line of file {n}", "file", n) for n in range(script.files))
        frames = tuple(self.frame(n) for n in range(script.frames))
        pages = tuple(self.page(n) for n in range(len(script.pages)))
        cpus = tuple(self.processor(n) for n in range(script.cpus))
        self.take(["'end"], "`end`")
        if self.texts[self.at :] != [""]:
            self.refuse("nothing may stand below `end`")
        return Report(stop, poisoned, files, frames, pages, cpus)


_WORD_SLOTS = frozenset("situation result outcome taken policy code mode".split())
_ENTRY_SHAPES = {verb: [f"'{verb} {WHO}{rest}".rstrip() for rest in shapes] for verb, shapes in ENTRIES.items()}
CPU_LINE_SHAPES = {verb: [f"seq '{verb} {rest}".rstrip() for rest in shapes] for verb, shapes in ANSWERS.items()}
CPU_LINE_SHAPES["event"] = EVENT
CPU_LINE_SHAPES.update(BESIDE_ANSWERS)


def read_report(data: bytes, script: Script) -> Report:
    """The report of these bytes, of a run of this script. Raises Malformed at the first line at fault."""
    return _Reader(data, script).report()
