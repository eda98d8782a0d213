"""A smaller script that still shows something: commands, schedule words and declarations go, as long as it does."""
from __future__ import annotations

import re
from concurrent.futures import ThreadPoolExecutor
from typing import Callable, Dict, Iterator, List, NamedTuple, Optional, Tuple, TypeVar

from hwp_view.script import SHAPES

from .tasks import called

Part = TypeVar("Part")
Line = List[str]
# What is declared by numbers without a gap, those that refer to others first.
KINDS = ("trans", "page", "thread", "proc", "file", "cpu")


class Script(NamedTuple):
    """The parts of a script: the declarations, the commands with their processor, and the words of the schedule."""

    heads: Tuple[Line, ...]
    commands: Tuple[Tuple[str, Line], ...]
    words: Tuple[str, ...]

    def text(self) -> str:
        """The script as the program reads it."""
        lines = [" ".join(line) for line in self.heads]
        for cpu in dict.fromkeys(cpu for cpu, _ in self.commands):
            lines += [f"cpu {cpu}", *(" ".join(line) for at, line in self.commands if at == cpu)]
        if self.words:
            lines.append(" ".join(["schedule", *self.words]))
        return "\n".join([*lines, "end"]) + "\n"


def parts(text: str) -> Script:
    """Takes a script apart. It is one that the program doesn't refuse."""
    heads: List[Line] = []
    commands: List[Tuple[str, Line]] = []
    words: List[str] = []
    cpu = ""
    for line in text.splitlines():
        found = line.split()
        if not found or line.startswith("#") or found == ["end"]:
            continue
        if found[0] == "cpu":
            cpu = found[1]
        elif found[0] == "schedule":
            words += found[1:]
        elif cpu:
            commands.append((cpu, found))
        else:
            heads.append(found)
    return Script(tuple(heads), tuple(commands), tuple(words))


def kinds_of(line: Line) -> List[str]:
    """What each word of a line is, behind the first."""
    for shape in SHAPES.get(line[0], []):
        kinds = shape.split()
        fixed = all(kind[1:] == word for kind, word in zip(kinds, line[1:]) if kind.startswith("'"))
        if fixed and len(kinds) == len(line) - 1:
            return kinds
    return []


def renumbered(line: Line, kind: str, gone: int) -> Optional[Line]:
    """The line where a number of a kind is gone; none if the line names it."""
    found = line[:1]
    for word, its in zip(line[1:], kinds_of(line) or [""] * len(line)):
        if its == kind and int(word) == gone:
            return None
        found.append(str(int(word) - 1) if its == kind and int(word) > gone else word)
    return found


def without(script: Script, kind: str, gone: int) -> Optional[Script]:
    """The script without a declaration, with the numbers behind it one less; none if another line names it."""
    heads: List[Line] = []
    for line in script.heads:
        if line[:2] == [kind, str(gone)]:
            continue
        if line[0] == "cpus" and kind == "cpu":
            line = ["cpus", str(int(line[1]) - 1)]
        new = renumbered(line, kind, gone)
        if new is None:
            return None
        heads.append(new)
    commands = []
    for cpu, line in script.commands:
        listed = renumbered(["cpu", cpu], kind, gone)
        new = renumbered(line, kind, gone)
        if listed is None or new is None:
            return None
        commands.append((listed[1], new))
    if kind == "cpu" and script.words:
        return None
    return Script(tuple(heads), tuple(commands), script.words)


def fewer(items: Tuple[Part, ...], holds: Callable[[Tuple[Part, ...]], bool]) -> Tuple[Part, ...]:
    """As few of these as it goes: rows of them are left out, ever shorter ones, as long as it still holds."""
    size = len(items)
    while size:
        at, before = 0, len(items)
        while at < len(items):
            rest = items[:at] + items[at + size :]
            if holds(rest):
                items = rest
            else:
                at += size
        size = min(size // 2 if size > 1 or len(items) == before else 1, len(items))
    return items


def smaller_machines(script: Script) -> Iterator[Script]:
    """The script with one declaration less, with a page that isn't locked any more, or with fewer frames."""
    for kind in KINDS:
        count = sum(line[0] == kind for line in script.heads)
        if kind == "cpu":
            count = next((int(line[1]) for line in script.heads if line[0] == "cpus"), 0)
        for gone in reversed(range(count)):
            less = without(script, kind, gone)
            if less is not None and less != script:
                yield less
    for at, line in enumerate(script.heads):
        before, behind = script.heads[:at], script.heads[at + 1 :]
        if line[0] in ("kernel", "recovery", "early"):
            yield Script(before + behind, script.commands, script.words)
        elif line[0] == "page" and line[-1] == "locked":
            yield Script((*before, line[:-1], *behind), script.commands, script.words)
        elif line[0] == "frames":
            for count in sorted({1, int(line[1]) // 2, int(line[1]) - 1}):
                if 0 < count < int(line[1]):
                    yield Script((*before, ["frames", str(count)], *behind), script.commands, script.words)


class Shows:
    """Whether a script shows what is looked for: in one of so many runs a line of the report, or what `check` says of it, matches."""

    def __init__(self, program: str, pattern: str, runs: int, jobs: int, seconds: float) -> None:
        self.program, self.runs, self.jobs, self.seconds = program, runs, jobs, seconds
        self.pattern = re.compile(pattern)
        self.known: Dict[str, bool] = {}
        self.tried = 0

    def once(self, text: str) -> bool:
        """One run."""
        ran = called(self.program, ["run"], text, self.seconds)
        if ran.status not in (0, 8):
            return False
        verdict = called(self.program, ["check"], text + ran.wrote, self.seconds).wrote
        return any(self.pattern.search(line) for line in [*ran.wrote.splitlines(), *verdict.splitlines()])

    def often(self, text: str) -> int:
        """How many of the runs show it."""
        with ThreadPoolExecutor(self.jobs) as pool:
            return sum(pool.map(self.once, [text] * self.runs))

    def __call__(self, script: Script) -> bool:
        """Whether a run of this script shows it. The runs that are left out once one has shown it cost nothing."""
        text = script.text()
        if text not in self.known:
            self.tried += 1
            with ThreadPoolExecutor(self.jobs) as pool:
                rows = (min(self.jobs, self.runs - at) for at in range(0, self.runs, self.jobs))
                self.known[text] = any(any(pool.map(self.once, [text] * row)) for row in rows)
        return self.known[text]


def shrunk(script: Script, shows: Callable[[Script], bool], keep: Callable[[Script], None]) -> Script:
    """A script that shows it, of which nothing more can be left out. Each smaller one is kept as soon as it is found."""

    def holds(less: Script) -> bool:
        if not shows(less):
            return False
        keep(less)
        return True

    while True:
        before = script
        script = script._replace(words=fewer(script.words, lambda words: holds(script._replace(words=words))))
        script = script._replace(commands=fewer(script.commands, lambda commands: holds(script._replace(commands=commands))))
        less: Optional[Script] = script
        while less is not None:
            script = less
            less = next((each for each in smaller_machines(script) if holds(each)), None)
        if script == before:
            return script
