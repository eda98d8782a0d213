"""The command `hwp-judge`."""
from __future__ import annotations

import re
from typing import NamedTuple, Optional, Sequence

from hwp_view.forms import Malformed, fitted, value
from hwp_view.report import BESIDE_ANSWERS, CPU_LINE_SHAPES, ENTRIES, read_report
from hwp_view.run import AFTER_ENTRIES
from hwp_view.script import Command, Script, read_script

from .console import REFUSED, Ended, ask, called, parser, read, script_of, unexpected, write

SAYS = """Has a report judged by `hwp check`, and shows the line that the verdict names, those beside it, the command of the script
that it tells of, the entry that it names, and what the broken rule asks. One of the two may be `-`, for standard input."""
STATUSES = """status: 0 the report is legal. 1: it isn't. 2: the arguments are others. 3: the script is refused, or there is more than
17 MiB of both. 4: a read failed. 5: a write failed. 6: out of memory. 70: the program hwp could not be run."""
RULES = {
    1: "The text must be a report of the script's version with as many files, frames, pages and processors as the script has. The line named is the "
    "first that doesn't follow those before it, or doesn't fit the script.",
    2: "Each page's history must be legal from its opening, the command numbers of one processor may not fall in it, and each "
    "entry must be one that its command makes, with that command's numbers. The line named is the entry; of a failure its "
    "`fail` line, whichever of its lines is wrong.",
    3: "Each command must have exactly one answer, in order, and answers, event lines and `offlined` lines must have their causes in "
    "the report. The `offlined` lines of a command must be those that its processor's collector asks for, in their order. A load through a "
    "translation that a fork froze must give the word that a full copy at the fork would hold. An access that a guest doesn't admit must be "
    "answered so, and do nothing, and a guest must be told of each of its accesses that is answered `sigbus`, right before that answer. The line "
    "named is the answer, the event, the `offlined` or the `guest` line; the `cpu` line if one is missing.",
    4: "Each policy that a failure saw must be that of the thread after as many settings as the line says; of a thread of the "
    "failing processor these are the settings done before, and along one processor the number of a thread's settings never "
    "falls. The line named is the `seen` line.",
    5: "The records of a frame must alternate from `poisoned`, in cycles from 0. Each must have what it found, with that result, "
    "its entry if it found a page or moved one, and its answer, event or `offlined` line, and the reverse. The line named is the record; the "
    "`frame` line if one is missing; the first entry of a failure if the number of those that a thread needed is another than "
    "that of the events of row S9.",
    6: "The count must be that of the frames whose last record is `poisoned`. The line named is the `count` line.",
    7: "The number of each file must be that of its dirty pages that failed. A processor's number of a file is 0 at first; `eio` adds "
    "its number, and `opened` takes its place. It may never fall, nor be more than that of the file; and where `fsync` answers `done` or "
    "`eio`, or `open` answers, it must be at least what earlier commands of that processor lost. The line named is the `file` line.",
    8: "The stop record must be there if and only if an answer is `stopped`, and must have its cause; after a processor's first "
    "`stopped` all its answers must be `stopped`. The line named is the `stop` line.",
    9: "A page must be cached if and only if one frame says it; the other places, and the bad and weak lines of frames, must be "
    "those of the machine, the records and the commands. The line named is the `frame` line.",
}
BESIDE = 2
LONGEST = 200


class Verdict(NamedTuple):
    """The line of a report that breaks a rule, from 1, and the rule."""

    place: int
    rule: int


def verdict(script: bytes, report: bytes) -> Optional[Verdict]:
    """What `hwp check` says of a report: nothing where it is legal."""
    answer = ask("hwp", ["check"], script + report)
    if answer.status == 3:
        raise Ended(REFUSED, answer.told)
    if (answer.status, answer.out) == (0, b"legal\n"):
        return None
    told = re.fullmatch(rb"not ([0-9]+) ([1-9])\n", answer.out)
    if answer.status != 1 or told is None:
        raise unexpected("hwp check", answer)
    return Verdict(int(told[1]), int(told[2]))


def plain(text: str) -> str:
    """A line of a report as it is shown: short, and nothing in it but printable ASCII."""
    short = text if len(text) <= LONGEST else text[: LONGEST - 3] + "..."
    return short if short.isascii() and short.isprintable() else ascii(short)[1:-1]


class Told:
    """What a line of a report tells of: the command, and the entry that an answer names. The report may be malformed."""

    def __init__(self, script: Script, report: bytes) -> None:
        self.script = script
        self.texts = report.decode("latin-1").split("\n")
        if self.texts[-1] == "":
            self.texts.pop()
        self.lines = [line.split(" ") for line in self.texts]

    def words(self, place: int) -> list[str]:
        """The words of the line at this place, from 0."""
        return self.lines[place] if place < len(self.lines) else [""]

    def heading(self, place: int, word: str) -> Optional[int]:
        """The place of the nearest line with this first word, here or above."""
        return next((at for at in range(min(place, len(self.lines) - 1), -1, -1) if self.lines[at][0] == word), None)

    def command(self, place: int) -> Optional[Command]:
        """The command that the line at this place tells of."""
        words = self.words(place)
        if words[0] in ("seen", "signal"):
            above = self.heading(place, "fail")
            return None if above is None else self.command(above)
        if words[0] in ("poisoned", "unpoisoned"):
            return self._command(words[2:4])
        if words[0] in ENTRIES or words[0] == "stop":
            return self._command(words[1:3])
        above = self.heading(place, "cpu")
        return None if above is None else self._command([*self.lines[above][1:2], words[0]])

    def _command(self, words: Sequence[str]) -> Optional[Command]:
        """The command whose processor and number these words write."""
        numbers = [number for number in (value("seq", word) for word in words) if number is not None]
        if len(numbers) != 2 or numbers[0] >= len(self.script.commands):
            return None
        row = self.script.commands[numbers[0]]
        return row[numbers[1]] if numbers[1] < len(row) else None

    def unanswered(self, place: int) -> Optional[Command]:
        """The first command without an answer of the processor whose heading stands at this place."""
        if self.words(place)[0] != "cpu":
            return None
        below = next((at for at in range(place + 1, len(self.lines)) if self.lines[at][0] == "cpu"), len(self.lines))
        answered = {words[0] for words in self.lines[place + 1 : below] if not set(words[1:2]) & {"event", *BESIDE_ANSWERS}}
        first = self._command([*self.lines[place][1:2], "0"])
        row = [] if first is None else self.script.commands[first.cpu]
        return next((command for command in row if str(command.seq) not in answered), None)

    def entry(self, page: int, number: int) -> Optional[int]:
        """The place of an entry of a page."""
        begin = next((at for at, words in enumerate(self.lines) if words[:2] == ["page", str(page)]), len(self.lines))
        count = 0
        for at in range(begin + 1, len(self.lines)):
            if self.lines[at][0] in ("page", "cpu"):
                break
            if self.lines[at][0] in ENTRIES:
                if count == number:
                    return at
                count += 1
        return None

    def named(self, place: int) -> str:
        """What the answer at this place names, in words; nothing for other lines."""
        words = self.words(place)
        found = fitted(CPU_LINE_SHAPES.get(words[1], []), words) if len(words) > 1 else None
        if found is None or "entry" not in found.slots:
            return ""
        page, number = (value("entry", word) for word in found.words[-2:])
        if page is None or number is None:
            return ""
        is_after = words[1] in AFTER_ENTRIES
        at = self.entry(page, number - is_after)
        stands = "which isn't there" if at is None else f"line {at + 1}: {plain(self.texts[at])}"
        if is_after:
            return f"it saw page {page} after {number} entries" + (f"; the last of them: {stands}" if number else "")
        return f"it names entry {number} of page {page}, {stands}"


def shown(found: Verdict, script: Script, report: bytes, names: Sequence[str]) -> str:
    """The verdict in words, with what stands at its line."""
    told, place = Told(script, report), found.place - 1
    text = [f"{names[1]}:{found.place}: not legal: rule {found.rule} is broken"]
    for at in range(max(0, place - BESIDE), place + BESIDE + 1):
        if at < len(told.texts) or at == place:
            line = plain(told.texts[at]) if at < len(told.texts) else "(nothing stands here)"
            text.append(f"{'>' if at == place else ' '} {at + 1:>5}  {line}")
    for says, command in (("it is of", told.command(place)), ("it has no answer for", told.unanswered(place))):
        if command is not None:
            where = f"{names[0]}:{command.line}: {command.text}"
            text.append(f"{says} command {command.seq} of processor {command.cpu}, {where}")
    text += [more for more in (told.named(place), _form(found, script, report)) if more]
    text.append(f"rule {found.rule}: {RULES[found.rule]}")
    return "".join(f"{line}\n" for line in text)


def _form(found: Verdict, script: Script, report: bytes) -> str:
    """What is wrong with the form of a report, where the reader of reports finds it in the same line."""
    try:
        read_report(report, script)
    except Malformed as why:
        where, text = str(why).split(": ", 1)
        if found.rule == 1 and where == f"report line {found.place}":
            return text
    return ""


def main(words: Sequence[str]) -> int:
    """Runs the command with these words, and answers its status."""
    options = parser("hwp-judge", SAYS, STATUSES)
    options.add_argument("script", metavar="SCRIPT")
    options.add_argument("report", metavar="REPORT")
    paths = options.parse_args(words)
    if paths.script == paths.report == "-":
        options.error("only one of the two may be standard input")
    data, report = read(paths.script), read(paths.report)
    try:
        script = read_script(data)
    except Malformed as why:
        raise Ended(REFUSED, str(why)) from why
    found = verdict(script_of(paths.script, data), report)
    names = [path if path == "-" else called(path) for path in (paths.script, paths.report)]
    write("legal\n" if found is None else shown(found, script, report, names))
    return 0 if found is None else 1
