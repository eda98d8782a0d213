"""The reader of traces. It takes the printed text of a trace, line by line, and what it names must be in its script."""
from __future__ import annotations

import re
from typing import NamedTuple, NoReturn, Optional

from .forms import Malformed, shown, value
from .script import CALLED, KINDS, Script

Fields = dict[str, int]

# For each name of a word: what the script calls the thing that it is of, if it is numbered by that.
WORDS: dict[str, Optional[str]] = {
    "frame": "frame",
    "trans": "trans",
    "cache": "page",
    "page": "page",
    "free": "set",
    "avail": None,
    "bad": "frame",
    "weak": "frame",
    "count": None,
    "proc": "proc",
    "policy": "thread",
    "file": "file",
    "stop": None,
}
# The forms of the values of a word. A part is a key with its number, or a key alone; `?` is behind what may be missing.
# `mask`, `number` and `signed` stand for a word without a key.
VALUES = {
    "frame": ["count number|owner page ?|locked ?|poisoned ?|handled ?|kernel ?|cycle number ?"],
    "trans": ["none", "frame frame", "poison"],
    "cache": ["none", "frame frame"],
    "page": ["unlocked", "locked"],
    "free": ["mask"],
    "avail": ["number"],
    "bad": ["mask"],
    "weak": ["mask"],
    "count": ["poisoned signed|hardware number"],
    "proc": ["alive", "ended page"],
    "policy": ["late number", "early number", "default number"],
    "file": ["lost number"],
    "stop": ["none|nomemory ?", "cpu cpu|nomemory ?"],
}
BARE = frozenset("mask number signed".split())
FRAMES_OF_A_SET = 64
ENDS = frozenset("moved waits changed answered".split())
LINE = re.compile(r"(\S+) (\S+) (\S+) (\S+) ([a-z]+(?: \S+)?) : (.+?)(?: -> (.+?))? : (\S+)")


class Turn(NamedTuple):
    """A turn: its number, its processor and command, the kind of its step, the word, what that said before and after, and its end."""

    number: int
    cpu: int
    seq: int
    kind: str
    word: str
    of: Optional[int]
    before: Fields
    after: Fields
    end: str

    @property
    def place(self) -> str:
        """The word that the step touched, as the trace writes it."""
        return self.word if self.of is None else f"{self.word} {self.of}"


class Part(NamedTuple):
    """A part of a value: its key, the slot of its number, whether the key is written, and whether the part may be missing."""

    key: str
    slot: str
    is_bare: bool
    is_optional: bool


def _parts(form: str) -> list[Part]:
    """The parts of a form."""
    parts = []
    for text in form.split("|"):
        words = text.removesuffix(" ?").split(" ")
        slot = words[0] if words[0] in BARE else (words + [""])[1]
        parts.append(Part(words[0], slot, words[0] in BARE, text.endswith(" ?")))
    return parts


FORMS = {word: [_parts(form) for form in forms] for word, forms in VALUES.items()}


def read_value(word: str, text: str) -> Optional[Fields]:
    """What a value of a word says, by its keys; a key alone is 1. None if it is no value of such a word."""
    for parts in FORMS[word]:
        found = _read_form(parts, text.split(" "))
        if found is not None:
            return found
    return None


def _read_form(parts: list[Part], words: list[str]) -> Optional[Fields]:
    """The fields of a value of this form."""
    fields: Fields = {}
    left = list(words)
    for part in parts:
        if not part.is_bare:
            if left[:1] != [part.key]:
                if part.is_optional:
                    continue
                return None
            left.pop(0)
        number = 1 if not part.slot else _number(part.slot, left.pop(0)) if left else None
        if number is None:
            return None
        fields[part.key] = number
    return None if left else fields


def _number(slot: str, word: str) -> Optional[int]:
    """The number that a word writes."""
    if slot == "signed" and word.startswith("-"):
        number = value("number", word[1:])
        return -number if number else None
    return value(slot, word)


def value_text(word: str, fields: Fields) -> str:
    """The value of a word that says this, as a trace writes it."""
    for parts in FORMS[word]:
        if {part.key for part in parts if not part.is_optional} <= set(fields) <= {part.key for part in parts}:
            return " ".join(_part_text(part, fields[part.key]) for part in parts if part.key in fields)
    raise Malformed(f"{shown(word)} has no value with {shown(', '.join(fields))}")


def _part_text(part: Part, number: int) -> str:
    text = f"{number:x}" if part.slot == "mask" else str(number)
    return text if part.is_bare else part.key if not part.slot else f"{part.key} {text}"


class _Reader:
    """The lines of a trace, and which command each processor is at."""

    def __init__(self, script: Script) -> None:
        self.script = script
        self.at = [0] * script.cpus
        self.line = 1
        self.turns: list[Turn] = []

    def refuse(self, text: str) -> NoReturn:
        """Refuses the line."""
        raise Malformed(f"trace line {self.line}: {text}")

    def number(self, slot: str, word: str) -> int:
        """The number of a thing of the script."""
        number = value(slot, word)
        if number is None:
            self.refuse(f"{shown(word)} is no number as a trace writes it")
        self.check(slot, number)
        return number

    def check(self, slot: str, number: int) -> None:
        """Refuses a number of what the script doesn't have."""
        if number >= (-(-self.script.frames // FRAMES_OF_A_SET) if slot == "set" else self.script.declared(slot)):
            self.refuse(f"the script has no {CALLED.get(slot, slot)} {number}")

    def value(self, word: str, text: str) -> Fields:
        """What a word says."""
        fields = read_value(word, text)
        if fields is None:
            self.refuse(f"{shown(text)} is no value of `{word}`")
        for key, number in fields.items():
            slot = {"owner": "page", "ended": "page", "frame": "frame", "cpu": "cpu"}.get(key)
            if slot is not None:
                self.check(slot, number)
        return fields

    def read(self, text: str) -> None:
        """Reads the line of a turn."""
        told = LINE.fullmatch(text)
        if told is None:
            self.refuse(f"a turn must stand here, not {shown(text)}")
        number, cpu, seq, kind, place, before, after, end = told.groups()
        if self.number("turn", number) != len(self.turns):
            self.refuse(f"turn {len(self.turns)} must stand here, not turn {number}")
        who, command = self.number("cpu", cpu), self.number("seq", seq)
        if command != self.at[who] or command >= len(self.script.commands[who]):
            self.refuse(f"processor {who} isn't at command {command}")
        if kind not in KINDS or end not in ENDS:
            self.refuse(f"{shown(kind if kind not in KINDS else end)} is no {'kind of step' if kind not in KINDS else 'end of a turn'}")
        word, _, of = place.partition(" ")
        slot = WORDS.get(word, "")
        if slot == "" or (slot is None) != (of == ""):
            self.refuse(f"{shown(place)} is no word of the shared memory")
        named = None if slot is None else self.number(slot, of)
        first = self.value(word, before)
        second = first if after is None else self.value(word, after)
        if after is not None and first == second:
            self.refuse("a value that stays is written once")
        self.turns.append(Turn(len(self.turns), who, command, kind, word, named, first, second, end))
        self.at[who] += end == "answered"

    def close(self) -> None:
        """Refuses a trace that is cut off."""
        for cpu, commands in enumerate(self.script.commands):
            if self.at[cpu] < len(commands):
                self.refuse(f"the trace ends before processor {cpu} has answered its command {self.at[cpu]}")


def read_trace(data: bytes, script: Script) -> list[Turn]:
    """The turns of a trace of this script. Raises Malformed at the first line at fault."""
    reader = _Reader(script)
    lines = data.decode("latin-1").split("\n")
    if lines[0] != "hwp-trace 1":
        reader.refuse(f"`hwp-trace 1` must stand here, not {shown(lines[0])}")
    for number, line in enumerate(lines[1:-1], 2):
        reader.line = number
        reader.read(line)
    reader.line = len(lines)
    if lines[-1]:
        reader.refuse("the line feed at its end is missing")
    reader.close()
    return reader.turns


def turn_text(turn: Turn) -> str:
    """The line of a turn, as the trace writes it."""
    before, after = value_text(turn.word, turn.before), value_text(turn.word, turn.after)
    change = before if turn.before == turn.after else f"{before} -> {after}"
    return f"{turn.number} {turn.cpu} {turn.seq} {turn.kind} {turn.place} : {change} : {turn.end}"


