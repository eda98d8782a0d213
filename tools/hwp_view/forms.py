"""The words of a line: numbers as scripts and reports write them, and the shapes of lines.

A shape is a text of slots with one space between two. A slot is a fixed word behind a quote mark (`'handler`), the name of a
set of words (`policy`), or the name of a number (`frame`). A line has several shapes where a fixed word decides.
"""
from __future__ import annotations

import re
from typing import NamedTuple, Optional, Sequence

HIGHEST = (1 << 64) - 1
NUMBER = re.compile(r"0|[1-9][0-9]{0,19}")
HEX = re.compile(r"0|[1-9a-f][0-9a-f]{0,15}")
REGISTER = re.compile(r"0|0x[0-9a-fA-F]{1,16}")
ROW = re.compile(r"S(0|[1-9][0-9]{0,2})")

CHOICES: dict[str, frozenset[str]] = {
    "situation": frozenset("free kernel fileclean filedirty anononly swapclean swapdirty lockedclean lockedfile lockedanon".split()),
    "result": frozenset("recovered delayed ignored".split()),
    "outcome": frozenset("none keep deferred logged recovered delayed ignored already outside stop panic held".split()),
    "taken": frozenset("bad stop".split()),
    "policy": frozenset("late early default".split()),
    "code": frozenset("ar ao".split()),
    "mode": frozenset("user kernel".split()),
}
HEX_SLOTS = frozenset("mask status address misc".split())


class Malformed(Exception):
    """A script or a report is not of its form; the text is the one line that says where and why."""


class Fitted(NamedTuple):
    """The words of a line beside the slots of the shape that fits them, and where among all words each stands."""

    slots: tuple[str, ...]
    words: tuple[str, ...]
    places: tuple[int, ...]


def fitted(shapes: Sequence[str], words: Sequence[str]) -> Optional[Fitted]:
    """The first shape of which the words have the number and the fixed words, with the slots that are left."""
    for shape in shapes:
        slots = shape.split()
        if len(slots) == len(words) and all(_may_stand(slot, word) for slot, word in zip(slots, words)):
            places = tuple(place for place, slot in enumerate(slots) if not slot.startswith("'"))
            return Fitted(tuple(slots[p] for p in places), tuple(words[p] for p in places), places)
    return None


def _may_stand(slot: str, word: str) -> bool:
    """Whether the word may stand in the slot, for all that its number may be."""
    if slot.startswith("'"):
        return word == slot[1:]
    return slot not in CHOICES or word in CHOICES[slot]


def value(slot: str, word: str) -> Optional[int]:
    """The number that a word writes in a slot, or None where it writes none there."""
    if slot == "register":
        return int(word, 16) if REGISTER.fullmatch(word) else None
    if slot in HEX_SLOTS:
        return int(word, 16) if HEX.fullmatch(word) else None
    if slot == "row":
        row = ROW.fullmatch(word)
        return int(row.group(1)) if row else None
    number = int(word) if NUMBER.fullmatch(word) else HIGHEST + 1
    return number if number <= HIGHEST else None


def shown(text: str) -> str:
    """A text as a message may show it: short, in quotes, and nothing in it but printable ASCII."""
    short = text if len(text) <= 60 else text[:57] + "..."
    return ascii(short)


def lines_of_mask(mask: int) -> list[int]:
    """The numbers of the lines whose bits are set."""
    return [line for line in range(64) if mask >> line & 1]


def ranges(numbers: Sequence[int]) -> str:
    """Rising numbers in words: `0, 3 to 5`."""
    parts: list[list[int]] = []
    for number in numbers:
        if parts and parts[-1][1] == number - 1:
            parts[-1][1] = number
        else:
            parts.append([number, number])
    texts = [
        str(low) if low == high else f"{low} to {high}" if high > low + 1 else f"{low}, {high}" for low, high in parts
    ]
    return ", ".join(texts)
