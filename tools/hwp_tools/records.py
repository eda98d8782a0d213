"""Machine-check records as mcelog, rasdaemon and the kernel's log write them."""
from __future__ import annotations

import re
from typing import NamedTuple, Optional

from hwp_view.forms import shown

from .console import REFUSED, Ended

HEX = r"(?:0x)?([0-9a-fA-F]+)\b"
# mcelog begins a record with its processor, the kernel's log also tells the status there; rasdaemon has a record in one line
BEGIN = re.compile(r"(?:^|\s)CPU\s*:?\s*\d+(?:\s|:)")
OF_KERNEL = re.compile(r"CPU \d+: Machine Check.*Bank \d+: (\S+)")
OF_RASDAEMON = re.compile(r"\bstatus=\s*(\S*)")
WORD = re.compile(r"\b(STATUS|ADDR|MISC) (\S+)")


class Record(NamedTuple):
    """A machine check that was recorded: the line on which it begins, and what the bank held."""

    line: int
    status: int
    address: int
    misc: int


class _Reader:
    """The records of a text, line by line."""

    def __init__(self, name: str) -> None:
        self.name = name
        self.number = 0
        self.begun = 0
        self.found: dict[str, int] = {}
        self.records: list[Record] = []

    def refuse(self, line: int, text: str) -> Ended:
        """The end of a call for what stands in a line."""
        return Ended(REFUSED, f"{self.name}:{line}: {text}")

    def register(self, what: str, word: str) -> None:
        """Notes a register of the record."""
        written = re.fullmatch(HEX, word.rstrip(",;"))
        if written is None or len(written[1]) > 16:
            raise self.refuse(self.number, f"{shown(word)} is no {what} of up to 16 hex digits")
        if what in self.found:
            raise self.refuse(self.number, f"a second {what} in the record of line {self.begun}")
        self.found[what] = int(written[1], 16)

    def close(self) -> None:
        """Ends the record that was begun."""
        if self.begun and "STATUS" not in self.found:
            raise self.refuse(self.begun, "the record that begins here has no STATUS")
        if self.begun:
            found = self.found
            self.records.append(Record(self.begun, found["STATUS"], found.get("ADDR", 0), found.get("MISC", 0)))
        self.begun, self.found = 0, {}

    def begin(self) -> None:
        """Begins a record."""
        self.close()
        self.begun = self.number

    def read(self, line: str) -> None:
        """Reads a line."""
        self.number += 1
        of_rasdaemon, of_kernel = OF_RASDAEMON.search(line), OF_KERNEL.search(line)
        if of_rasdaemon:
            self.begin()
            for what in ("status", "addr", "misc"):
                told = re.search(rf"\b{what}=\s*([^\s,;]*)", line)
                if told:
                    self.register(what.upper(), told[1])
            self.close()
        elif of_kernel:
            self.begin()
            self.register("STATUS", of_kernel[1])
        else:
            if BEGIN.search(line):
                self.begin()
            for what, word in WORD.findall(line):
                if not self.begun:
                    raise self.refuse(self.number, f"{what} stands in no record: no line with `CPU` stands above")
                self.register(what, word)


def records(text: str, name: str) -> list[Record]:
    """The records of a text. Ends the call where it has none, or one that is cut off."""
    reader = _Reader(name)
    for line in text.splitlines():
        reader.read(line)
    reader.close()
    if not reader.records:
        raise Ended(REFUSED, f"{name}: no record of mcelog, rasdaemon or the kernel's log stands there")
    return reader.records


def log_line(record: Record, frame: Optional[int]) -> str:
    """A `log` line of a record; its address may be moved into a frame of the machine."""
    address = record.address if frame is None else frame * 4096 + record.address % 4096
    return f"log {record.status:#x} {address:#x} {record.misc:#x}"
