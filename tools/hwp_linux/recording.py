"""What is said to the guest and what it answers, written down, and played again without a machine."""
from __future__ import annotations

from typing import Sequence

from .machine import Stopped
from .twin import Guest

ASKED, SAID, STOPPED = "> ", "< ", "! "


def check_text(words: str, events: Sequence[tuple[int, int, int, int]], ripv: int, eipv: int, failures: int) -> str:
    """A machine check as a recording says it."""
    rows = " ".join(f"{bank}:{status:x}:{address:x}:{misc:x}" for bank, status, address, misc in events)
    return f"check {words} {ripv}{eipv}-{failures} {rows}"


class Recorder:
    """A guest that writes down what is said to it and what it answers."""

    def __init__(self, guest: Guest) -> None:
        self.guest = guest
        self.lines: list[str] = []

    def keep(self, asked: str, answers: list[str]) -> list[str]:
        """Writes an order and its answer down."""
        self.lines += [ASKED + asked, *(SAID + line for line in answers)]
        return answers

    def order(self, words: str) -> list[str]:
        """Gives an order."""
        try:
            return self.keep(words, self.guest.order(words))
        except Stopped as why:
            self.lines += [ASKED + words, STOPPED + str(why)]
            raise

    def check(self, words: str, events: Sequence[tuple[int, int, int, int]], ripv: int, eipv: int, failures: int) -> list[str]:
        """Raises a machine check."""
        text = check_text(words, events, ripv, eipv, failures)
        try:
            return self.keep(text, self.guest.check(words, events, ripv, eipv, failures))
        except Stopped as why:
            self.lines += [ASKED + text, STOPPED + str(why)]
            raise

    def nested(self) -> list[str]:
        """Raises a machine check inside a machine check."""
        try:
            return self.keep("nested", self.guest.nested())
        except Stopped as why:
            self.lines += [ASKED + "nested", STOPPED + str(why)]
            raise

    def text(self) -> str:
        """All that was said."""
        return "".join(line + "\n" for line in self.lines)


class Untrue(Exception):
    """A recording is asked what it has no answer to."""


class Recording:
    """A guest that answers as one did that was written down, and refuses other orders."""

    def __init__(self, text: str) -> None:
        self.lines = text.splitlines()

    def order(self, words: str) -> list[str]:
        """Gives an order: it must be the next one of the recording."""
        due = self.lines[0].removeprefix(ASKED) if self.lines else "nothing"
        if words != due:
            raise Untrue(f"the order is {words!r}, and that of the recording {due!r}")
        del self.lines[0]
        said = []
        while self.lines and not self.lines[0].startswith(ASKED):
            line = self.lines.pop(0)
            if line.startswith(STOPPED):
                raise Stopped(line[2:])
            said.append(line[2:])
        return said

    def check(self, words: str, events: Sequence[tuple[int, int, int, int]], ripv: int, eipv: int, failures: int) -> list[str]:
        """Raises a machine check."""
        return self.order(check_text(words, events, ripv, eipv, failures))

    def nested(self) -> list[str]:
        """Raises a machine check inside a machine check."""
        return self.order("nested")
